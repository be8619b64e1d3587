//! The capability "edits": operations a, r and d. Document 01, "Edits".

use std::sync::Arc;

use crate::accepted::{accepted, many, many_and_new};
use crate::bench::{long_stating, LONG_SUM, SUM_12, SUM_13, WRONG_12, WRONG_13, WRONG_LONG};
use crate::bytes::hex;
use crate::capability::{Batch, Both, Capability, Literal};
use crate::cases::{self, long_name, random_content, random_kind, random_name, summed_or_not};
use crate::edit::{self, Refusal};
use crate::guarded::{raw_region, strict_both, strict_holds};
use crate::image::{a_stating, bench_a, image_a, lay, put, Frame, Raw};
use crate::master::{self, Region};
use crate::plain::master_both;
use crate::protocol::{refused, Case};
use crate::rng::Rng;
use crate::walk::{self, Component, LARCHIVE};
use crate::{strict, sums};

pub fn capability() -> Capability {
    Capability { name: "edits", operations: "ard", answer, pairs, bench, both, generated, share: 50 }
}

/// The edit of a case: its result, and the image afterwards.
fn edited(case: &Case) -> (Result<usize, Refusal>, Vec<u8>) {
    let mut image = case.image.to_vec();
    let result = match case.op {
        b'a' => edit::add(&mut image, &case.name, case.number as u32, &case.content),
        b'r' => edit::replace(&mut image, &case.name, &case.content),
        _ => edit::remove(&mut image, &case.name),
    };
    (result, image)
}

fn answer(case: &Case) -> String {
    let (result, image) = edited(case);
    let first = match result {
        Ok(place) => format!("done\t{place}\n"),
        Err((number, place)) => refused(number, place),
    };
    format!("{first}image\t{}\n", hex(&image))
}

/// The order's demand 2 on an accepted edit, seen by the reference: the strict check still accepts; the new content is
/// found under its name with its sum stated, or a removed name nowhere; every other component is as it was.
fn demanded(case: &Case) -> Result<(), String> {
    let (result, image) = edited(case);
    let Ok(place) = result else {
        return if image == *case.image { Ok(()) } else { Err("a refused edit changed the image".into()) };
    };
    let region = master::region(&image).map_err(|_| "an edit broke the master header")?;
    let before = strict::check(&case.image, region).map_err(|_| "an edit of an image not accepted")?;
    let after = strict::check(&image, region).map_err(|_| "an edited image is not accepted")?;
    let own = strict::guarded_lookup(&image, region, &case.name);
    let good = match (case.op, own) {
        (b'd', own) => own == Err(10),
        (_, Ok(it)) => it.place == place && it.checksum != 0 && image[it.content..it.end] == case.content[..],
        (_, Err(_)) => false,
    };
    let others = |list: &[Component], bytes: &[u8]| -> Vec<(Component, Vec<u8>)> {
        list.iter().filter(|it| it.name != case.name).map(|it| (it.clone(), bytes[it.place..it.end].to_vec())).collect()
    };
    if good && others(&before, &case.image) == others(&after, &image) {
        Ok(())
    } else {
        Err("an edit broke demand 2".into())
    }
}

fn pairs() -> Vec<(u8, u32, u32)> {
    let mut list = Vec::new();
    for op in "ard".bytes() {
        list.extend((1..=7).map(|number| (op, number, number + 1)));
        list.extend([(op, 8, 12), (op, 12, 13), (op, 13, 11), (op, 12, 11)]);
    }
    // 14 and 15 cannot hold together, so each stands with what comes before and after the two.
    list.extend([(b'a', 11, 14), (b'a', 11, 15), (b'a', 14, 13), (b'a', 15, 13), (b'a', 13, 16), (b'a', 16, 17)]);
    list.extend([(b'a', 14, 17), (b'a', 15, 16), (b'a', 13, 17)]);
    // The strict check's 11 comes before 13 as add has it, at 1,024 components.
    list.push((b'a', 11, 13));
    list.extend([(b'r', 11, 10), (b'r', 10, 16), (b'r', 10, 17), (b'r', 16, 17), (b'd', 11, 10)]);
    list
}

/// The conditions of 10 and 14 to 17 by themselves; 13 as add has it.
fn edit_holds(number: u32, case: &Case) -> bool {
    let image = &case.image;
    let region = raw_region(image);
    let list = walk::listing(image, region, walk::judge);
    let bears = list.iter().position(|it| it.name == case.name);
    let bytes = edit::span(&case.name, 0, &case.content);
    match number {
        10 => bears.is_none(),
        13 => list.len() >= 1_024,
        14 => edit::unfit(&case.name),
        15 => bears.is_some(),
        16 => edit::contains_magic(&bytes, region.align),
        _ if case.op == b'a' => edit::free_runs(&list, region).iter().all(|(start, end)| end - start < bytes.len()),
        // A replace of a name that no component has has no slot; the whole region stands for it.
        _ => {
            let slot = bears.map_or((region.start, region.end), |index| strict::slots(&list, region)[index]);
            slot.1 - slot.0 < bytes.len()
        }
    }
}

fn both() -> Vec<Both> {
    let mut list = master_both("ard");
    list.extend(strict_both("ard"));

    let same = Arc::new(many(3, true));
    let few = Arc::new(many(3, false));
    let full = Arc::new(many(1_024, false));
    let full_same = Arc::new(many(1_024, true));
    let mut spelled = vec![b'x'; 24];
    spelled[8..16].copy_from_slice(LARCHIVE);
    let mut much = vec![0; 40_000];
    much[8..16].copy_from_slice(LARCHIVE);
    let plenty = vec![0; 40_000];
    let none: &[u8] = b"";
    let table: [(u8, u32, u32, &Arc<Vec<u8>>, &[u8], &[u8]); 17] = [
        (b'a', 11, 14, &same, none, none),
        (b'a', 11, 15, &same, b"c1", none),
        (b'a', 11, 13, &full_same, b"new", none),
        (b'a', 14, 13, &full, b"a b", none),
        (b'a', 15, 13, &full, b"c7", none),
        (b'a', 13, 16, &full, b"new", &spelled),
        (b'a', 13, 17, &full, b"new", &plenty),
        (b'a', 16, 17, &few, b"new", &much),
        (b'a', 14, 17, &few, none, &plenty),
        (b'a', 15, 16, &few, b"c1", &spelled),
        (b'a', 15, 16, &few, b"c2", &much),
        (b'r', 11, 10, &same, b"new", none),
        (b'r', 10, 16, &few, b"new", &spelled),
        (b'r', 10, 17, &few, b"new", &plenty),
        (b'r', 16, 17, &few, b"c1", &much),
        (b'r', 16, 17, &full, b"c1023", &much),
        (b'd', 11, 10, &same, b"new", none),
    ];
    for (op, first, second, image, name, content) in table {
        let case = Case::new(op, image, "two refusals").named(name).holding(content);
        let first_holds = if first == 11 { strict_holds(11, image) } else { edit_holds(first, &case) };
        let second_holds = edit_holds(second, &case);
        list.push(Both { case, first, second, first_holds, second_holds });
    }
    list
}

fn bench() -> Vec<Literal> {
    let mut list = Vec::new();
    let a = Arc::new(image_a());
    let mut add = |case: Case, first: &str, image: &[u8]| {
        list.push(Literal { case, answer: format!("{first}\nimage\t{}\n", hex(image)) });
    };
    let ask = |op: u8, name: &[u8], content: &[u8]| Case::new(op, &a, "bench").named(name).holding(content);
    let refusal = |number: u32| format!("refused\t{number}\t0\t0");

    // Replace cal/12 by 152 bytes fits, 153: 17. Of its sum 2200 all but the len stays; the new len and 90 for each byte come to it.
    let mut image = image_a();
    put(&mut image, 8, &[0, 0, 0, 152]);
    put(&mut image, 16, &15_932u32.to_be_bytes());
    put(&mut image, 40, &[0x5A; 152]);
    add(ask(b'r', b"cal/12", &[0x5A; 152]), "done\t0", &image);
    add(ask(b'r', b"cal/12", &[0x5A; 153]), &refusal(17), &a);
    // A shorter one leaves nothing behind.
    let mut image = image_a();
    put(&mut image, 8, &[0, 0, 0, 3]);
    put(&mut image, 16, &2397u32.to_be_bytes());
    put(&mut image, 40, b"abc");
    put(&mut image, 43, &[0xFF; 149]);
    add(ask(b'r', b"cal/12", b"abc"), "done\t0", &image);
    // Add log of 2776 bytes goes to 256; 2777: 17.
    let header = |length: u32, kind: u32, sum: u32, offset: u32| -> Vec<u8> {
        let mut bytes = b"LARCHIVE".to_vec();
        for number in [length, kind, sum, offset] {
            bytes.extend(number.to_be_bytes());
        }
        bytes
    };
    let with = |name: &[u8], field: usize, content: &[u8], sum: u32| -> Vec<u8> {
        let mut image = image_a();
        put(&mut image, 256, &header(content.len() as u32, 7, sum, 24 + field as u32));
        put(&mut image, 280, &vec![0; field]);
        put(&mut image, 280, name);
        put(&mut image, 280 + field as i64, content);
        image
    };
    // LARCHIVE 590, len 10 + 216, type 7, offset 40, name 322; and the content, whose sum may be above 2^16.
    add(ask(b'a', b"log", &[1; 2776]).numbered(7), "done\t256", &with(b"log", 16, &[1; 2776], 3961));
    add(ask(b'a', b"log", &[1; 2777]).numbered(7), &refusal(17), &a);
    add(ask(b'a', b"log", &[0xFF; 2776]).numbered(7), "done\t256", &with(b"log", 16, &[0xFF; 2776], 709_065));
    add(ask(b'a', b"log", &[]).numbered(7), "done\t256", &with(b"log", 16, &[], 959));
    // LARCHIVE at content byte 24: 16; at byte 25 accepted.
    for (at, good) in [(23, true), (24, false), (25, true)] {
        let mut content = vec![0; 60];
        content[at..at + 8].copy_from_slice(LARCHIVE);
        let case = ask(b'a', b"log", &content).numbered(7);
        if good {
            add(case, "done\t256", &with(b"log", 16, &content, 1609));
        } else {
            add(case, &refusal(16), &a);
        }
    }
    // Name of 15 bytes: offset 40; of 16: offset 56; of 255: 280.
    for (length, field, sum) in [(15, 16, 2812), (16, 32, 2938), (255, 256, 29_197)] {
        let name = vec![b'n'; length];
        add(ask(b'a', &name, b"table").numbered(7), "done\t256", &with(&name, field, b"table", sum));
    }
    // Align 16, new name xxxxxxxxLARCHIVE: 16.
    let (mut frame, components) = bench_a();
    frame.align = 16;
    let sixteen = Arc::new(lay(&frame, &components));
    let case = Case::new(b'a', &sixteen, "bench").named(b"xxxxxxxxLARCHIVE").numbered(7);
    add(case, &refusal(16), &sixteen);
    // Remove sets the whole slot to 0xFF.
    let mut image = image_a();
    put(&mut image, 0, &[0xFF; 192]);
    add(ask(b'd', b"cal/12", b""), "done\t0", &image);
    add(ask(b'd', b"cal/1", b""), &refusal(10), &a);
    // An image with cal/12's len made 500: 12 and its place.
    let long = crate::bench::long_cal_12();
    for op in "ard".bytes() {
        let case = Case::new(op, &long, "bench").named(b"cal/13").holding(b"x");
        add(case, "refused\t12\t192\t0", &long);
    }
    sums_of_a(&mut add);
    // An add to 1,023 components is done, and one to 1,024 refused by 13; the other edits are done there. At 1,025 all are refused.
    let on = |image: Vec<u8>, op: u8, name: &[u8]| Case::new(op, &Arc::new(image), "bench").named(name).numbered(7);
    for count in [256, 257, 1_023] {
        add(on(many(count, false), b'a', b"new"), "done\t0", &many_and_new(count));
    }
    add(on(many_and_new(1_023), b'a', b"more"), &refusal(13), &many_and_new(1_023));
    add(on(many(1_024, false), b'a', b"new"), &refusal(13), &many(1_024, false));
    let (mut replaced, mut removed) = (many(1_024, false), many(1_024, false));
    put(&mut replaced, 49_152 + 8, &[0, 0, 0, 8]);
    put(&mut replaced, 49_152 + 16, &1265u32.to_be_bytes());
    put(&mut replaced, 49_152 + 40, &[9; 8]);
    put(&mut removed, 49_152, &[0xFF; 40]);
    add(on(many(1_024, false), b'r', b"c1023").holding(&[9; 8]), "done\t49152", &replaced);
    add(on(many(1_024, false), b'd', b"c1023"), "done\t49152", &removed);
    for op in "ard".bytes() {
        add(on(many(1_025, false), op, b"c3"), &refusal(13), &many(1_025, false));
    }
    list
}

/// A with sums stated, by request 5 of document 02.
fn sums_of_a(add: &mut dyn FnMut(Case, &str, &[u8])) {
    let ask = |op: u8, image: &[u8]| Case::new(op, &Arc::new(image.to_vec()), "bench").numbered(7);
    // Replace writes the sum, whether or not one was stated; the other component's field stays as it was.
    for (before, after) in [((0, 0), (SUM_12, 0)), ((SUM_12, 0), (SUM_12, 0)), ((0, SUM_13), (SUM_12, SUM_13))] {
        let case = ask(b'r', &a_stating(before.0, before.1)).named(b"cal/12").holding(&[0; 100]);
        add(case, "done\t0", &a_stating(after.0, after.1));
    }
    let summed = a_stating(SUM_12, SUM_13);
    let mut image = summed.clone();
    put(&mut image, 8, &[0, 0, 0, 3]);
    put(&mut image, 16, &2397u32.to_be_bytes());
    put(&mut image, 40, b"abc");
    put(&mut image, 43, &[0xFF; 149]);
    add(ask(b'r', &summed).named(b"cal/12").holding(b"abc"), "done\t0", &image);
    // 300 bytes 0xFF for cal/13: the sum is above 2^16.
    let wide = crate::bench::wide_stating(crate::bench::WIDE_SUM);
    add(ask(b'r', &image_a()).named(b"cal/13").holding(&[0xFF; 300]), "done\t192", &wide);
    let mut image = summed.clone();
    put(&mut image, 0, &[0xFF; 192]);
    add(ask(b'd', &summed).named(b"cal/12"), "done\t0", &image);
    let mut image = summed.clone();
    put(&mut image, 256, &Raw { checksum: 959, ..Raw::new(b"log", 7, b"") }.bytes());
    add(ask(b'a', &summed).named(b"log"), "done\t256", &image);
    // An image with a wrong sum: 12 at its place, for an edit of that component too.
    let mut refused = |image: &[u8], place: usize| {
        for (op, name) in [(b'a', &b"log"[..]), (b'r', b"cal/12"), (b'r', b"cal/13"), (b'd', b"cal/12"), (b'd', b"cal/13")] {
            add(ask(op, image).named(name), &format!("refused\t12\t{place}\t0"), image);
        }
    };
    for wrong in WRONG_12 {
        refused(&a_stating(wrong, SUM_13), 0);
    }
    for wrong in WRONG_13 {
        refused(&a_stating(0, wrong), 192);
    }
    // Len made 500: 12 at cal/13 inside where cal/12 states its sum, and at cal/12 where it states a wrong one.
    refused(&long_stating(LONG_SUM, 0), 192);
    for wrong in WRONG_LONG {
        refused(&long_stating(wrong, 0), 0);
    }
}

/// Three components with gaps between, the region's end off a multiple of align; none where they are not accepted.
fn three(rng: &mut Rng, align: usize, length: usize, gap: usize) -> Option<(Arc<Vec<u8>>, Region, Vec<Component>)> {
    let end = length - 50 - rng.below(20);
    let mut image = if rng.one_in(2) { vec![0xFF; length] } else { rng.bytes(length) };
    let step = (48 / align + 1 + gap) * align;
    for (index, name) in ["one", "two", "three"].iter().enumerate() {
        let at = align + index * step;
        if at + 48 <= end {
            let raw = Raw::new(name.as_bytes(), index as u32, &[5; 8]);
            // The second one has a longer name field than it needs.
            let raw = if index == 1 && step >= 80 { raw.with_field(32) } else { raw };
            put(&mut image, at as i64, &summed_or_not(rng, raw).bytes());
        }
    }
    Frame::new(length, 40, length - end, align, 0).stamp(&mut image);
    let region = master::region(&image).ok()?;
    let list = strict::check(&image, region).ok()?;
    Some((Arc::new(image), region, list))
}

/// Contents that fill a room exactly, and that miss it by one.
fn rooms(image: &Arc<Vec<u8>>, region: Region, list: &[Component], cases: &mut Vec<Case>) {
    let fills = |room: (usize, usize), name: &[u8]| -> Vec<Vec<u8>> {
        let most = (room.1 - room.0) as i64 - edit::span(name, 0, &[]).len() as i64;
        (most - 1..=most + 1).filter(|fill| *fill >= 0).map(|fill| vec![0x33; fill as usize]).collect()
    };
    for name in [&b"n"[..], &long_name(15), &long_name(16), &long_name(255)] {
        for run in edit::free_runs(list, region) {
            for content in fills(run, name) {
                cases.push(Case::new(b'a', image, "edge").named(name).holding(&content).numbered(9));
            }
        }
    }
    for (component, slot) in list.iter().zip(strict::slots(list, region)) {
        for content in fills(slot, &component.name) {
            cases.push(Case::new(b'r', image, "edge").named(&component.name).holding(&content));
        }
        cases.push(Case::new(b'r', image, "edge").named(&component.name));
        cases.push(Case::new(b'd', image, "edge").named(&component.name));
    }
}

/// The magic in the content, around each multiple of align, whole and cut by the content's end.
fn magic_in_content(rng: &mut Rng, image: &Arc<Vec<u8>>, align: usize, component: &Component, cases: &mut Vec<Case>) {
    let head = edit::span(&component.name, 0, &[]).len() as i64;
    for shift in (-8i64..=8).flat_map(|shift| [shift + align as i64, shift + 2 * align as i64, shift + 3 * align as i64]) {
        let at = shift - head;
        for size in [at + 7, at + 8, at + 20] {
            let near = (shift + 1) % align as i64 <= 2;
            if at >= -7 && (0..4000).contains(&size) && (near || rng.one_in(4)) {
                let mut content = vec![0x20; size as usize];
                put(&mut content, at, LARCHIVE);
                let op = *rng.pick(b"ar");
                let name = if op == b'r' { component.name.clone() } else { b"other".to_vec() };
                cases.push(Case::new(op, image, "magic in content").named(&name).holding(&content));
            }
        }
    }
}

/// The magic in the name, and names at their edges.
fn edge_names(image: &Arc<Vec<u8>>, cases: &mut Vec<Case>) {
    for at in 0..40 {
        for tail in [&b""[..], b"y"] {
            let name = [&vec![b'x'; at][..], LARCHIVE, tail].concat();
            cases.push(Case::new(b'a', image, "magic in name").named(&name));
        }
    }
    let mut names = vec![Vec::new(), long_name(256), long_name(254), long_name(1024), vec![0], b"on".to_vec(), b"ones".to_vec()];
    for byte in [0, 0x1F, 0x20, 0x21, 0x7E, 0x7F, 0x80, 0xFF] {
        names.push(vec![byte]);
        names.push(vec![b'a', byte, b'b']);
        names.push([&long_name(14)[..], &[byte]].concat());
    }
    for name in names {
        for op in "ard".bytes() {
            cases.push(Case::new(op, image, "name").named(&name).holding(b"t").numbered(0xFFFF_FFFF));
        }
    }
}

/// Regions in which nothing or just one component fits; and about 256 and about 1,024 components.
fn few_and_many(rng: &mut Rng, cases: &mut Vec<Case>) {
    for size in (0..100).chain([279, 280, 281]) {
        let length = size + 64;
        let image = Arc::new(Frame::new(length, 64, 64, 16, 0).over(rng.bytes(length)));
        for content in [0, 1, 16] {
            cases.push(Case::new(b'a', &image, "small region").named(b"n").holding(&vec![1; content]));
        }
        cases.push(Case::new(b'a', &image, "small region").named(&long_name(255)));
    }
    for count in [255, 256, 257, 258, 1_023, 1_024, 1_025] {
        let image = Arc::new(many(count, false));
        let last = format!("c{}", count - 1);
        for (op, name, fill) in [
            (b'a', &b"new"[..], 0),
            (b'a', b"new", 9),
            (b'a', b"c3", 0),
            (b'a', b"", 0),
            (b'r', b"c3", 0),
            (b'r', b"c9", 8),
            (b'r', b"c9", 9),
            (b'r', b"new", 0),
            (b'd', b"c3", 0),
            (b'd', last.as_bytes(), 0),
        ] {
            cases.push(Case::new(op, &image, "crowd").named(name).holding(&vec![1; fill]));
        }
    }
    // One is added to 1,023, the next one refused until another is removed.
    let mut image = Arc::new(many(1_023, false));
    for (op, name) in [(b'a', "new"), (b'a', "more"), (b'd', "c500"), (b'a', "more"), (b'a', "last"), (b'r', "more")] {
        let case = Case::new(op, &image, "crowd").named(name.as_bytes());
        image = Arc::new(edited(&case).1);
        cases.push(case);
    }
}

/// The longest name and no content at the region's end: replaced and removed where it stands; added to the run that it leaves,
/// which holds it exactly, or is one byte too short or too long. One byte of content more is tried too.
fn longest(cases: &mut Vec<Case>) {
    for scene in cases::longest() {
        let (place, end) = (scene.numbers[1] as usize, scene.numbers[3] as usize);
        let mut image = scene.image.to_vec();
        image[place..end].fill(0xFF);
        let left = Arc::new(image);
        for name in &scene.names[..2] {
            let mut edit = |op: u8, image: &Arc<Vec<u8>>, content: &[u8]| {
                cases.push(Case::new(op, image, scene.note).named(name).holding(content).numbered(9));
            };
            edit(b'd', &scene.image, b"");
            for content in [&b""[..], b"x", b"xy"] {
                edit(b'r', &scene.image, content);
                edit(b'a', &scene.image, content);
                edit(b'a', &left, content);
            }
        }
    }
}

/// Contents that fill the longest region, or miss it by one byte: written with a sum of nearly 2^24.
fn widest(cases: &mut Vec<Case>) {
    let (frame, raw) = cases::widest();
    let empty = Arc::new(lay(&frame, &[]));
    let full = Arc::new(lay(&frame, &[(64, raw.clone().summed())]));
    for size in [raw.content.len() - 1, raw.content.len(), raw.content.len() + 1] {
        let content = vec![0xFF; size];
        cases.push(Case::new(b'a', &empty, "widest").named(b"wide").holding(&content).numbered(0xFFFF_FFFF));
        cases.push(Case::new(b'r', &full, "widest").named(b"wide").holding(&content));
    }
}

/// Single edits at every boundary.
fn edges(rng: &mut Rng, cases: &mut Vec<Case>) {
    for (align, length) in [(16, 600), (64, 1200), (256, 2400), (1024, 5000)] {
        for gap in [0, 1, 2] {
            if let Some((image, region, list)) = three(rng, align, length, gap) {
                rooms(&image, region, &list, cases);
                for component in &list {
                    magic_in_content(rng, &image, align, component, cases);
                }
                edge_names(&image, cases);
            }
        }
    }
    few_and_many(rng, cases);
    widest(cases);
}

/// One random edit of an image, often at an edge of a room in it.
fn random_edit(rng: &mut Rng, image: &Arc<Vec<u8>>) -> Case {
    let mut rooms = vec![60];
    let mut names = vec![b"a".to_vec()];
    if let Ok(region) = master::region(image) {
        if let Ok(list) = strict::check(image, region) {
            rooms.extend(edit::free_runs(&list, region).iter().map(|(start, end)| end - start));
            rooms.extend(strict::slots(&list, region).iter().map(|(start, end)| end - start));
            names.extend(list.iter().map(|it| it.name.clone()));
        }
    }
    let op = *rng.pick(b"aaarrd");
    let known = rng.pick(&names).clone();
    let name = match op {
        b'a' if !rng.one_in(12) => random_name(rng),
        b'r' | b'd' if rng.one_in(12) => rng.pick(&cases::around(&known)).clone(),
        _ => known,
    };
    let head = 24 + (name.len() + 1).div_ceil(16) * 16;
    let room = rng.pick(&rooms).saturating_sub(head);
    let length = match rng.below(6) {
        0 => room,
        1 => room + 1,
        2 => room.saturating_sub(1),
        3 => rng.below(room + 1),
        _ => rng.below(70),
    };
    let content = if op == b'd' { Vec::new() } else { random_content(rng, length) };
    let kind = random_kind(rng) as u64;
    Case::new(op, image, "random edit").named(&name).holding(&content).numbered(if op == b'a' { kind } else { 0 })
}

/// The same edit of an image in which a component has a wrong sum, or a byte of it is another under its sum. None where there is none.
fn of_wrong_sum(rng: &mut Rng, case: &Case) -> Option<Case> {
    let mut image = case.image.to_vec();
    let region = master::region(&image).ok()?;
    let list = walk::listing(&image, region, walk::judge);
    let it = list.get(rng.below(list.len()))?;
    if it.checksum != 0 && rng.one_in(2) {
        image[it.place + 24 + rng.below(it.end - it.place - 24)] ^= 1 << rng.below(8);
    } else {
        let stated = sums::wrong(rng);
        sums::state(rng, &mut image, it.place, stated);
    }
    Some(Case { image: Arc::new(image), note: "wrong sum", ..case.clone() })
}

fn generated(seed: u64, count: usize) -> Vec<Batch> {
    let mut rng = Rng::new(seed ^ 0xED17);
    let mut cases = Vec::new();
    edges(&mut rng, &mut cases);

    // Refused images of every kind, and stated sums of every kind.
    for scene in cases::fixed(&mut rng) {
        if scene.note == "checksum" {
            let name = if rng.one_in(2) { &scene.names[0] } else { scene.names.last().expect("a name") };
            cases.push(Case::new(b'a', &scene.image, scene.note).named(b"new").holding(b"x"));
            cases.push(Case::new(b'r', &scene.image, scene.note).named(name).holding(b"xyz"));
            cases.push(Case::new(b'd', &scene.image, scene.note).named(name));
        }
        let seldom = scene.note.starts_with("master") || scene.note.starts_with("pointer") || scene.note.starts_with("length");
        if seldom && scene.image.len() < 5_000 && rng.one_in(6) {
            for op in "ard".bytes() {
                cases.push(Case::new(op, &scene.image, scene.note).named(b"a").holding(b"x"));
            }
        }
    }
    let target = cases.len() + count / 5;
    while cases.len() < target {
        let scene = cases::random(&mut rng);
        if scene.image.len() < 5_000 {
            cases.push(random_edit(&mut rng, &scene.image));
        }
    }

    // Sequences of edits on one image; now and then one of them on the image with a wrong sum besides, which leaves the sequence as it is.
    let target = cases.len() + count * 3 / 5;
    while cases.len() < target {
        let most = if rng.one_in(20) { 8_192 } else { 2_500 };
        let Some(image) = accepted(&mut rng, most) else {
            break;
        };
        let mut image = Arc::new(image);
        for _ in 0..rng.range(3, 25) {
            let case = random_edit(&mut rng, &image);
            if rng.one_in(8) {
                cases.extend(of_wrong_sum(&mut rng, &case));
            }
            let (_, after) = edited(&case);
            image = Arc::new(after);
            cases.push(case);
        }
    }

    longest(&mut cases);

    // The reference's own edits keep the order's demand 2.
    let mut broken = None;
    for case in &cases {
        if let Err(text) = demanded(case) {
            broken = Some(format!("the reference: {text}: {}", case.describe()));
        }
    }
    let after: crate::capability::After = Box::new(move |_| broken.clone().map_or(Ok(Vec::new()), Err));
    vec![Batch { cases, after: Some(after) }]
}
