//! The capability "finds": operations e and z, the numbers of the component that a lookup finds; u and v, the name and the content
//! of the component at a place that the caller names. Document 01, "Components and the two walks".

use std::sync::Arc;

use crate::bench::{
    long_cal_12, long_stating, reframed, twice_cal_13, twice_stating, wide_stating, CAL_12, CAL_13, GOOD, LONG_SUM, SUM_12,
    WIDE_SUM, WRONG_12, WRONG_13, WRONG_LONG, WRONG_WIDE,
};
use crate::bytes::hex;
use crate::capability::{Batch, Both, Capability, Literal};
use crate::cases::{self, long_name, summed_or_not, Scene};
use crate::guarded::raw_region;
use crate::image::{a_stating, image_a, lay, put, Frame, Raw};
use crate::master::{self, Region};
use crate::plain::master_both;
use crate::protocol::{refused, Case};
use crate::rng::Rng;
use crate::sums::{magics, mostly_good, state_each, Stated};
use crate::walk::{self, Component, LARCHIVE};
use crate::{conditions, strict};

pub fn capability() -> Capability {
    Capability { name: "finds", operations: "ezuv", answer, pairs, bench, both, generated, share: 40 }
}

fn answer(case: &Case) -> String {
    let image = &case.image;
    let region = match master::region(image) {
        Ok(region) => region,
        // A refused image gives an empty part.
        Err(_) if matches!(case.op, b'u' | b'v') => return part(b""),
        Err(number) => return refused(number, 0),
    };
    match case.op {
        b'e' => numbers(region, walk::plain_lookup(image, region, &case.name)),
        b'z' => numbers(region, strict::guarded_lookup(image, region, &case.name)),
        op => match walk::component_at(image, region, case.number) {
            None => part(b""),
            Some(it) if op == b'u' => part(&it.name),
            Some(it) => part(&image[it.content..it.end]),
        },
    }
}

/// The numbers of a found component: its place, the fields of its header, its name's length and the number to go on from; the checksum last.
fn numbers(region: Region, result: Result<Component, u32>) -> String {
    match result {
        Err(number) => refused(number, 0),
        Ok(it) => {
            let offset = it.content - it.place;
            let len = it.end - it.content;
            let named = it.name.len();
            let next = walk::next_place(region, it.end);
            format!("found\t{}\t{offset}\t{len}\t{}\t{named}\t{next}\t{}\n", it.place, it.kind, it.checksum)
        }
    }
}

fn part(bytes: &[u8]) -> String {
    format!("part\t{}\n", hex(bytes))
}

fn pairs() -> Vec<(u8, u32, u32)> {
    let mut list = Vec::new();
    for op in "ez".bytes() {
        list.extend((1..=7).map(|number| (op, number, number + 1)));
        list.push((op, 8, 10));
    }
    list.push((b'z', 8, 11));
    list
}

fn both() -> Vec<Both> {
    let mut list = master_both("ez");
    // Offset off a multiple of align, and a name that two components bear.
    let frame = Frame { offset: 32, ..Frame::new(1024, 64, 256, 64, 0) };
    let twins = [(64, Raw::new(b"a", 1, b"")), (128, Raw::new(b"a", 1, b""))];
    let image = Arc::new(lay(&frame, &twins));
    let first_holds = conditions::holds(8, &image);
    let bearers = walk::bearers(&walk::listing(&image, raw_region(&image), strict::guarded), b"a");
    for (op, name, second, second_holds) in
        [(b'e', b"b", 10, !image.contains(&b'b')), (b'z', b"b", 10, !image.contains(&b'b')), (b'z', b"a", 11, bearers.len() == 2)]
    {
        let case = Case::new(op, &image, "two refusals").named(name);
        list.push(Both { case, first: 8, second, first_holds, second_holds });
    }
    list
}

/// Bench image A and its variants, answers written out.
fn bench() -> Vec<Literal> {
    let mut list = Vec::new();
    let mut add = |case: Case, answer: String| list.push(Literal { case, answer });
    let ask = |op: u8, image: &Arc<Vec<u8>>| Case::new(op, image, "bench");
    let (hundred, zeros) = ("00".repeat(100), "00".repeat(24));

    let a = Arc::new(image_a());
    for op in "ez".bytes() {
        add(ask(op, &a).named(b"cal/12"), "found\t0\t40\t100\t4294967295\t6\t192\t0\n".into());
        add(ask(op, &a).named(b"cal/13"), "found\t192\t40\t24\t4294967295\t6\t256\t0\n".into());
        for name in [&b"cal/1"[..], b"cal/123", b"cal/12\0", b""] {
            add(ask(op, &a).named(name), "refused\t10\t0\t0\n".into());
        }
    }
    for (place, name, content) in [(0, CAL_12, &hundred[..]), (192, CAL_13, &zeros)] {
        add(ask(b'u', &a).numbered(place), format!("part\t{name}\n"));
        add(ask(b'v', &a).numbered(place), format!("part\t{content}\n"));
    }
    for number in [1, 16, 32, 63, 64, 191, 193, 256, 3071, 3072, 3073, 4096, 1 << 32, (1 << 32) + 192, 1 << 63, u64::MAX] {
        for op in "uv".bytes() {
            add(ask(op, &a).numbered(number), "part\t-\n".into());
        }
    }
    // A with cal/12's len made 500: both components are there to be asked by their places, though each walk takes only one.
    let long = long_cal_12();
    add(ask(b'u', &long), format!("part\t{CAL_12}\n"));
    add(ask(b'u', &long).numbered(192), format!("part\t{CAL_13}\n"));
    add(ask(b'v', &long).numbered(192), format!("part\t{zeros}\n"));
    add(ask(b'e', &long).named(b"cal/12"), "found\t0\t40\t500\t4294967295\t6\t576\t0\n".into());
    add(ask(b'e', &long).named(b"cal/13"), "refused\t10\t0\t0\n".into());
    add(ask(b'z', &long).named(b"cal/12"), "refused\t10\t0\t0\n".into());
    add(ask(b'z', &long).named(b"cal/13"), "found\t192\t40\t24\t4294967295\t6\t256\t0\n".into());
    // A with cal/12's name made cal/13.
    let twice = twice_cal_13();
    add(ask(b'e', &twice).named(b"cal/13"), "found\t0\t40\t100\t4294967295\t6\t192\t0\n".into());
    add(ask(b'z', &twice).named(b"cal/13"), "refused\t11\t0\t0\n".into());
    // A refused image has no parts.
    let refused = reframed(|frame| frame.align = 48);
    for op in "uv".bytes() {
        add(ask(op, &refused), "part\t-\n".into());
    }
    // A name of 255 bytes and no content: offset 280, and the span ends with the region.
    let longest = lay(&Frame::new(408, 36, 64, 64, 64), &[(64, Raw::new(&[b'n'; 255], 80, b""))]);
    let longest = Arc::new(longest);
    for op in "ez".bytes() {
        add(ask(op, &longest).named(&[b'n'; 255]), "found\t64\t280\t0\t80\t255\t344\t0\n".into());
    }
    add(ask(b'u', &longest).numbered(64), format!("part\t{}\n", "6e".repeat(255)));
    add(ask(b'v', &longest).numbered(64), "part\t-\n".into());
    sums_of_a(&mut add);
    list
}

/// A with sums stated, by request 5 of document 02.
fn sums_of_a(add: &mut dyn FnMut(Case, String)) {
    let ask = |op: u8, image: &Arc<Vec<u8>>| Case::new(op, image, "bench");
    let nobody = "refused\t10\t0\t0\n";
    for (one, other) in GOOD {
        let image = Arc::new(a_stating(one, other));
        for op in "ez".bytes() {
            add(ask(op, &image).named(b"cal/12"), format!("found\t0\t40\t100\t4294967295\t6\t192\t{one}\n"));
            add(ask(op, &image).named(b"cal/13"), format!("found\t192\t40\t24\t4294967295\t6\t256\t{other}\n"));
        }
        add(ask(b'u', &image), format!("part\t{CAL_12}\n"));
        add(ask(b'v', &image).numbered(192), format!("part\t{}\n", "00".repeat(24)));
    }
    let not_served = |image: Arc<Vec<u8>>, name: &[u8], place: u64, add: &mut dyn FnMut(Case, String)| {
        for op in "ez".bytes() {
            add(ask(op, &image).named(name), nobody.into());
        }
        for op in "uv".bytes() {
            add(ask(op, &image).numbered(place), "part\t-\n".into());
        }
    };
    for wrong in WRONG_12 {
        not_served(Arc::new(a_stating(wrong, 0)), b"cal/12", 0, add);
    }
    for wrong in WRONG_13 {
        not_served(Arc::new(a_stating(SUM_12, wrong)), b"cal/13", 192, add);
    }
    for wrong in WRONG_WIDE {
        not_served(wide_stating(wrong), b"cal/13", 192, add);
    }
    for op in "ez".bytes() {
        let found = format!("found\t192\t40\t300\t4294967295\t6\t576\t{WIDE_SUM}\n");
        add(ask(op, &wide_stating(WIDE_SUM)).named(b"cal/13"), found);
    }
    // Len made 500: with its sum cal/12 is found by the plain walk, and is there by its place; with a wrong one neither.
    let long = long_stating(LONG_SUM, 0);
    add(ask(b'e', &long).named(b"cal/12"), format!("found\t0\t40\t500\t4294967295\t6\t576\t{LONG_SUM}\n"));
    add(ask(b'e', &long).named(b"cal/13"), nobody.into());
    add(ask(b'z', &long).named(b"cal/12"), nobody.into());
    add(ask(b'u', &long), format!("part\t{CAL_12}\n"));
    add(ask(b'u', &long).numbered(192), format!("part\t{CAL_13}\n"));
    for wrong in WRONG_LONG {
        let long = long_stating(wrong, 0);
        add(ask(b'e', &long).named(b"cal/13"), "found\t192\t40\t24\t4294967295\t6\t256\t0\n".into());
        not_served(long, b"cal/12", 0, add);
    }
    // Name made cal/13: the sum that was right is so no longer.
    for (op, stated, answer) in [
        (b'e', 2201, "found\t0\t40\t100\t4294967295\t6\t192\t2201\n"),
        (b'e', 2200, "found\t192\t40\t24\t4294967295\t6\t256\t0\n"),
        (b'z', 2201, "refused\t11\t0\t0\n"),
        (b'z', 2200, "found\t192\t40\t24\t4294967295\t6\t256\t0\n"),
    ] {
        add(ask(op, &twice_stating(stated)).named(b"cal/13"), answer.into());
    }
}

/// A region that begins above 0, with every kind of place: components with and without content, one whose span holds others, at
/// places and off them, headers that are ill formed, a magic alone; and well-formed headers below the region and after its end.
fn places(align: usize, ragged: usize) -> (Frame, Vec<u8>) {
    let start = 2 * align;
    let step = 80usize.div_ceil(align) * align;
    let end = start + 12 * step + ragged;
    let length = end + 2 * step + 400;
    let mut image = vec![0xFF; length];
    let mut set = |place: usize, raw: &Raw| put(&mut image, place as i64, &raw.bytes());
    let at = |turn: usize| start + turn * step;
    let content = |turns: usize, beyond: usize| vec![0x5A; turns * step - 40 + beyond];

    set(0, &Raw::new(b"below", 1, b"content"));
    // Its span ends a byte after a place. One component stands at a place in it, one off any place.
    set(at(0), &Raw::new(b"outer", 2, &content(3, 1)));
    set(at(1), &Raw::new(b"inner", 3, b"inside"));
    set(at(2) + 8, &Raw::new(b"beside", 4, b"inside"));
    set(at(4), &Raw::new(b"empty", 5, b""));
    set(at(5), &Raw { offset: 41, ..Raw::new(b"ill", 6, b"formed") });
    set(at(6), &Raw { magic: *b"LARCHIVF", ..Raw::new(b"other", 7, b"magic") });
    set(at(7), &Raw { len: u32::MAX, ..Raw::new(b"wraps", 8, b"") });
    set(at(8), &Raw::new(b"twin", 9, b"first").with_field(32));
    set(at(9), &Raw::new(b"twin", 10, b"second"));
    set(at(11), &Raw::new(b"last", 11, &content(1, ragged)));
    // After the region, at its end or at the first multiple of align after it.
    let after = end.div_ceil(align) * align;
    set(after, &Raw::new(b"after", 12, b"content"));
    put(&mut image, at(10) as i64, LARCHIVE);
    // Off any place where align is more than 16.
    put(&mut image, at(10) as i64 + 16, &Raw::new(b"sixteen", 13, b"beside").bytes());
    let frame = Frame::new(length, 36, length - end, align, start);
    (frame, image)
}

/// Numbers at, beside and between the places of a region, before it and after it, and those that agree with them in 32 or 63 bits.
fn around_places(frame: &Frame) -> Vec<u64> {
    let (start, end, align) = (frame.offset as u64, frame.end() as u64, frame.align as u64);
    let mut list = cases::numbers(start, end, align);
    for place in (0..end + 3 * align).step_by(align as usize) {
        list.extend([place, place + 1, place + 8, place + 16, place + align / 2, place.wrapping_sub(1)]);
        list.extend([place + (1 << 32), place + (1 << 63), place.wrapping_sub(start), u64::MAX - place]);
    }
    list.sort();
    list.dedup();
    list
}

fn every_place(cases: &mut Vec<Case>) {
    for (align, ragged) in [(16, 0), (16, 9), (64, 0), (64, 33), (256, 0), (256, 255), (1024, 100)] {
        let (frame, image) = places(align, ragged);
        let image = Arc::new(frame.over(image));
        for number in around_places(&frame) {
            for op in "uv".bytes() {
                cases.push(Case::new(op, &image, "place").numbered(number));
            }
        }
        for name in ["below", "outer", "inner", "beside", "empty", "ill", "other", "wraps", "twin", "last", "after", "none"] {
            for op in "ez".bytes() {
                cases.push(Case::new(op, &image, "place").named(name.as_bytes()));
            }
        }
    }
}

/// The same images with sums stated: the right ones, and right and wrong ones.
fn summed_places(rng: &mut Rng, cases: &mut Vec<Case>) {
    for (align, ragged) in [(16, 9), (64, 0), (64, 33), (256, 255)] {
        for choose in [|_: &mut Rng| Stated::Right, mostly_good, mostly_good, mostly_good] {
            let (frame, image) = places(align, ragged);
            let mut image = frame.over(image);
            let carrying = magics(&image, frame.region());
            state_each(rng, &mut image, &carrying, choose);
            let image = Arc::new(image);
            for number in (0..image.len() as u64).step_by(align) {
                for op in "uv".bytes() {
                    cases.push(Case::new(op, &image, "checksum").numbered(number));
                }
            }
            for name in ["outer", "inner", "empty", "ill", "wraps", "twin", "last"] {
                for op in "ez".bytes() {
                    cases.push(Case::new(op, &image, "checksum").named(name.as_bytes()));
                }
            }
        }
    }
}

/// The same images, refused by each of 1 to 8, asked for what stands in them.
fn refused_images(cases: &mut Vec<Case>) {
    let mut images = vec![lay(&Frame::new(63, 36, 0, 16, 0), &[])];
    put(&mut images[0], 0, &Raw::new(b"empty", 1, b"").bytes());
    let (right, image) = places(64, 33);
    for frame in [
        right.clone(),
        Frame { pointer: 0xFFFF_FFDD, ..right.clone() },
        Frame { magic: right.magic ^ 1, ..right.clone() },
        Frame { version: 0x3131_3132, ..right.clone() },
        Frame { romsize: right.romsize + 1, ..right.clone() },
        Frame { boot: 35, ..right.clone() },
        Frame { boot: right.romsize + 1, ..right.clone() },
        Frame { align: 8, ..right.clone() },
        Frame { align: 96, ..right.clone() },
        Frame { offset: right.offset + 16, ..right.clone() },
        Frame { offset: right.end() as u32 / 64 * 64 + 64, ..right },
    ] {
        images.push(frame.over(image.clone()));
    }
    for image in images {
        let image = Arc::new(image);
        for place in (0..image.len() as u64).step_by(64) {
            for op in "uv".bytes() {
                cases.push(Case::new(op, &image, "refused image").numbered(place));
            }
        }
        for op in "ez".bytes() {
            cases.push(Case::new(op, &image, "refused image").named(b"empty"));
        }
    }
}

/// Spans that end at a place, one byte before and after it, and at the region's end; names of every length that changes the offset.
fn ends(rng: &mut Rng, cases: &mut Vec<Case>) {
    for align in [16, 64, 1024] {
        for name in [1, 15, 16, 31, 32, 239, 240, 254, 255].map(long_name) {
            let head = Raw::new(&name, 0, b"").bytes().len();
            let round = (head + 2).div_ceil(align) * align;
            for size in [head, round - 1, round, round + 1] {
                for spare in [0, 1, align - 1, align, align + 41] {
                    let start = 3 * align;
                    let end = start + size + spare;
                    let raw = summed_or_not(rng, Raw::new(&name, 0x1234_5678, &vec![0xA5; size - head]));
                    let image = Arc::new(lay(&Frame::new(end + 64, 36, 64, align, start), &[(start, raw)]));
                    for op in "ez".bytes() {
                        cases.push(Case::new(op, &image, "end").named(&name));
                    }
                    for op in "uv".bytes() {
                        cases.push(Case::new(op, &image, "end").numbered(start as u64));
                    }
                }
            }
        }
    }
}

/// A scene's names and numbers, and some of the places that carry the magic, or would if they lay in the region.
fn ask(rng: &mut Rng, scene: &Scene, cases: &mut Vec<Case>) {
    for name in &scene.names {
        for op in "ez".bytes() {
            cases.push(Case::new(op, &scene.image, scene.note).named(name));
        }
    }
    let magics = scene.image.windows(8).enumerate().filter(|(_, part)| part == LARCHIVE).map(|(at, _)| at as u64);
    let few: Vec<u64> = magics.take(40).collect();
    let mut numbers = scene.numbers.clone();
    for _ in 0..few.len().min(2) {
        numbers.push(*rng.pick(&few));
    }
    for number in numbers {
        for op in "uv".bytes() {
            cases.push(Case::new(op, &scene.image, scene.note).numbered(number));
        }
    }
}

fn generated(seed: u64, count: usize) -> Vec<Batch> {
    let mut rng = Rng::new(seed ^ 0xF1D5);
    let mut cases = Vec::new();
    every_place(&mut cases);
    refused_images(&mut cases);
    ends(&mut rng, &mut cases);
    summed_places(&mut rng, &mut cases);
    cases::longest().iter().for_each(|scene| ask(&mut rng, scene, &mut cases));
    for scene in cases::fixed(&mut rng) {
        if scene.note == "checksum" || scene.image.len() < 20_000 && rng.one_in(10) {
            ask(&mut rng, &scene, &mut cases);
        }
    }
    let target = cases.len() + count / 2;
    while cases.len() < target {
        let scene = cases::random(&mut rng);
        ask(&mut rng, &scene, &mut cases);
    }
    vec![Batch::plain(cases)]
}
