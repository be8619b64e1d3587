//! The capability "guarded": operations g, j, k and c. Document 01, "Components and the two walks".

use std::sync::Arc;

use crate::accepted::{many, many_and_new};
use crate::bench::{
    long_cal_12, long_stating, twice_cal_13, twice_stating, wide_stating, CAL_12, CAL_13, GOOD, LONG_SUM, LONG_SUM_OVER_SUM,
    SUM_12, SUM_13, WIDE_SUM, WRONG_12, WRONG_13, WRONG_LONG, WRONG_WIDE,
};
use crate::bytes::big32;
use crate::capability::{Batch, Both, Capability, Literal};
use crate::cases::{self, Scene};
use crate::image::{a_stating, image_a, lay, put, Frame, Raw};
use crate::master::{self, Region};
use crate::plain::{found, listing, master_both, step};
use crate::protocol::{refused, Case};
use crate::rng::Rng;
use crate::sums::{mostly_good, state, Stated};
use crate::walk::{self, LARCHIVE};
use crate::{conditions, corrupter, strict, sums};

pub fn capability() -> Capability {
    Capability { name: "guarded", operations: "gjkc", answer, pairs, bench, both, generated, share: 60 }
}

fn answer(case: &Case) -> String {
    let image = &case.image;
    let region = match master::region(image) {
        Ok(region) => region,
        Err(number) => return refused(number, 0),
    };
    match case.op {
        b'g' => listing(image, region, strict::guarded),
        b'j' => step(image, region, case.number, strict::guarded),
        b'k' => found(image, strict::guarded_lookup(image, region, &case.name)),
        _ => match strict::check(image, region) {
            Err((number, place)) => refused(number, place),
            Ok(list) => {
                let places: String = list.iter().map(|it| format!("\t{}", it.place)).collect();
                format!("accepted\t{}\t0{places}\n", list.len())
            }
        },
    }
}

fn pairs() -> Vec<(u8, u32, u32)> {
    let mut list = Vec::new();
    for op in "gjkc".bytes() {
        list.extend((1..=7).map(|number| (op, number, number + 1)));
    }
    list.extend([(b'j', 8, 9), (b'k', 8, 10), (b'k', 8, 11), (b'c', 8, 12), (b'c', 12, 13), (b'c', 13, 11), (b'c', 12, 11)]);
    list
}

/// The region of an image as its header's numbers have it, read without their checks; its start at the first place.
pub fn raw_region(image: &[u8]) -> Region {
    let pointer =
        u32::from_le_bytes([image[image.len() - 4], image[image.len() - 3], image[image.len() - 2], image[image.len() - 1]]);
    let at = image.len() - pointer.wrapping_neg() as usize;
    let align = big32(image, at + 16) as usize;
    let start = (big32(image, at + 20) as usize + align - 1) / align * align;
    Region { start, end: image.len() - big32(image, at + 12) as usize, align }
}

/// The conditions of 12, 13 and 11 by themselves, on that region.
pub fn strict_holds(number: u32, image: &[u8]) -> bool {
    let region = raw_region(image);
    let list = walk::listing(image, region, walk::judge);
    match number {
        12 => strict::untaken(image, region).is_some(),
        13 => list.len() > strict::MOST,
        _ => strict::twice(&list),
    }
}

/// Images in which two of 8, 12, 13, 11 hold, with the two.
fn strict_pairs() -> Vec<(u32, u32, Arc<Vec<u8>>)> {
    // Offset off a multiple of align, and a magic without a header.
    let frame = Frame { offset: 32, ..Frame::new(1024, 64, 256, 64, 0) };
    let mut image = vec![0xA5; 1024];
    put(&mut image, 128, LARCHIVE);
    let eight = frame.over(image);
    // 1,025 components and such a magic.
    let mut crowd = many(1_025, false);
    put(&mut crowd, 48 * 1_026, LARCHIVE);
    let mut same = many(3, true);
    put(&mut same, 0, LARCHIVE);
    // The same two, where the magic is a component's with a wrong sum.
    let (mut wrong_crowd, mut wrong_same) = (many(1_026, false), many(4, true));
    put(&mut wrong_crowd, 48 + 16, &[0xFF; 4]);
    put(&mut wrong_same, 96 + 16, &[0xFF; 4]);
    vec![
        (8, 12, Arc::new(eight)),
        (12, 13, Arc::new(crowd)),
        (12, 13, Arc::new(wrong_crowd)),
        (13, 11, Arc::new(many(1_025, true))),
        (12, 11, Arc::new(same)),
        (12, 11, Arc::new(wrong_same)),
    ]
}

/// Each of these operations on each of those images, with the name of a component in them.
pub fn strict_both(operations: &str) -> Vec<Both> {
    let mut list = Vec::new();
    for (first, second, image) in strict_pairs() {
        let first_holds = if first == 8 { conditions::holds(8, &image) } else { strict_holds(first, &image) };
        let second_holds = strict_holds(second, &image);
        for op in operations.bytes() {
            let case = Case::new(op, &image, "two refusals").named(b"c0");
            list.push(Both { case, first, second, first_holds, second_holds });
        }
    }
    list
}

fn both() -> Vec<Both> {
    let mut list = master_both("gjkc");
    list.extend(strict_both("c"));
    let mut pair = |case: Case, second: u32, first_holds: bool, second_holds: bool| {
        list.push(Both { case, first: 8, second, first_holds, second_holds });
    };
    let frame = Frame { offset: 32, ..Frame::new(1024, 64, 256, 64, 0) };
    let mut image = vec![0xA5; 1024];
    put(&mut image, 64, &Raw::new(b"a", 1, b"").bytes());
    put(&mut image, 128, &Raw::new(b"a", 1, b"").bytes());
    let image = Arc::new(frame.over(image));
    let eight = conditions::holds(8, &image);
    for number in [0, 31, 33, 769, u64::MAX] {
        let nine = number < 32 || number > 768 || number % 64 != 0;
        pair(Case::new(b'j', &image, "two refusals").numbered(number), 9, eight, nine);
    }
    pair(Case::new(b'k', &image, "two refusals").named(b"b"), 10, eight, !image.contains(&b'b'));
    let bearers = walk::bearers(&walk::listing(&image, raw_region(&image), strict::guarded), b"a");
    pair(Case::new(b'k', &image, "two refusals").named(b"a"), 11, eight, bearers.len() == 2);
    list
}

fn bench() -> Vec<Literal> {
    let mut list = Vec::new();
    let mut add = |case: Case, answer: String| list.push(Literal { case, answer });
    let ask = |op: u8, image: &Arc<Vec<u8>>| Case::new(op, image, "bench");
    let zeros = "00".repeat(24);
    let second = format!("192\t4294967295\t{CAL_13}\t{zeros}");

    let a = Arc::new(image_a());
    add(ask(b'c', &a), "accepted\t2\t0\t0\t192\n".into());
    add(ask(b'k', &a).named(b"cal/13"), format!("found\t192\t4294967295\t{zeros}\n"));
    add(ask(b'k', &a).named(b"cal/1"), "refused\t10\t0\t0\n".into());
    // A with cal/12's len made 500: guarded lists only cal/13, at 192; the strict check reports 192.
    let long = long_cal_12();
    add(ask(b'g', &long), format!("component\t{second}\nend\t1\n"));
    add(ask(b'j', &long), format!("taken\t{second}\t256\n"));
    add(ask(b'k', &long).named(b"cal/13"), format!("found\t192\t4294967295\t{zeros}\n"));
    add(ask(b'k', &long).named(b"cal/12"), "refused\t10\t0\t0\n".into());
    add(ask(b'c', &long), "refused\t12\t192\t0\n".into());
    // A with cal/12's name made cal/13: guarded refuses 11.
    let twice = twice_cal_13();
    add(ask(b'k', &twice).named(b"cal/13"), "refused\t11\t0\t0\n".into());
    add(ask(b'c', &twice), "refused\t11\t0\t0\n".into());
    // Empty region: an empty listing.
    let empty = crate::bench::reframed(|frame| frame.boot = 4096);
    add(ask(b'g', &empty), "end\t0\n".into());
    add(ask(b'j', &empty), "none\n".into());
    add(ask(b'c', &empty), "accepted\t0\t0\n".into());
    sums_of_a(&mut add);
    // 1,024 components are accepted, as an add to 1,023 leaves them too; 1,025 are not. Equal names are 11 at 1,024 and 13 at 1,025.
    let places = |count: usize| -> String { (1..=count).map(|index| format!("\t{}", 48 * index)).collect() };
    for count in [256, 257, 1_023, 1_024] {
        add(ask(b'c', &Arc::new(many(count, false))), format!("accepted\t{count}\t0{}\n", places(count)));
    }
    add(ask(b'c', &Arc::new(many_and_new(1_023))), format!("accepted\t1024\t0\t0{}\n", places(1_023)));
    add(ask(b'c', &Arc::new(many(1_024, true))), "refused\t11\t0\t0\n".into());
    add(ask(b'c', &Arc::new(many(1_025, false))), "refused\t13\t0\t0\n".into());
    add(ask(b'c', &Arc::new(many(1_025, true))), "refused\t13\t0\t0\n".into());
    list
}

/// A with sums stated, by request 5 of document 02.
fn sums_of_a(add: &mut dyn FnMut(Case, String)) {
    let ask = |op: u8, image: &Arc<Vec<u8>>| Case::new(op, image, "bench");
    let (hundred, zeros) = ("00".repeat(100), "00".repeat(24));
    let first = format!("0\t4294967295\t{CAL_12}\t{hundred}");
    let second = format!("192\t4294967295\t{CAL_13}\t{zeros}");
    let found_second = format!("found\t192\t4294967295\t{zeros}\n");
    let refusal = |number: u32, place: usize| format!("refused\t{number}\t{place}\t0\n");

    for (one, other) in GOOD {
        let image = Arc::new(a_stating(one, other));
        add(ask(b'c', &image), "accepted\t2\t0\t0\t192\n".into());
        add(ask(b'g', &image), format!("component\t{first}\ncomponent\t{second}\nend\t2\n"));
        add(ask(b'j', &image), format!("taken\t{first}\t192\n"));
        add(ask(b'k', &image).named(b"cal/12"), format!("found\t0\t4294967295\t{hundred}\n"));
        add(ask(b'k', &image).named(b"cal/13"), found_second.clone());
    }
    for wrong in WRONG_12 {
        let image = Arc::new(a_stating(wrong, SUM_13));
        add(ask(b'c', &image), refusal(12, 0));
        add(ask(b'g', &image), format!("component\t{second}\nend\t1\n"));
        add(ask(b'j', &image), format!("taken\t{second}\t256\n"));
        add(ask(b'k', &image).named(b"cal/12"), refusal(10, 0));
        add(ask(b'k', &image).named(b"cal/13"), found_second.clone());
    }
    for wrong in WRONG_13 {
        let image = Arc::new(a_stating(SUM_12, wrong));
        add(ask(b'c', &image), refusal(12, 192));
        add(ask(b'g', &image), format!("component\t{first}\nend\t1\n"));
        add(ask(b'j', &image).numbered(64), "none\n".into());
        add(ask(b'k', &image).named(b"cal/13"), refusal(10, 0));
    }
    let neither = Arc::new(a_stating(SUM_12 + 1, SUM_13 - 1));
    add(ask(b'c', &neither), refusal(12, 0));
    add(ask(b'g', &neither), "end\t0\n".into());
    // Len made 500: with its sum, or none, the plain walk takes cal/12, and 12 is at cal/13 inside; with a wrong one at cal/12.
    for (one, other) in [(0, SUM_13), (LONG_SUM, 0), (LONG_SUM_OVER_SUM, SUM_13)] {
        let long = long_stating(one, other);
        add(ask(b'c', &long), refusal(12, 192));
        add(ask(b'g', &long), format!("component\t{second}\nend\t1\n"));
        add(ask(b'k', &long).named(b"cal/12"), refusal(10, 0));
    }
    for wrong in WRONG_LONG {
        let long = long_stating(wrong, 0);
        add(ask(b'c', &long), refusal(12, 0));
        add(ask(b'g', &long), format!("component\t{second}\nend\t1\n"));
    }
    // cal/13's sum is wrong, and it lies inside cal/12: both walks pass it over, and it is the place that the plain walk does not take.
    add(ask(b'c', &long_stating(0, SUM_13 + 1)), refusal(12, 192));
    add(ask(b'g', &long_stating(0, SUM_13 + 1)), "end\t0\n".into());
    // Name made cal/13: the sum that was right is so no longer, and there is one bearer.
    add(ask(b'k', &twice_stating(2201)).named(b"cal/13"), refusal(11, 0));
    add(ask(b'k', &twice_stating(2200)).named(b"cal/13"), found_second);
    add(ask(b'c', &twice_stating(2201)), refusal(11, 0));
    add(ask(b'c', &twice_stating(2200)), refusal(12, 0));
    // A sum above 2^16.
    add(ask(b'c', &wide_stating(WIDE_SUM)), "accepted\t2\t0\t0\t192\n".into());
    for wrong in WRONG_WIDE {
        add(ask(b'c', &wide_stating(wrong)), refusal(12, 192));
        add(ask(b'k', &wide_stating(wrong)).named(b"cal/13"), refusal(10, 0));
    }
}

/// A magic in a span, at its end and around it, at each align. The span states no sum; at times there is the same with its sum, or a
/// wrong one, beside it.
fn magic_inside(rng: &mut Rng, scenes: &mut Vec<Scene>) {
    for align in [16, 64, 256] {
        let size = 4 * align + 100;
        let end = size + 3 * align + 9;
        let length = end + 40;
        for len in [size - 40, 4 * align - 40, 4 * align - 39, 4 * align - 41, end - 40] {
            for at in 1..=(end / align) {
                for shift in [-1, 0, 1, align as i64 / 2] {
                    for whole in [false, true] {
                        let mut image = if rng.one_in(2) { rng.bytes(length) } else { vec![0xFF; length] };
                        put(&mut image, 0, &Raw::new(b"outer", 1, &vec![2; len]).bytes());
                        let inner = Raw::new(b"inner", 2, b"xyz").bytes();
                        let bytes = if whole { &inner[..] } else { LARCHIVE };
                        put(&mut image, (at * align) as i64 + shift, bytes);
                        Frame::new(length, 36, 40, align, 0).stamp(&mut image);
                        let mut scene = |image: Vec<u8>| {
                            scenes.push(Scene {
                                image: Arc::new(image),
                                numbers: vec![0, (at * align).min(end) as u64],
                                names: vec![b"outer".to_vec(), b"inner".to_vec()],
                                note: "magic inside",
                            });
                        };
                        scene(image.clone());
                        if shift == 0 || rng.one_in(3) {
                            if whole {
                                let stated = mostly_good(rng);
                                state(rng, &mut image, ((at * align) as i64 + shift) as usize, stated);
                            }
                            let stated = if rng.one_in(2) { Stated::Right } else { sums::wrong(rng) };
                            state(rng, &mut image, 0, stated);
                            scene(image);
                        }
                    }
                }
            }
        }
    }
}

/// The magic in the name, at each multiple of 16 from the header and beside it, at places and between them; without a sum and with it.
fn magic_in_name(scenes: &mut Vec<Scene>) {
    for align in [16, 32, 64, 256] {
        for at in (32..=256).step_by(16).flat_map(|at| [at - 1, at, at + 1]) {
            let name = [&vec![b'x'; at - 24][..], LARCHIVE].concat();
            let raw = Raw::new(&name, 1, b"content");
            for raw in [raw.clone(), raw.summed()] {
                let image = Arc::new(lay(&Frame::new(1024, 36, 100, align, 0), &[(0, raw)]));
                scenes.push(Scene { image, numbers: vec![0], names: vec![name.clone()], note: "magic in the name" });
            }
        }
    }
}

/// About 256 and about 1,024 components, some names twice, some magic besides.
fn crowds(scenes: &mut Vec<Scene>) {
    let mut scene = |image: Vec<u8>, count: usize| {
        scenes.push(Scene {
            image: Arc::new(image),
            numbers: vec![48 * count as u64],
            names: vec![b"c0".to_vec(), format!("c{}", count - 1).into_bytes()],
            note: "crowd",
        });
    };
    for count in [255, 256, 257, 258, 1_023, 1_024, 1_025] {
        for twice in [false, true] {
            for besides in [None, Some(0), Some(16 + 48), Some(48 * (count as i64 + 1))] {
                let mut image = many(count, twice);
                if let Some(at) = besides {
                    put(&mut image, at, LARCHIVE);
                }
                scene(image, count);
            }
        }
    }
    // As many as 65,536 bytes hold with a free place before and after.
    scene(many(1_362, false), 1_362);
    // What an add to 256 and to 1,023 leaves.
    for count in [256, 1_023] {
        scene(many_and_new(count), count);
    }
}

fn ask(scene: &Scene, cases: &mut Vec<Case>) {
    cases.push(Case::new(b'c', &scene.image, scene.note));
    if scene.note == "name field" {
        return;
    }
    cases.push(Case::new(b'g', &scene.image, scene.note));
    scene.ask_by_number_and_name(b'j', b'k', cases);
}

fn generated(seed: u64, count: usize) -> Vec<Batch> {
    let mut rng = Rng::new(seed ^ 0x6A4D);
    let mut scenes = Vec::new();
    magic_inside(&mut rng, &mut scenes);
    magic_in_name(&mut scenes);
    crowds(&mut scenes);
    let mut cases = Vec::new();
    for scene in &scenes {
        ask(scene, &mut cases);
    }
    for scene in cases::fixed(&mut rng) {
        let seldom = ["length", "pointer", "master field", "small region"].iter().any(|note| scene.note.starts_with(note));
        if !seldom || rng.one_in(4) || master::region(&scene.image) == Err(6) {
            ask(&scene, &mut cases);
        }
    }
    let target = cases.len() + count / 3;
    while cases.len() < target {
        ask(&cases::random(&mut rng), &mut cases);
    }
    let mut batches = vec![Batch::plain(cases)];
    batches.extend(corrupter::single_damages(&mut rng));
    batches.extend(corrupter::batches(&mut rng, count / 3));
    let mut cases = Vec::new();
    cases::longest().iter().for_each(|scene| ask(scene, &mut cases));
    batches.push(Batch::plain(cases));
    batches
}
