//! The capability "plain": operations m, p, i and l. Document 01, "Master header", "Components and the two walks".

use std::sync::Arc;

use crate::bytes::hex;
use crate::capability::{Batch, Both, Capability};
use crate::cases::{self, Scene};
use crate::image::{put, Frame, Raw};
use crate::master::{self, Region};
use crate::protocol::{refused, Case};
use crate::rng::Rng;
use crate::walk::{self, Component};
use crate::{bench, conditions};

pub fn capability() -> Capability {
    Capability { name: "plain", operations: "mpil", answer, pairs, bench: bench::plain, both, generated, share: 100 }
}

pub fn answer(case: &Case) -> String {
    let region = match master::region(&case.image) {
        Ok(region) => region,
        Err(number) => return refused(number, 0),
    };
    match case.op {
        b'm' => format!("region\t{}\t{}\t{}\n", region.start, region.end, region.align),
        b'p' => listing(&case.image, region, walk::judge),
        b'i' => step(&case.image, region, case.number, walk::judge),
        _ => found(&case.image, walk::plain_lookup(&case.image, region, &case.name)),
    }
}

/// The answer of a listing by either walk.
pub fn listing(image: &[u8], region: Region, take: walk::Take) -> String {
    let list = walk::listing(image, region, take);
    let mut text = String::new();
    for component in &list {
        text += &format!("component\t{}\n", fields(image, component));
    }
    text + &format!("end\t{}\n", list.len())
}

/// The answer of a step of either walk.
pub fn step(image: &[u8], region: Region, from: u64, take: walk::Take) -> String {
    match walk::step(image, region, from, take) {
        Err(number) => refused(number, 0),
        Ok(None) => "none\n".to_string(),
        Ok(Some((component, next))) => format!("taken\t{}\t{next}\n", fields(image, &component)),
    }
}

/// The answer of either lookup.
pub fn found(image: &[u8], result: Result<Component, u32>) -> String {
    match result {
        Err(number) => refused(number, 0),
        Ok(it) => format!("found\t{}\t{}\t{}\n", it.place, it.kind, hex(&image[it.content..it.end])),
    }
}

fn fields(image: &[u8], it: &Component) -> String {
    format!("{}\t{}\t{}\t{}", it.place, it.kind, hex(&it.name), hex(&image[it.content..it.end]))
}

fn pairs() -> Vec<(u8, u32, u32)> {
    let mut list = Vec::new();
    for op in "mpil".bytes() {
        for number in 1..=7 {
            list.push((op, number, number + 1));
        }
    }
    list.push((b'i', 8, 9));
    list.push((b'l', 8, 10));
    list
}

/// Images in which a refusal's condition and the next one's hold, with the first of the two.
pub fn master_pairs() -> Vec<(u32, Arc<Vec<u8>>)> {
    let base = Frame::new(1024, 64, 256, 64, 0);
    let over = |frame: &Frame| {
        let mut image = vec![0xA5; frame.length];
        put(&mut image, 0, &Raw::new(b"a", 1, b"content").bytes());
        Arc::new(frame.over(image))
    };
    vec![
        // 63 bytes, and P one above and one below its range, or the header before byte 0.
        (1, over(&Frame { length: 63, ..Frame::new(63, 35, 63, 16, 0) })),
        (1, over(&Frame::new(63, 65_537, 63, 16, 0))),
        (1, over(&Frame::new(63, 64, 63, 16, 0))),
        // P one too high, and the magic wrong where it points.
        (2, over(&Frame { magic: 1, ..Frame::new(1024, 35, 256, 64, 0) })),
        (2, over(&Frame { magic: 1, ..Frame::new(1024, 16, 256, 64, 0) })),
        (3, over(&Frame { magic: 1, version: 2, ..base.clone() })),
        (4, over(&Frame { version: 2, romsize: 1025, ..base.clone() })),
        (5, over(&Frame { romsize: 1023, boot: 63, ..base.clone() })),
        (5, over(&Frame { romsize: 1025, boot: 1026, ..base.clone() })),
        (6, over(&Frame { boot: 63, align: 48, ..base.clone() })),
        (6, over(&Frame { boot: 1025, align: 8, ..base.clone() })),
        (7, over(&Frame { align: 48, offset: 50, ..base.clone() })),
        (7, over(&Frame { align: 0x20000, offset: 0x20000, ..base.clone() })),
        (7, over(&Frame { align: 0, offset: 0xFFFF_FFFF, ..base })),
    ]
}

/// Each of these operations on each of those images.
pub fn master_both(operations: &str) -> Vec<Both> {
    let mut list = Vec::new();
    for (first, image) in master_pairs() {
        let first_holds = conditions::holds(first, &image);
        let second_holds = conditions::holds(first + 1, &image);
        for op in operations.bytes() {
            let case = Case::new(op, &image, "two refusals").named(b"a");
            list.push(Both { case, first, second: first + 1, first_holds, second_holds });
        }
    }
    list
}

fn both() -> Vec<Both> {
    let mut list = master_both("mpil");
    let mut pair = |case: Case, second: u32, first_holds: bool, second_holds: bool| {
        list.push(Both { case, first: 8, second, first_holds, second_holds });
    };
    // Offset off a multiple of align: a number below it, and a name that no component can bear.
    let frame = Frame { offset: 32, ..Frame::new(1024, 64, 256, 64, 0) };
    let image = Arc::new(frame.over(vec![0xA5; 1024]));
    let holds = conditions::holds(8, &image);
    for number in [0, 31, 33, 769, u64::MAX] {
        let nine = number < 32 || number > 768 || number % 64 != 0;
        pair(Case::new(b'i', &image, "two refusals").numbered(number), 9, holds, nine);
    }
    pair(Case::new(b'l', &image, "two refusals").named(b""), 10, holds, true);
    pair(Case::new(b'l', &image, "two refusals").named(b"a"), 10, holds, !image.windows(8).any(|part| part == walk::LARCHIVE));
    list
}

/// The four operations on a scene.
fn ask(scene: &Scene, cases: &mut Vec<Case>) {
    if scene.note.starts_with("name field") {
        // Many of these: the step alone sees the field.
    } else {
        cases.push(Case::new(b'm', &scene.image, scene.note));
        cases.push(Case::new(b'p', &scene.image, scene.note));
    }
    scene.ask_by_number_and_name(b'i', b'l', cases);
}

fn generated(seed: u64, count: usize) -> Vec<Batch> {
    let mut rng = Rng::new(seed);
    let mut cases = Vec::new();
    for scene in cases::fixed(&mut rng) {
        ask(&scene, &mut cases);
    }
    let target = count.max(cases.len() + count / 3);
    while cases.len() < target {
        ask(&cases::random(&mut rng), &mut cases);
    }
    cases::longest().iter().for_each(|scene| ask(scene, &mut cases));
    vec![Batch::plain(cases)]
}
