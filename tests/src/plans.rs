//! The capability "plans": operations s and y. Document 01, "Load plans".

use std::sync::Arc;

use crate::bytes::{big32, little32};
use crate::capability::{Batch, Both, Capability, Literal};
use crate::cases;
use crate::image::{put, Frame, Raw};
use crate::load::{self, BSS, CODE, DATA, ENTRY, PARAMS, PAYLOAD, STAGE};
use crate::plain::master_both;
use crate::protocol::{refused, Case};
use crate::rng::Rng;
use crate::sums::{self, state, Stated};
use crate::{conditions, walk};

pub fn capability() -> Capability {
    Capability { name: "plans", operations: "sy", answer, pairs, bench, both, generated, share: 60 }
}

fn answer(case: &Case) -> String {
    if case.op == b's' {
        return match load::stage(&case.image, &case.name) {
            Err(number) => refused(number, 0),
            Ok(it) => {
                format!("stage\t{}\t{}\t{}\t{}\t{}\t{}\n", it.compression, it.entry, it.load, it.source, it.len, it.memlen)
            }
        };
    }
    match load::payload(&case.image, &case.name) {
        Err(number) => refused(number, 0),
        Ok(list) => {
            let mut text = format!("payload\t{}\t0\n", list.len());
            for it in list {
                text +=
                    &format!("segment\t{}\t{}\t{}\t{}\t{}\t{}\n", it.kind, it.compression, it.source, it.load, it.len, it.memlen);
            }
            text
        }
    }
}

fn pairs() -> Vec<(u8, u32, u32)> {
    let mut list = Vec::new();
    for op in "sy".bytes() {
        list.extend((1..=7).map(|number| (op, number, number + 1)));
        list.extend([(op, 8, 10), (op, 8, 11), (op, 11, 18), (op, 18, 19), (op, 22, 23), (op, 23, 24), (op, 24, 25)]);
    }
    list.extend([(b's', 19, 22), (b'y', 21, 19), (b'y', 19, 20), (b'y', 20, 22), (b'y', 25, 26)]);
    list
}

/// A stage's header and what follows it.
#[derive(Clone)]
struct StageFields {
    compression: u32,
    entry: u64,
    load: u64,
    len: u32,
    memlen: u32,
    rest: usize,
}

impl StageFields {
    fn bytes(&self) -> Vec<u8> {
        let mut bytes = self.compression.to_le_bytes().to_vec();
        bytes.extend(self.entry.to_le_bytes());
        bytes.extend(self.load.to_le_bytes());
        bytes.extend(self.len.to_le_bytes());
        bytes.extend(self.memlen.to_le_bytes());
        bytes.extend((0..self.rest).map(|at| (at * 37 + 5) as u8));
        bytes
    }
}

/// A payload's record.
#[derive(Clone, Copy)]
struct Record {
    kind: u32,
    compression: u32,
    offset: u32,
    load: u64,
    len: u32,
    memlen: u32,
}

impl Record {
    fn bytes(&self) -> Vec<u8> {
        let mut bytes = self.kind.to_le_bytes().to_vec();
        bytes.extend(self.compression.to_be_bytes());
        bytes.extend(self.offset.to_be_bytes());
        bytes.extend(self.load.to_be_bytes());
        bytes.extend(self.len.to_be_bytes());
        bytes.extend(self.memlen.to_be_bytes());
        bytes
    }
}

fn entry(load: u64) -> Record {
    Record { kind: ENTRY, compression: 0, offset: 0, load, len: 0, memlen: 0 }
}

/// Records and so many bytes after them.
fn payload_bytes(records: &[Record], rest: usize) -> Vec<u8> {
    let mut bytes: Vec<u8> = records.iter().flat_map(|record| record.bytes()).collect();
    bytes.extend((0..rest).map(|at| (at * 41 + 3) as u8));
    bytes
}

/// An image with one component of this content, and another before it; the place is 128. An odd sum is stated, an even one is not.
const PLACE: usize = 128;

fn holding(kind: u32, name: &[u8], content: &[u8]) -> Arc<Vec<u8>> {
    let raw = Raw::new(name, kind, content);
    let raw = if walk::sum(&raw.bytes()) % 2 == 1 { raw.summed() } else { raw };
    let size = raw.bytes().len();
    let end = PLACE + size;
    let length = end + 60;
    let mut image = vec![0xEE; length];
    put(&mut image, 64, &Raw::new(b"before", 0x50, b"table").bytes());
    put(&mut image, PLACE as i64, &raw.bytes());
    // What follows the content would make it longer, were it read.
    let frame = Frame::new(length, 36, 60, 64, 64);
    Arc::new(frame.over(image))
}

fn ask_stage(content: &[u8], note: &'static str) -> Case {
    Case::new(b's', &holding(STAGE, b"boot", content), note).named(b"boot")
}

fn ask_payload(content: &[u8], note: &'static str) -> Case {
    Case::new(b'y', &holding(PAYLOAD, b"boot", content), note).named(b"boot")
}

/// The conditions of 18 to 26 by themselves, for a component at `PLACE` with the name boot, in its record number `index`
/// (a stage: 0), as far as they can be read.
fn plan_holds(number: u32, case: &Case, index: usize) -> bool {
    let image = &case.image;
    let kind = big32(image, PLACE + 12);
    let content = PLACE + big32(image, PLACE + 20) as usize;
    let end = content + big32(image, PLACE + 8) as usize;
    let at = content + 28 * index;
    // A field that the content's end cuts off is not read.
    let word = |field: usize, big: bool| -> Option<u64> {
        (at + field + 4 <= end).then(|| if big { big32(image, at + field) as u64 } else { little32(image, at + field) as u64 })
    };
    let stage = case.op == b's';
    let compression = if stage { word(0, false) } else { word(4, true) };
    let len = word(20, !stage).unwrap_or(0);
    let memlen = word(24, !stage).unwrap_or(0);
    let load = if stage {
        word(12, false).unwrap_or(0) | word(16, false).unwrap_or(0) << 32
    } else {
        word(12, true).unwrap_or(0) << 32 | word(16, true).unwrap_or(0)
    };
    let source = if stage { at as u64 + 28 } else { PLACE as u64 + word(8, true).unwrap_or(0) };
    match number {
        18 => kind != if stage { STAGE } else { PAYLOAD },
        19 => at + 28 > end,
        20 => word(0, false).is_some_and(|kind| ![CODE, DATA, BSS, PARAMS, ENTRY].contains(&(kind as u32))),
        21 => index >= 16 && (0..16).all(|record| little32(image, content + 28 * record) != ENTRY),
        22 => compression.is_some_and(|value| value > 2),
        23 => source < content as u64 || source + len > end as u64,
        24 => compression == Some(0) && len > memlen,
        25 => load as u128 + memlen as u128 > 1 << 64,
        _ => (0..index).any(|record| {
            let at = content + 28 * record;
            let other = (big32(image, at + 12) as u64) << 32 | big32(image, at + 16) as u64;
            load::overlap((other, big32(image, at + 24)), (load, memlen as u32))
        }),
    }
}

fn both() -> Vec<Both> {
    let mut list = master_both("sy");

    // Offset off a multiple of align; a name that two components of another type have.
    let twice = |frame: &Frame| {
        let mut image = vec![0xA5; 1024];
        put(&mut image, 64, &Raw::new(b"a", 0x77, b"").bytes());
        put(&mut image, 128, &Raw::new(b"a", 0x77, b"").bytes());
        Arc::new(frame.over(image))
    };
    let good = Frame::new(1024, 64, 256, 64, 0);
    let ragged = twice(&Frame { offset: 32, ..good.clone() });
    let double = twice(&good);
    let eight = conditions::holds(8, &ragged);
    for op in "sy".bytes() {
        let case = |image: &Arc<Vec<u8>>, name: &[u8]| Case::new(op, image, "two refusals").named(name);
        let bearers = double.windows(8).filter(|part| *part == walk::LARCHIVE).count();
        list.push(Both {
            case: case(&ragged, b"b"),
            first: 8,
            second: 10,
            first_holds: eight,
            second_holds: !ragged.contains(&b'b'),
        });
        list.push(Both { case: case(&ragged, b"a"), first: 8, second: 11, first_holds: eight, second_holds: bearers == 2 });
        list.push(Both {
            case: case(&double, b"a"),
            first: 11,
            second: 18,
            first_holds: bearers == 2,
            second_holds: big32(&double, 76) == 0x77,
        });
        let short = Case::new(op, &holding(0x30, b"boot", &[0; 27]), "two refusals").named(b"boot");
        list.push(pair(short, 18, 19, 0));
    }

    let base = StageFields { compression: 0, entry: 1, load: 0x1000, len: 8, memlen: 8, rest: 8 };
    let high = u64::MAX - 3;
    let mut cut = StageFields { compression: 3, ..base.clone() }.bytes();
    cut.truncate(27);
    list.push(pair(ask_stage(&cut, "two refusals"), 19, 22, 0));
    list.push(pair(ask_stage(&StageFields { compression: 3, len: 9, ..base.clone() }.bytes(), "two refusals"), 22, 23, 0));
    list.push(pair(ask_stage(&StageFields { len: 9, ..base.clone() }.bytes(), "two refusals"), 23, 24, 0));
    list.push(pair(ask_stage(&StageFields { memlen: 7, load: high, ..base }.bytes(), "two refusals"), 24, 25, 0));

    // Content starts 40 bytes after the header; two records and 8 bytes after them.
    let code = Record { kind: CODE, compression: 0, offset: 96, load: 0x1000, len: 8, memlen: 8 };
    let one = |record: Record, rest: usize| ask_payload(&payload_bytes(&[record, entry(0)], rest), "two refusals");
    let bss = |index: u64| Record { kind: BSS, compression: 0, offset: 0, load: 0x100 * index, len: 0, memlen: 1 };
    let sixteen: Vec<Record> = (0..16).map(bss).collect();
    list.push(pair(ask_payload(&payload_bytes(&sixteen, 0), "two refusals"), 21, 19, 16));
    list.push(pair(ask_payload(&payload_bytes(&sixteen, 27), "two refusals"), 21, 19, 16));
    let mut cut = Record { kind: 7, ..code }.bytes();
    cut.truncate(27);
    list.push(pair(ask_payload(&cut, "two refusals"), 19, 20, 0));
    list.push(pair(one(Record { kind: 7, compression: 3, ..code }, 8), 20, 22, 0));
    list.push(pair(one(Record { compression: 3, offset: 97, ..code }, 8), 22, 23, 0));
    list.push(pair(one(Record { kind: PARAMS, compression: 3, offset: 39, ..code }, 8), 22, 23, 0));
    list.push(pair(one(Record { len: 9, ..code }, 8), 23, 24, 0));
    list.push(pair(one(Record { kind: DATA, memlen: 7, load: high, ..code }, 8), 24, 25, 0));
    let top = Record { load: u64::MAX - 15, memlen: 16, ..code };
    let two = [Record { offset: 124, ..top }, Record { offset: 124, load: u64::MAX - 7, ..top }, entry(0)];
    list.push(pair(ask_payload(&payload_bytes(&two, 8), "two refusals"), 25, 26, 1));
    list
}

fn pair(case: Case, first: u32, second: u32, index: usize) -> Both {
    let first_holds = plan_holds(first, &case, index);
    let second_holds = plan_holds(second, &case, index);
    Both { case, first, second, first_holds, second_holds }
}

fn bench() -> Vec<Literal> {
    let mut list = Vec::new();
    // CODE at 0x1000 for 0x100: BSS of 16 bytes at 0x1100 accepted, at 0x10FF: 26.
    for (at, good) in [(0x1100, true), (0x10FF, false), (0x0FF0, true), (0x0FF1, false)] {
        let records = [
            Record { kind: CODE, compression: 0, offset: 124, load: 0x1000, len: 0x100, memlen: 0x100 },
            Record { kind: BSS, compression: 9, offset: 9, load: at, len: 9, memlen: 16 },
            entry(0x1000),
        ];
        let case = ask_payload(&payload_bytes(&records, 0x100), "bench");
        let answer = if good {
            // The source stands at 128 + 124.
            format!(
                "payload\t3\t0\nsegment\t1162104643\t0\t252\t4096\t256\t256\n\
                 segment\t542331714\t0\t0\t{at}\t0\t16\nsegment\t1381256773\t0\t0\t4096\t0\t0\n"
            )
        } else {
            "refused\t26\t0\t0\n".into()
        };
        list.push(Literal { case, answer });
    }
    // Load 2^64 - 16 for 16 bytes accepted, for 17: 25.
    for (memlen, good) in [(16, true), (17, false)] {
        let load = u64::MAX - 15;
        let stage = StageFields { compression: 0, entry: load, load, len: 16, memlen, rest: 16 };
        let answer = if good {
            // The source stands at 128 + 40 + 28.
            "stage\t0\t18446744073709551600\t18446744073709551600\t196\t16\t16\n".into()
        } else {
            "refused\t25\t0\t0\n".into()
        };
        list.push(Literal { case: ask_stage(&stage.bytes(), "bench"), answer });
    }
    // The first of these stages with its sum: LARCHIVE 590, len 44, type 16, offset 40, name 436, content 5786. With a wrong one no
    // component has the name.
    let load = u64::MAX - 15;
    let stage = StageFields { compression: 0, entry: load, load, len: 16, memlen: 16, rest: 16 };
    for (stated, good) in [(6912, true), (0, true), (6911, false), (6913, false), (1126, false), (72_448, false)] {
        let mut case = ask_stage(&stage.bytes(), "bench");
        stating(&mut case, stated);
        let answer =
            if good { "stage\t0\t18446744073709551600\t18446744073709551600\t196\t16\t16\n" } else { "refused\t10\t0\t0\n" };
        list.push(Literal { case, answer: answer.into() });
    }
    // A payload of one ENTRY: LARCHIVE 590, len 28, type 32, offset 40, name 436, ENTR 313, a load address of 1.
    for (stated, good) in [(1440, true), (0, true), (1439, false), (1441, false), (1126, false), (0xFFFF_FFFF, false)] {
        let mut case = ask_payload(&payload_bytes(&[entry(1)], 0), "bench");
        stating(&mut case, stated);
        let answer = if good { "payload\t1\t0\nsegment\t1381256773\t0\t0\t1\t0\t0\n" } else { "refused\t10\t0\t0\n" };
        list.push(Literal { case, answer: answer.into() });
    }
    list
}

/// Puts a checksum into the header at `PLACE`.
fn stating(case: &mut Case, checksum: u32) {
    let mut image = case.image.to_vec();
    put(&mut image, PLACE as i64 + 16, &checksum.to_be_bytes());
    case.image = Arc::new(image);
}

const EDGES_32: [u32; 8] = [0, 1, 2, 3, 4, 0x7FFF_FFFF, 0x8000_0000, 0xFFFF_FFFF];

fn stages(rng: &mut Rng, cases: &mut Vec<Case>) {
    let base = StageFields { compression: 0, entry: 0x1234_5678_9ABC_DEF0, load: 0x10_0000, len: 40, memlen: 64, rest: 40 };
    let whole = base.bytes();
    for length in 0..=whole.len() {
        cases.push(ask_stage(&whole[..length], "stage cut short"));
    }
    let mut zero = StageFields { len: 0, memlen: 0, rest: 0, ..base.clone() };
    cases.push(ask_stage(&zero.bytes(), "stage"));
    zero.load = u64::MAX;
    cases.push(ask_stage(&zero.bytes(), "stage"));
    for compression in EDGES_32 {
        for len in [0, 39, 40, 41, 0xFFFF_FFFF, 0xFFFF_FFE4, 0x8000_0000] {
            for memlen in [0, 38, 39, 40, 41, 0xFFFF_FFFF] {
                cases.push(ask_stage(&StageFields { compression, len, memlen, ..base.clone() }.bytes(), "stage"));
            }
        }
    }
    for memlen in [0u32, 1, 2, 40, 41, 0xFFFF_FFFF] {
        for compression in [0, 1, 2] {
            let edge = 0u64.wrapping_sub(memlen as u64);
            for load in [0, 1, edge.wrapping_sub(1), edge, edge.wrapping_add(1), u64::MAX, 1 << 63, (1 << 32) - 1] {
                let len = if rng.one_in(2) { 0 } else { memlen.min(40) };
                let entry = *rng.pick(&[load, load.wrapping_sub(1), load.wrapping_add(memlen as u64), 0, u64::MAX]);
                cases.push(ask_stage(
                    &StageFields { compression, load, memlen, len, entry, ..base.clone() }.bytes(),
                    "stage target",
                ));
            }
        }
    }
}

/// Payloads whose first record stands at each edge of its source and its target.
fn single_records(cases: &mut Vec<Case>) {
    let rest = 30u32;
    for kind in [CODE, DATA, BSS, PARAMS, ENTRY, 0, 7, CODE + 1, CODE.swap_bytes(), ENTRY.swap_bytes(), 0x2053_5343] {
        let total = 56 + rest;
        let content = 40u32;
        let end = content + total;
        let base = Record { kind, compression: 1, offset: content, load: 0x8000, len: 4, memlen: 4 };
        let mut records = vec![base];
        for compression in EDGES_32 {
            records.push(Record { compression, ..base });
        }
        for offset in [
            0,
            1,
            24,
            content - 1,
            content,
            content + 1,
            end - 5,
            end - 4,
            end - 3,
            end - 1,
            end,
            end + 1,
            0xFFFF_FFFC,
            0xFFFF_FFFF,
        ] {
            for len in [0, 1, 4, total - 1, total, total + 1, 0xFFFF_FFFF, 0xFFFF_FFFFu32.wrapping_sub(offset).wrapping_add(1)] {
                records.push(Record { offset, len, ..base });
            }
        }
        for compression in [0, 1, 2] {
            for len in [0, 1, 5, 6] {
                for memlen in [0, 1, 4, 5, 6, 7, 0xFFFF_FFFF] {
                    records.push(Record { compression, len, memlen, ..base });
                }
            }
        }
        for memlen in [0u32, 1, 4, 5, 0xFFFF_FFFF] {
            let edge = 0u64.wrapping_sub(memlen as u64);
            for load in [0, edge.wrapping_sub(1), edge, edge.wrapping_add(1), u64::MAX, 1 << 63] {
                records.push(Record { load, memlen, ..base });
            }
        }
        for record in records {
            cases.push(ask_payload(&payload_bytes(&[record, entry(record.load)], rest as usize), "record"));
        }
    }
}

/// Two targets around each other, with the third record a further one.
fn two_targets(cases: &mut Vec<Case>) {
    let content = 40 + 28 * 4;
    for (first, second) in [(CODE, BSS), (BSS, DATA), (DATA, CODE), (BSS, BSS), (CODE, PARAMS), (PARAMS, DATA)] {
        for start in [0x1000u64, 0, u64::MAX - 0x0F] {
            for size in [0u32, 1, 16] {
                for other in [0u32, 1, 2, 16, 40] {
                    let edges = [
                        start.wrapping_sub(other as u64 + 1),
                        start.wrapping_sub(other as u64),
                        start.wrapping_sub(other as u64).wrapping_add(1),
                        start,
                        start.wrapping_add(1),
                        start.wrapping_add(size as u64 / 2),
                        start.wrapping_add(size as u64).wrapping_sub(1),
                        start.wrapping_add(size as u64),
                        start.wrapping_add(size as u64 + 1),
                    ];
                    for (index, load) in edges.into_iter().enumerate() {
                        let one = Record { kind: first, compression: 1, offset: content, load: start, len: 1, memlen: size };
                        let two = Record { kind: second, compression: 2, offset: content, load, len: 2, memlen: other };
                        let between = Record { kind: PARAMS, compression: 0, offset: content, load: start, len: 3, memlen: 9 };
                        let mut records = vec![one, two, entry(start)];
                        if index % 2 == 0 {
                            records.insert(1, between);
                        }
                        cases.push(ask_payload(&payload_bytes(&records, 60), "two targets"));
                    }
                }
            }
        }
    }
}

/// 0 to 18 records, with and without an ENTRY, whole and one byte short.
fn record_counts(rng: &mut Rng, cases: &mut Vec<Case>) {
    for count in 0..=18usize {
        for with_entry in [false, true] {
            for wrong in [None, Some(count.saturating_sub(1)), Some(15), Some(16)] {
                for (less, rest) in [(0, 0), (1, 0), (27, 0), (0, 1), (0, 27), (0, 28), (0, 60)] {
                    let mut records: Vec<Record> = (0..count as u64)
                        .map(|index| {
                            let kind = *rng.pick(&[CODE, DATA, BSS, PARAMS]);
                            Record {
                                kind,
                                compression: rng.below(3) as u32,
                                offset: 40,
                                load: 0x1000 * index,
                                len: 3,
                                memlen: 0x1000,
                            }
                        })
                        .collect();
                    if let Some(index) = wrong {
                        if index >= count || rng.one_in(3) {
                            continue;
                        }
                        match rng.below(4) {
                            0 => records[index].kind = 1,
                            1 => records[index] = Record { kind: CODE, compression: 3, ..records[index] },
                            2 => records[index] = Record { kind: PARAMS, offset: 39, ..records[index] },
                            _ => records[index] = Record { kind: BSS, load: 0, memlen: 5, ..records[index] },
                        }
                    }
                    if with_entry && count > 0 {
                        records[count - 1] = entry(0x77);
                    }
                    let mut content = payload_bytes(&records, rest);
                    content.truncate(content.len().saturating_sub(less));
                    cases.push(ask_payload(&content, "record count"));
                }
            }
        }
    }
    // An earlier record's later refusal comes before a later record's earlier one.
    let code = Record { kind: CODE, compression: 0, offset: 40, load: 0x1000, len: 4, memlen: 4 };
    let faults = [
        Record { kind: 9, ..code },
        Record { compression: 3, ..code },
        Record { offset: 39, ..code },
        Record { memlen: 3, ..code },
        Record { load: u64::MAX - 2, ..code },
        Record { load: 0x0FFF, ..code },
    ];
    for one in faults {
        for two in faults {
            cases.push(ask_payload(&payload_bytes(&[code, one, two, entry(0)], 4), "faults in turn"));
            cases.push(ask_payload(&payload_bytes(&[code, one, two], 4), "faults in turn"));
        }
    }
}

/// A random payload, mostly right.
fn random_payload(rng: &mut Rng) -> Vec<u8> {
    let count = rng.range(0, 17);
    let rest = rng.below(80);
    let total = 28 * (count + 1) + rest;
    let mut at = rng.next() >> *rng.pick(&[0, 8, 32, 60]);
    let mut records = Vec::new();
    for _ in 0..count {
        let kind = *rng.pick(&[CODE, DATA, BSS, PARAMS]);
        let len = rng.below(total + 1);
        let offset = 40 + rng.below(total - len + 1);
        let compression = rng.below(3) as u32;
        let memlen = if compression == 0 { len + rng.below(9) } else { rng.below(200) };
        records.push(Record { kind, compression, offset: offset as u32, load: at, len: len as u32, memlen: memlen as u32 });
        at = at.wrapping_add(memlen as u64 + *rng.pick(&[0, 0, 1, 100]));
    }
    if !rng.one_in(8) {
        records.push(entry(rng.next()));
    }
    if rng.one_in(2) && !records.is_empty() {
        let index = rng.below(records.len());
        let record = &mut records[index];
        match rng.below(8) {
            0 => record.kind = *rng.pick(&[0, CODE, DATA, BSS, PARAMS, ENTRY, 0x434F_4445]),
            1 => record.compression = *rng.pick(&EDGES_32),
            2 => record.offset = record.offset.wrapping_add(*rng.pick(&[1, 0xFFFF_FFFF, 16])),
            3 => record.len = record.len.wrapping_add(*rng.pick(&[1, 0xFFFF_FFFF])),
            4 => record.memlen = record.memlen.wrapping_add(*rng.pick(&[1, 0xFFFF_FFFF, 2])),
            5 => record.load = record.load.wrapping_add(*rng.pick(&[1, u64::MAX, 1 << 63])),
            6 => record.load = 0u64.wrapping_sub(record.memlen as u64).wrapping_add(rng.below(2) as u64),
            _ => record.kind ^= 1 << rng.below(32),
        }
    }
    let mut bytes = payload_bytes(&records, rest);
    if rng.one_in(6) {
        bytes.truncate(rng.below(bytes.len() + 1));
    }
    bytes
}

/// Stages and payloads with no sum, the right one and each wrong one; alone, or with another of the same name and type after it.
fn checksums(rng: &mut Rng, cases: &mut Vec<Case>) {
    let stage = StageFields { compression: 0, entry: 0x1000, load: 0x1000, len: 40, memlen: 64, rest: 40 }.bytes();
    let high = Record { kind: CODE, compression: 1, offset: 40, load: 0xFFFF_FFFF_FFFF, len: 300, memlen: 0xFFFF };
    let payload = payload_bytes(&[high, entry(0xFFFF_FFFF)], 300);
    for (op, kind, content) in [(b's', STAGE, stage), (b'y', PAYLOAD, payload)] {
        let raw = Raw::new(b"boot", kind, &content);
        for stated in cases::every_stated() {
            for second in [None, Some(Stated::None), Some(Stated::Right), Some(sums::wrong(rng))] {
                let size = raw.bytes().len().div_ceil(64) * 64;
                let (place, after) = (64, 64 + size);
                let end = after + size + 5;
                let mut image = vec![0xEE; end + 60];
                put(&mut image, place as i64, &raw.bytes());
                Frame::new(end + 60, 36, 60, 64, 64).stamp(&mut image);
                if let Some(second) = second {
                    put(&mut image, after as i64, &raw.bytes());
                    state(rng, &mut image, after, second);
                }
                if state(rng, &mut image, place, stated) {
                    cases.push(Case::new(op, &Arc::new(image), "checksum").named(b"boot"));
                }
            }
        }
    }
}

fn generated(seed: u64, count: usize) -> Vec<Batch> {
    let mut rng = Rng::new(seed ^ 0x91A5);
    let mut cases = Vec::new();
    stages(&mut rng, &mut cases);
    single_records(&mut cases);
    two_targets(&mut cases);
    record_counts(&mut rng, &mut cases);
    checksums(&mut rng, &mut cases);

    // Other types, names that are not there, refused images, both operations on the same image.
    for kind in [0, 0x10, 0x11, 0x20, 0x30, 0x1000_0000, 0x2000_0000, 0xFFFF_FFFF] {
        for name in [&b"boot"[..], b"boo", b"boot1", b"", b"boot\0", b"before"] {
            for content in [&[0u8; 0][..], &[0; 28], &[0; 60]] {
                let image = holding(kind, b"boot", content);
                for op in "sy".bytes() {
                    cases.push(Case::new(op, &image, "type and name").named(name));
                }
            }
        }
    }
    for scene in cases::fixed(&mut rng) {
        let seldom = scene.note.starts_with("master") || scene.note.starts_with("pointer") || scene.note.starts_with("length");
        if seldom && rng.one_in(8) || scene.note == "names" || scene.note == "checksum" {
            for name in scene.names.iter().take(8) {
                for op in "sy".bytes() {
                    cases.push(Case::new(op, &scene.image, scene.note).named(name));
                }
            }
        }
    }

    let target = count.max(cases.len() + count / 3);
    while cases.len() < target {
        match rng.below(8) {
            0 => {
                let scene = cases::random(&mut rng);
                for name in &scene.names {
                    cases.push(Case::new(*rng.pick(b"sy"), &scene.image, "random scene").named(name));
                }
            }
            1 | 2 => {
                let rest = rng.below(60);
                let len = (rest as u32).wrapping_add(*rng.pick(&[0, 0, 1, 0xFFFF_FFFF]));
                let memlen = len.wrapping_add(*rng.pick(&[0, 1, 50, 0xFFFF_FFFF]));
                let load = *rng.pick(&[last_load(memlen), 0, 1 << 40, last_load(memlen).wrapping_add(1)]);
                let stage = StageFields { compression: rng.below(4) as u32, entry: rng.next(), load, len, memlen, rest };
                cases.push(ask_stage(&stage.bytes(), "random stage"));
            }
            _ => {
                let mut case = ask_payload(&random_payload(&mut rng), "random payload");
                if rng.one_in(10) {
                    let mut image = case.image.to_vec();
                    let at = PLACE + rng.below(image.len() - PLACE);
                    image[at] ^= 1 << rng.below(8);
                    case.image = Arc::new(image);
                }
                cases.push(case);
            }
        }
    }
    for scene in cases::longest() {
        for (op, name) in "sy".bytes().flat_map(|op| scene.names.iter().map(move |name| (op, name))) {
            cases.push(Case::new(op, &scene.image, scene.note).named(name));
        }
    }
    vec![Batch::plain(cases)]
}

/// The load address at which a target of this length ends at 2^64.
fn last_load(memlen: u32) -> u64 {
    0u64.wrapping_sub(memlen as u64)
}
