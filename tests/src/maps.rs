//! The capability "maps": operation f. Document 01, "Flash map".

use std::sync::Arc;

use crate::bytes::little32;
use crate::capability::{Batch, Both, Capability, Literal};
use crate::cases::{damage, long_name, longest};
use crate::flashmap::{self, cross, name_in, signatures, AREA, HEADER, SIGNATURE};
use crate::image::put;
use crate::protocol::{refused, Case};
use crate::rng::Rng;

pub fn capability() -> Capability {
    Capability { name: "maps", operations: "f", answer, pairs, bench, both, generated, share: 40 }
}

fn answer(case: &Case) -> String {
    match flashmap::read(&case.image) {
        Err(number) => refused(number, 0),
        Ok(map) => {
            let mut text = format!("map\t{}\t{}\t{}\t0\n", map.minor, map.base, map.areas.len());
            for area in map.areas {
                text += &format!("area\t{}\t{}\t{}\t{}\n", area.offset, area.size, area.flags, area.name);
            }
            text
        }
    }
}

fn pairs() -> Vec<(u8, u32, u32)> {
    // 27 holds with nothing after it that could be read; 1 and 28 need more than 64 bytes at once.
    [(1, 27), (1, 29), (28, 29), (29, 30), (30, 31), (31, 32), (32, 33), (33, 35), (35, 34), (34, 36), (36, 37)]
        .map(|(first, second)| (b'f', first, second))
        .to_vec()
}

#[derive(Clone)]
struct AreaFields {
    offset: u32,
    size: u32,
    name: Vec<u8>,
    flags: u16,
}

/// An image with a map, as its fields shall stand.
#[derive(Clone)]
struct MapFields {
    length: usize,
    at: usize,
    major: u8,
    minor: u8,
    base: u64,
    size: u32,
    name: Vec<u8>,
    nareas: u16,
    areas: Vec<AreaFields>,
    fill: u8,
}

impl MapFields {
    /// A map that is read, at a place, with these areas and one named FMAP that holds it exactly.
    fn new(length: usize, at: usize, areas: &[(u32, u32, &str)]) -> MapFields {
        let mut list: Vec<AreaFields> = areas
            .iter()
            .map(|(offset, size, name)| AreaFields { offset: *offset, size: *size, name: name.as_bytes().to_vec(), flags: 0 })
            .collect();
        let size = HEADER + AREA * (list.len() + 1);
        list.push(AreaFields { offset: at as u32, size: size as u32, name: b"FMAP".to_vec(), flags: 5 });
        MapFields {
            length,
            at,
            major: 1,
            minor: 1,
            base: 0xFFFF_F000_1234_5678,
            size: length as u32,
            name: b"FLASH".to_vec(),
            nareas: list.len() as u16,
            areas: list,
            fill: 0xFF,
        }
    }

    fn bytes(&self) -> Vec<u8> {
        let mut bytes = SIGNATURE.to_vec();
        bytes.extend([self.major, self.minor]);
        bytes.extend(self.base.to_le_bytes());
        bytes.extend(self.size.to_le_bytes());
        bytes.extend(field(&self.name, 0));
        bytes.extend(self.nareas.to_le_bytes());
        for area in &self.areas {
            bytes.extend(area.offset.to_le_bytes());
            bytes.extend(area.size.to_le_bytes());
            bytes.extend(field(&area.name, self.fill));
            bytes.extend(area.flags.to_le_bytes());
        }
        bytes
    }

    fn image(&self) -> Vec<u8> {
        let mut image = vec![0xEE; self.length];
        put(&mut image, self.at as i64, &self.bytes());
        image
    }

    fn case(&self, note: &'static str) -> Case {
        Case::new(b'f', &Arc::new(self.image()), note)
    }
}

/// A name of at most 31 bytes with a zero, then the fill; a longer one as far as it goes.
fn field(name: &[u8], fill: u8) -> Vec<u8> {
    let mut bytes = name.to_vec();
    if bytes.len() < 32 {
        bytes.push(0);
    }
    bytes.resize(32, fill);
    bytes
}

/// The conditions of 1 and 27 to 37 by themselves, as far as they can be read, for the first signature (28 and 29: each).
fn map_holds(number: u32, image: &[u8]) -> bool {
    let found = signatures(image);
    if number == 1 {
        return image.len() < 64;
    }
    if number == 27 || number == 28 {
        return if number == 27 { found.is_empty() } else { found.len() > 1 };
    }
    let word16 = |at: usize| image.get(at..at + 2).map(|part| u16::from_le_bytes([part[0], part[1]]));
    let runs_past = |at: &usize| match word16(at + 54) {
        None => true,
        Some(count) => at + HEADER + AREA * count as usize > image.len(),
    };
    if number == 29 {
        return !found.is_empty() && found.iter().all(runs_past);
    }
    let Some(&at) = found.first() else {
        return false;
    };
    let count = word16(at + 54).unwrap_or(0) as usize;
    let mut areas = Vec::new();
    for index in 0..count {
        let here = at + HEADER + AREA * index;
        if here + AREA <= image.len() {
            areas.push((little32(image, here), little32(image, here + 4), &image[here + 8..here + 40]));
        }
    }
    let any_two = |test: &dyn Fn(usize, usize) -> bool| (0..areas.len()).any(|one| (0..one).any(|other| test(one, other)));
    match number {
        30 => image[at + 8] != 1,
        31 => little32(image, at + 18) as usize != image.len(),
        32 => count == 0 || count > 256,
        33 => areas.iter().any(|area| name_in(area.2).is_none()),
        34 => any_two(&|one, other| {
            let name = name_in(areas[one].2);
            name.is_some() && name == name_in(areas[other].2)
        }),
        35 => areas.iter().any(|area| area.1 == 0 || area.0 as u64 + area.1 as u64 > image.len() as u64),
        36 => any_two(&|one, other| cross((areas[one].0, areas[one].1), (areas[other].0, areas[other].1))),
        _ => !areas.iter().any(|area| {
            name_in(area.2) == Some(b"FMAP")
                && area.0 as usize <= at
                && at + HEADER + AREA * count <= area.0 as usize + area.1 as usize
        }),
    }
}

fn both() -> Vec<Both> {
    let base = MapFields::new(8192, 128, &[(0x1000, 0x1000, "RW"), (0x1800, 0x100, "VPD")]);
    let mut cases = vec![
        (1, 27, Case::new(b'f', &Arc::new(vec![0; 63]), "two refusals")),
        (1, 29, Case::new(b'f', &Arc::new(MapFields { length: 63, ..MapFields::new(63, 0, &[]) }.image()), "two refusals")),
    ];
    // Two signatures, and both run past the image.
    let mut image = vec![0; 256];
    put(&mut image, 128, &SIGNATURE);
    put(&mut image, 128 + 54, &[5, 0]);
    put(&mut image, 192, &SIGNATURE);
    put(&mut image, 192 + 54, &[1, 0]);
    cases.push((28, 29, Case::new(b'f', &Arc::new(image), "two refusals")));
    let last = MapFields { at: 8192 - 64, major: 2, ..base.clone() };
    cases.push((29, 30, last.case("two refusals")));
    cases.push((30, 31, MapFields { major: 0, size: 8191, ..base.clone() }.case("two refusals")));
    cases.push((31, 32, MapFields { size: 8193, nareas: 0, ..base.clone() }.case("two refusals")));
    let mut crowd = crowd(257);
    cases.push((31, 32, MapFields { size: 1, ..crowd.clone() }.case("two refusals")));
    crowd.areas[0].name = b"a b".to_vec();
    cases.push((32, 33, crowd.case("two refusals")));
    let mut map = base.clone();
    map.areas[0] = AreaFields { size: 0, name: b"".to_vec(), ..map.areas[0].clone() };
    cases.push((33, 35, map.case("two refusals")));
    let mut map = base.clone();
    // 0x1000 + 0x1001 is one past 8192.
    map.areas[0].size = 0x1001;
    map.areas[1].name = b"RW".to_vec();
    cases.push((35, 34, map.case("two refusals")));
    let mut map = base.clone();
    map.areas[1] = AreaFields { offset: 0xFFF, size: 2, name: b"RW".to_vec(), flags: 0 };
    cases.push((34, 36, map.case("two refusals")));
    let mut map = base;
    map.areas[1] = AreaFields { offset: 0xFFF, size: 2, name: b"X".to_vec(), flags: 0 };
    map.areas[2].size -= 1;
    cases.push((36, 37, map.case("two refusals")));

    cases
        .into_iter()
        .map(|(first, second, case)| {
            let first_holds = map_holds(first, &case.image);
            let second_holds = map_holds(second, &case.image);
            Both { case, first, second, first_holds, second_holds }
        })
        .collect()
}

/// A map with so many areas, the last of them FMAP, right but for the number.
fn crowd(count: usize) -> MapFields {
    let length = 16_384;
    let mut map = MapFields::new(length, 64, &[]);
    let mut areas: Vec<AreaFields> = (0..count - 1)
        .map(|index| AreaFields {
            offset: 12_288 + index as u32,
            size: 1,
            name: format!("A{index}").into_bytes(),
            flags: index as u16,
        })
        .collect();
    let size = HEADER + AREA * count;
    areas.push(AreaFields { offset: 64, size: size as u32, ..map.areas[0].clone() });
    map.areas = areas;
    map.nareas = count as u16;
    map
}

fn bench() -> Vec<Literal> {
    // Areas 0 to 0x1000 and 0x800 to 0x1800: 36. The second at 0x1000 is read.
    let mut list = Vec::new();
    for (offset, answer) in [
        (0x800, "refused\t36\t0\t0\n"),
        (
            0x1000,
            "map\t1\t18446726481828927096\t3\t0\narea\t0\t4096\t0\t8256\narea\t4096\t4096\t0\t8298\narea\t8192\t182\t5\t8340\n",
        ),
    ] {
        let map = MapFields::new(16_384, 8192, &[(0, 0x1000, "RO"), (offset, 0x1000, "RW")]);
        list.push(Literal { case: map.case("bench"), answer: answer.into() });
    }
    list
}

/// Where signatures stand: first and last multiple of 64, beside one, twice, cut by the end.
fn places(rng: &mut Rng, cases: &mut Vec<Case>) {
    for length in [64, 98, 99, 127, 128, 162, 163, 256, 1000, 4096, 65_535, 65_536] {
        for at in (0..length).step_by(64) {
            if length > 1000 && at > 128 && at + 300 < length && !rng.one_in(12) {
                continue;
            }
            let map = MapFields::new(length, at, &[]);
            if length < 5_000 || at + 200 > length {
                cases.push(map.case("place"));
                for shift in [-1i64, 1, 8, 32] {
                    let beside = (at as i64 + shift).max(0) as usize;
                    cases.push(MapFields { at: beside, ..map.clone() }.case("place off 64"));
                }
            }
            if length > 1000 {
                continue;
            }
            let mut image = map.image();
            let other = 64 * rng.below(length.div_ceil(64)) as i64 + *rng.pick(&[0, 0, 0, 1, -1, 8]);
            put(&mut image, other, &SIGNATURE);
            cases.push(Case::new(b'f', &Arc::new(image), "second signature"));
            let mut image = map.image();
            image[at + rng.below(8).min(length - at - 1)] ^= 1 << rng.below(8);
            cases.push(Case::new(b'f', &Arc::new(image), "signature one bit off"));
        }
    }
    // The signature's eight bytes end with the image, or one byte past it; and images shorter than 64.
    for length in 0..=200 {
        let at = length / 64 * 64;
        cases.push(MapFields::new(length, at, &[]).case("cut by the end"));
        cases.push(MapFields::new(length, 0, &[]).case("cut by the end"));
        let mut image = vec![0; length];
        put(&mut image, at as i64, &SIGNATURE);
        cases.push(Case::new(b'f', &Arc::new(image), "signature alone"));
    }
    for count in [1, 2, 3, 20] {
        // The areas end with the image and around it.
        let list: Vec<(u32, u32, String)> = (1..count).map(|index| (index, 1, format!("N{index}"))).collect();
        let list: Vec<(u32, u32, &str)> = list.iter().map(|(offset, size, name)| (*offset, *size, &name[..])).collect();
        for beyond in -45i64..=45 {
            let length = (128 + HEADER + AREA * count as usize) as i64 + beyond;
            cases.push(MapFields::new(length as usize, 128, &list).case("areas at the end"));
        }
    }
}

fn headers(rng: &mut Rng, cases: &mut Vec<Case>) {
    let base = MapFields::new(4096, 192, &[(0x800, 0x100, "RW")]);
    for value in 0..=255u8 {
        cases.push(MapFields { major: value, ..base.clone() }.case("major"));
        cases.push(MapFields { minor: value, ..base.clone() }.case("minor"));
    }
    for bit in 0..64 {
        cases.push(MapFields { base: 1 << bit, ..base.clone() }.case("base"));
        cases.push(MapFields { size: 4096 ^ (1u64 << (bit % 32)) as u32, ..base.clone() }.case("size"));
    }
    for size in [0, 4095, 4096, 4097, 0xFFFF_FFFF, 4096u32.swap_bytes()] {
        cases.push(MapFields { size, ..base.clone() }.case("size"));
    }
    for nareas in [0, 1, 2, 3, 4, 92, 93, 94, 255, 256, 257, 0x0200, 0x8002, 65_535] {
        cases.push(MapFields { nareas, ..base.clone() }.case("nareas"));
        cases.push(MapFields { nareas, at: 4096 - 64, ..base.clone() }.case("nareas"));
    }
    for name in [&b""[..], b"a b", &[0xFF; 32], &long_name(32), b"FMAP"] {
        cases.push(MapFields { name: name.to_vec(), ..base.clone() }.case("map's own name"));
    }
    for count in [1, 2, 255, 256, 257, 258] {
        let map = crowd(count);
        cases.push(map.case("crowd"));
        let mut same = map.clone();
        same.areas[count / 2].name = same.areas[0].name.clone();
        cases.push(same.case("crowd"));
        let mut last = map.clone();
        last.areas[count - 1].offset += 1;
        cases.push(last.case("crowd"));
        let mut wide = map.clone();
        wide.areas[0].size = 16_384 - wide.areas[0].offset;
        cases.push(wide.case("crowd"));
        let mut cut = map;
        cut.length = 64 + HEADER + AREA * count - rng.below(2);
        cut.size = cut.length as u32;
        cases.push(cut.case("crowd"));
    }
}

fn names(cases: &mut Vec<Case>) {
    let base = MapFields::new(4096, 0, &[(0x800, 0x100, "RW"), (0x900, 0x100, "RO")]);
    for length in 0..=33 {
        for fill in [0, 0x41, 0xFF] {
            for index in 0..2 {
                let mut map = MapFields { fill, ..base.clone() };
                map.areas[index].name = long_name(length);
                cases.push(map.case("area name"));
            }
        }
    }
    for position in 0..32 {
        for byte in [0, 1, 0x1F, 0x20, 0x21, 0x7E, 0x7F, 0x80, 0xFF] {
            for length in [position + 1, 31, 32] {
                let mut name = vec![b'n'; length.min(32)];
                if position < name.len() {
                    name[position] = byte;
                }
                let mut map = base.clone();
                map.areas[1].name = name;
                cases.push(map.case("area name"));
            }
        }
    }
    // The area that holds the map under other names.
    for name in [&b"FMAP"[..], b"FMAP\0x", b"FMAP2", b"FMAP_", b"FMA", b"fmap", b"XFMAP", b"__FMAP__"] {
        let mut map = base.clone();
        map.areas[2].name = name.to_vec();
        cases.push(map.case("FMAP's name"));
    }
    // The same name with other bytes after the zero; prefixes; FMAP in other places.
    for (one, two) in [
        (&b"RW\0one"[..], &b"RW\0two"[..]),
        (b"RW", b"RW\0two"),
        (b"RW", b"RW_"),
        (b"RW_", b"RW"),
        (b"RW", b"rw"),
        (b"RW", b"FMAP"),
        (b"FMAP", b"RW"),
        (b"FMAP\0x", b"RW"),
        (b"FMA", b"FMAPS"),
        (b"fmap", b"FMAP2"),
    ] {
        let mut map = base.clone();
        map.areas[0].name = one.to_vec();
        map.areas[1].name = two.to_vec();
        cases.push(map.case("two names"));
        let mut map = map.clone();
        map.areas[2].name = b"OTHER".to_vec();
        cases.push(map.case("two names"));
        map.areas[0].offset = 0;
        map.areas[0].size = 4096;
        cases.push(map.case("two names"));
    }
}

fn areas(cases: &mut Vec<Case>) {
    // One area at every edge of the image.
    for offset in [0, 1, 4094, 4095, 4096, 4097, 0x8000_0000, 0xFFFF_FFFF] {
        for size in [0, 1, 2, 4095, 4096, 4097, 0x8000_0000, 0xFFFF_FFFF, 0u32.wrapping_sub(offset), 4096u32.wrapping_sub(offset)]
        {
            cases.push(MapFields::new(4096, 1024, &[(offset, size, "RW")]).case("area's edges"));
        }
    }
    // Two areas around each other.
    for (start, size) in [(0x1000u32, 0x800u32), (0x1000, 1), (0, 0x1000)] {
        for other in [1, 2, 0x7FF, 0x800, 0x801] {
            let end = start + size;
            for offset in [
                start.saturating_sub(other + 1),
                start.saturating_sub(other),
                start.saturating_sub(other) + 1,
                start,
                start + 1,
                end.saturating_sub(other + 1),
                end.saturating_sub(other),
                end.saturating_sub(other) + 1,
                end - 1,
                end,
                end + 1,
            ] {
                for middle in [None, Some((0x3000, 0x10, "MID"))] {
                    let mut list = vec![(start, size, "ONE"), (offset, other, "TWO")];
                    if let Some(area) = middle {
                        list.insert(1, area);
                    }
                    let map = MapFields::new(16_384, 0x2000, &list);
                    cases.push(map.case("two areas"));
                    let mut swapped = map;
                    swapped.areas.reverse();
                    cases.push(swapped.case("two areas"));
                }
            }
        }
    }
    // FMAP areas that hold the map exactly, more, and one byte less at either end.
    for count in [1u32, 2, 5] {
        let list: Vec<(u32, u32, String)> = (1..count).map(|index| (0x1000 * index, 0x10, format!("N{index}"))).collect();
        let list: Vec<(u32, u32, &str)> = list.iter().map(|(offset, size, name)| (*offset, *size, &name[..])).collect();
        for before in -2i64..=2 {
            for after in -2i64..=2 {
                let mut map = MapFields::new(16_384, 256, &list);
                let own = map.areas.last_mut().expect("FMAP");
                own.offset = (own.offset as i64 - before) as u32;
                own.size = (own.size as i64 + before + after) as u32;
                cases.push(map.case("FMAP area"));
            }
        }
    }
    // Faults in turn: an earlier area's 35 before a later one's 33, and any area's 33 or 35 before 34.
    for faults in 0..64 {
        let mut map = MapFields::new(4096, 0, &[(0x800, 0x10, "A"), (0x900, 0x10, "B"), (0xA00, 0x10, "C")]);
        for (area, fault) in map.areas.iter_mut().zip([faults % 4, faults / 4 % 4, faults / 16]) {
            match fault {
                0 => {}
                1 => area.name = b"a b".to_vec(),
                2 => area.size = 0,
                _ => area.name = b"SAME".to_vec(),
            }
        }
        cases.push(map.case("faults in turn"));
    }
}

/// A random map: nested areas, mostly right, and one field changed now and then.
fn random_map(rng: &mut Rng) -> Case {
    let length = rng.range(300, 3_000);
    let count = rng.below(6);
    let mut list: Vec<(u32, u32, String)> = Vec::new();
    for index in 0..count {
        let (low, high) = match rng.below(3) {
            0 => (0, length as u32),
            _ if !list.is_empty() => {
                let (offset, size, _) = rng.pick(&list).clone();
                (offset, offset + size)
            }
            _ => (0, length as u32),
        };
        let one = low + rng.below((high - low) as usize) as u32;
        let two = low + 1 + rng.below((high - low) as usize) as u32;
        let (start, end) = if one < two { (one, two) } else { (two - 1, one + 1) };
        list.push((start, end - start, format!("AREA{index}")));
    }
    let named: Vec<(u32, u32, &str)> = list.iter().map(|(offset, size, name)| (*offset, *size, &name[..])).collect();
    let size = HEADER + AREA * (count + 1);
    let at = if length > size { rng.below((length - size) / 64 + 1) * 64 } else { 0 };
    let mut map = MapFields::new(length, at, &named);
    map.minor = rng.byte();
    map.base = rng.next();
    map.fill = rng.byte();
    for area in &mut map.areas {
        area.flags = rng.number32() as u16;
    }
    let own = rng.below(map.areas.len());
    let fmap = map.areas.len() - 1;
    map.areas.swap(own, fmap);
    if rng.one_in(4) {
        let index = rng.below(map.areas.len());
        let area = &mut map.areas[index];
        match rng.below(5) {
            0 => area.size += 1,
            1 => area.size -= 1,
            2 => area.offset = area.offset.wrapping_sub(1),
            3 => area.name = rng.bytes(4),
            _ => area.offset += 1,
        }
    }
    if rng.one_in(12) {
        let name = rng.pick(&map.areas).name.clone();
        map.areas[0].name = name;
    }
    let mut image = vec![rng.byte(); length];
    put(&mut image, at as i64, &map.bytes());
    if rng.one_in(12) {
        let other = 64 * rng.below(length.div_ceil(64));
        put(&mut image, other as i64 + *rng.pick(&[0, 0, 0, 1, 32]), &SIGNATURE);
    }
    if rng.one_in(8) {
        damage(rng, &mut image);
    }
    if rng.one_in(10) {
        let here = at + rng.below(size.min(image.len().saturating_sub(at)).max(1));
        if here < image.len() {
            image[here] ^= 1 << rng.below(8);
        }
    }
    Case::new(b'f', &Arc::new(image), "random map")
}

fn generated(seed: u64, count: usize) -> Vec<Batch> {
    let mut rng = Rng::new(seed ^ 0xF3A9);
    let mut cases = Vec::new();
    places(&mut rng, &mut cases);
    headers(&mut rng, &mut cases);
    names(&mut cases);
    areas(&mut cases);
    let target = count.max(cases.len() + count / 3);
    while cases.len() < target {
        cases.push(random_map(&mut rng));
    }
    cases.extend(longest().iter().map(|scene| Case::new(b'f', &scene.image, scene.note)));
    vec![Batch::plain(cases)]
}
