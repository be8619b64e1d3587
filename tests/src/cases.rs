//! Generators of images, with the numbers to step from and the names to look up that are of interest on each.
//! Document 01, "Master header" and "Components and the two walks": both sides of every boundary, and random ones.
//! Headers at a boundary state no sum or the right one, so that the boundary decides and not the sum.

use std::sync::Arc;

use crate::image::{background, lay, put, Frame, Raw};
use crate::protocol::Case;
use crate::rng::Rng;
use crate::sums::{self, good, mostly_good, state, state_each, Stated, Wrong, WRONG};
use crate::walk::{self, LARCHIVE};

/// An image and what to ask of it.
pub struct Scene {
    pub image: Arc<Vec<u8>>,
    pub numbers: Vec<u64>,
    pub names: Vec<Vec<u8>>,
    pub note: &'static str,
}

impl Scene {
    fn new(image: Vec<u8>, numbers: &[u64], names: &[&[u8]], note: &'static str) -> Scene {
        let names = names.iter().map(|name| name.to_vec()).collect();
        Scene { image: Arc::new(image), numbers: numbers.to_vec(), names, note }
    }

    /// A step from each number and a lookup of each name, by these operations.
    pub fn ask_by_number_and_name(&self, step: u8, lookup: u8, cases: &mut Vec<Case>) {
        for number in &self.numbers {
            cases.push(Case::new(step, &self.image, self.note).numbered(*number));
        }
        for name in &self.names {
            cases.push(Case::new(lookup, &self.image, self.note).named(name));
        }
    }
}

pub const ALIGNS: [usize; 13] = [16, 32, 64, 128, 256, 512, 1024, 2048, 4096, 8192, 16384, 32768, 65536];

/// A name of so many fit bytes.
pub fn long_name(length: usize) -> Vec<u8> {
    (0..length).map(|at| 0x21 + (at * 7 % 94) as u8).collect()
}

/// A component as it is, without a sum, or with its right one.
pub fn summed_or_not(rng: &mut Rng, raw: Raw) -> Raw {
    if rng.one_in(2) {
        raw.summed()
    } else {
        raw
    }
}

/// Every scene that is not random but for the bytes that do not matter.
pub fn fixed(rng: &mut Rng) -> Vec<Scene> {
    let mut scenes = Vec::new();
    lengths(rng, &mut scenes);
    pointers(rng, &mut scenes);
    master_fields(rng, &mut scenes);
    small_regions(rng, &mut scenes);
    offsets(rng, &mut scenes);
    lens(rng, &mut scenes);
    name_fields(rng, &mut scenes);
    tails(rng, &mut scenes);
    magics(rng, &mut scenes);
    neighbours(rng, &mut scenes);
    names(rng, &mut scenes);
    steps(rng, &mut scenes);
    checksums(rng, &mut scenes);
    edge_sums(rng, &mut scenes);
    widest_sum(rng, &mut scenes);
    hiding(rng, &mut scenes);
    twins(rng, &mut scenes);
    scenes
}

/// Images shorter than 64 bytes, and a few more, with a frame and without.
fn lengths(rng: &mut Rng, scenes: &mut Vec<Scene>) {
    for length in 0..=66 {
        scenes.push(Scene::new(rng.bytes(length), &[0], &[b"a"], "length"));
        let mut image = rng.bytes(length);
        let boot = length.min(40);
        Frame::new(length, 36, boot, 16, 0).stamp(&mut image);
        scenes.push(Scene::new(image, &[0, 16, 24], &[b"a"], "length, framed"));
    }
}

/// P at each edge of its range and one off; the header before byte 0, at it and after it; and one byte beside where P says.
fn pointers(rng: &mut Rng, scenes: &mut Vec<Scene>) {
    for length in [64, 65, 100, 4096, 65_535, 65_536] {
        let edges = [
            0,
            1,
            4,
            5,
            15,
            16,
            17,
            31,
            32,
            33,
            34,
            35,
            36,
            37,
            38,
            63,
            64,
            65,
            100,
            101,
            4095,
            4096,
            4097,
            65_534,
            65_535,
            65_536,
            65_537,
            65_538,
            0x0100_0000,
            0x8000_0000,
            0xFFFF_FFFE,
            0xFFFF_FFFF,
        ];
        for from_end in edges {
            let boot = length.min(from_end.max(36));
            let frame = Frame::new(length, from_end, boot, 16, 0);
            let image = frame.over(background(rng, length));
            scenes.push(Scene::new(image, &[0], &[b"a"], "pointer"));
        }
        for beside in [-1i64, 1] {
            let frame = Frame::new(length, 40, length.min(64), 16, 0);
            let mut image = rng.bytes(length);
            let shifted = Frame { pointer: (frame.pointer as i64 + beside) as u32, ..frame.clone() };
            shifted.stamp(&mut image);
            put(&mut image, length as i64 - 4, &frame.pointer.to_le_bytes());
            scenes.push(Scene::new(image, &[0], &[b"a"], "header one byte beside"));
        }
    }
}

/// Each field of the master header at its edges.
fn master_fields(rng: &mut Rng, scenes: &mut Vec<Scene>) {
    for (length, from_end, boot, align, offset) in [
        (1024, 64, 256, 64, 128),
        (1000, 36, 36, 16, 0),
        (4096, 100, 1096, 256, 512),
        (64, 64, 64, 16, 0),
        (3000, 3000, 3000, 1024, 0),
    ] {
        let base = Frame::new(length, from_end, boot, align, offset);
        let mut frames = vec![base.clone()];
        for bit in 0..32 {
            frames.push(Frame { magic: base.magic ^ (1 << bit), ..base.clone() });
            frames.push(Frame { version: base.version ^ (1 << bit), ..base.clone() });
            frames.push(Frame { romsize: base.romsize ^ (1 << bit), ..base.clone() });
            frames.push(Frame { align: 1 << bit, offset: 0, ..base.clone() });
            frames.push(Frame { align: 1 << bit, ..base.clone() });
            frames.push(Frame { align: (1u32 << bit) | 1, offset: 0, ..base.clone() });
            frames.push(Frame { align: (1u32 << bit).wrapping_sub(1), offset: 0, ..base.clone() });
        }
        frames.push(Frame { magic: base.magic.swap_bytes(), ..base.clone() });
        frames.push(Frame { romsize: base.romsize.swap_bytes(), ..base.clone() });
        for align in [0, 3, 8, 24, 48, 80, 96, 0x30000, 0x8010, 0x18000, 0xFFFF_FFFF] {
            frames.push(Frame { align, offset: 0, ..base.clone() });
        }
        for romsize in [length - 1, length + 1, 0] {
            frames.push(Frame { romsize: romsize as u32, ..base.clone() });
        }
        for boot in [0, 1, 35, 36, 37, from_end - 1, from_end, from_end + 1, length - 1, length, length + 1, 1 << 31, 0xFFFF_FFFF]
        {
            frames.push(Frame { boot: boot as u32, offset: 0, ..base.clone() });
            frames.push(Frame { boot: boot as u32, ..base.clone() });
        }
        let end = base.end() as i64;
        let up = (end + align as i64 - 1) / align as i64 * align as i64;
        let align = align as i64;
        for offset in [
            0,
            1,
            align - 1,
            align,
            align + 1,
            end - align,
            end - 1,
            end,
            end + 1,
            up - align,
            up,
            up + align,
            align / 2,
            1 << 31,
            (1 << 32) - align,
            (1 << 32) - 1,
        ] {
            if offset >= 0 {
                frames.push(Frame { offset: offset as u32, ..base.clone() });
            }
        }
        for mut frame in frames {
            frame.pads = [rng.number32(), rng.number32()];
            let mut image = background(rng, length);
            let raw = Raw::new(b"a", rng.number32(), &[7; 5]);
            put(&mut image, offset as i64, &raw.bytes());
            frame.stamp(&mut image);
            state_each(rng, &mut image, &[offset], good);
            scenes.push(Scene::new(image, &[frame.offset as u64], &[b"a"], "master field"));
        }
    }
}

/// Empty regions and regions of a few bytes, at every align; regions that end beside a multiple of align.
fn small_regions(rng: &mut Rng, scenes: &mut Vec<Scene>) {
    for align in ALIGNS {
        for offset in [0, align, 3 * align] {
            for size in [0, 1, 7, 8, 9, 23, 24, 25, 39, 40, 41, 42, align - 1, align, align + 1] {
                let end = offset + size;
                for from_end in [36, 64] {
                    let length = end + from_end;
                    if length < 64 || length > 65_536 || length > 12_000 && from_end > 36 {
                        continue;
                    }
                    let mut image = if length > 9_000 { vec![0xFF; length] } else { background(rng, length) };
                    let raw = Raw::new(b"a", 0x10, &[]);
                    put(&mut image, offset as i64, &raw.bytes());
                    Frame::new(length, from_end, from_end, align, offset).stamp(&mut image);
                    state_each(rng, &mut image, &[offset], good);
                    let numbers = [offset as u64, end as u64, end as u64 + 1];
                    scenes.push(Scene::new(image, &numbers, &[b"a"], "small region"));
                }
            }
        }
    }
}

/// One component that is to be wrong somewhere, between two right ones, or at the region's start, at some align.
struct Stand {
    frame: Frame,
    place: usize,
    others: Vec<(usize, Raw)>,
}

fn stands() -> Vec<Stand> {
    let mut list = Vec::new();
    for (align, offset, place, end) in [
        (16, 0, 0, 800),
        (16, 48, 112, 1003),
        (64, 64, 128, 900),
        (64, 0, 0, 704),
        (256, 256, 512, 1800),
        (1024, 1024, 1024, 2048),
        (4096, 0, 4096, 5000),
    ] {
        let mut others = Vec::new();
        if place > offset && place - offset >= 44 {
            others.push((offset, Raw::new(b"before", 1, b"1234")));
        }
        let after = (place + 340 + align - 1) / align * align;
        if after + 44 < end {
            others.push((after, Raw::new(b"after", 2, b"5678")));
        }
        let length = end + 400;
        list.push(Stand { frame: Frame::new(length, 36, 400, align, offset), place, others });
    }
    list
}

impl Stand {
    fn scene(&self, rng: &mut Rng, raw: &Raw, note: &'static str) -> Scene {
        let mut image = vec![0xFF; self.frame.length];
        if rng.one_in(3) {
            image = background(rng, self.frame.length);
        }
        for (place, other) in &self.others {
            put(&mut image, *place as i64, &other.bytes());
        }
        put(&mut image, self.place as i64, &raw.bytes());
        let mut frame = self.frame.clone();
        frame.pads = [rng.number32(), rng.number32()];
        frame.stamp(&mut image);
        let others = self.others.iter().map(|(place, _)| *place);
        state_each(rng, &mut image, &others.chain([self.place]).collect::<Vec<usize>>(), good);
        let name: Vec<u8> = raw.field.iter().take_while(|byte| **byte != 0).copied().take(300).collect();
        Scene::new(image, &[self.place as u64], &[&name], note)
    }
}

/// The component's offset field at every edge, with names that fill the field.
fn offsets(rng: &mut Rng, scenes: &mut Vec<Scene>) {
    for stand in stands() {
        let mut values: Vec<u32> = vec![
            0,
            1,
            16,
            23,
            24,
            25,
            38,
            39,
            40,
            41,
            42,
            48,
            55,
            56,
            57,
            64,
            72,
            128,
            263,
            264,
            265,
            272,
            278,
            279,
            280,
            281,
            282,
            288,
            295,
            296,
            297,
            312,
            536,
            1024,
            65_576,
            0x0001_0028,
            0x0100_0028,
            0x2800_0000,
            0x8000_0028,
            0xFFFF_FFE8,
            0xFFFF_FFF8,
            0xFFFF_FFFF,
        ];
        values.extend((40..=280).step_by(16));
        values.push((stand.place as u32).wrapping_neg());
        values.push((stand.place as u32).wrapping_neg().wrapping_add(40));
        for offset in values {
            let size = (offset.saturating_sub(24) as usize).clamp(16, 288);
            for name in [1, size - 1] {
                let mut raw = Raw::new(&long_name(name), rng.number32(), &[9; 10]);
                raw.field.resize(size, 0);
                raw.offset = offset;
                scenes.push(stand.scene(rng, &raw, "component offset"));
            }
        }
    }
}

/// The component's len: its span ends at, before and after the region's end, and wraps around.
fn lens(rng: &mut Rng, scenes: &mut Vec<Scene>) {
    for stand in stands() {
        for name in [3, 15, 16, 40, 255] {
            let mut raw = Raw::new(&long_name(name), 0xFFFF_FFFF, &[]);
            let room = stand.frame.end() as i64 - stand.place as i64 - raw.offset as i64;
            let wrapped = (1i64 << 32) - raw.offset as i64;
            for len in [
                0,
                1,
                room - 1,
                room,
                room + 1,
                room + 2,
                room + 300,
                room + raw.offset as i64,
                (1 << 31) - 1,
                1 << 31,
                wrapped,
                wrapped - 1,
                wrapped + 1,
                wrapped + 60,
                wrapped - stand.place as i64,
                wrapped - stand.place as i64 + 60,
                (1 << 32) - stand.place as i64,
                (1 << 32) - 1,
            ] {
                if (0..1i64 << 32).contains(&len) {
                    raw.len = len as u32;
                    scenes.push(stand.scene(rng, &raw, "component len"));
                }
            }
        }
    }
}

/// Every position of the name field with each byte at an edge.
fn name_fields(rng: &mut Rng, scenes: &mut Vec<Scene>) {
    let edges = [0x00, 0x01, 0x20, 0x21, 0x7E, 0x7F, 0x80, 0xFF];
    let stands = stands();
    for size in [16, 32, 48, 256] {
        for length in [1, size / 2, size - 1] {
            for position in 0..size {
                for edge in edges {
                    let at_edge = position < 2 || position + 2 >= size || position + 1 >= length && position <= length + 1;
                    if size > 16 && !at_edge && !rng.one_in(4) || size == 256 && !at_edge && !rng.one_in(3) {
                        continue;
                    }
                    let stand = &stands[rng.below(4)];
                    let mut raw = Raw::new(&long_name(length), 0x20, &[1; 3]).with_field(size);
                    raw.field[position] = edge;
                    scenes.push(stand.scene(rng, &raw, "name field"));
                }
            }
        }
    }
}

/// The last place with so many bytes left; what would follow stands past the region's end.
fn tails(rng: &mut Rng, scenes: &mut Vec<Scene>) {
    for align in [16, 32, 64, 128] {
        for left in 0..=66 {
            for len in [0, 1, left as i64 - 40] {
                if len < 0 || left > 56 && len < 2 {
                    continue;
                }
                let place = 2 * align;
                let end = place + left;
                let length = end + 200;
                let mut image = rng.bytes(length);
                put(&mut image, 0, &Raw::new(b"first", 5, b"").bytes());
                put(&mut image, place as i64, &Raw::new(b"last", 6, &vec![3; len as usize]).bytes());
                Frame::new(length, 36, 200, align, 0).stamp(&mut image);
                state_each(rng, &mut image, &[0, place], good);
                let numbers = [place as u64, end as u64];
                scenes.push(Scene::new(image, &numbers, &[b"last"], "tail"));
            }
        }
    }
}

/// The magic one byte off at each of its bytes, and off the alignment.
fn magics(rng: &mut Rng, scenes: &mut Vec<Scene>) {
    for stand in stands() {
        for at in 0..8 {
            for change in [1, 0x20, 0x80, 0xFF] {
                let mut raw = Raw::new(b"name", 0x10, b"content");
                raw.magic[at] ^= change;
                scenes.push(stand.scene(rng, &raw, "magic one byte off"));
            }
        }
        for shift in -9i64..=9 {
            let mut image = vec![0xFF; stand.frame.length];
            let raw = summed_or_not(rng, Raw::new(b"name", 0x10, b"content"));
            put(&mut image, stand.place as i64 + shift, &raw.bytes());
            stand.frame.stamp(&mut image);
            let numbers = [stand.frame.offset as u64, stand.place as u64];
            scenes.push(Scene::new(image, &numbers, &[b"name"], "magic off the alignment"));
        }
    }
}

/// Spans that end before, at and after a place where the next component stands.
fn neighbours(rng: &mut Rng, scenes: &mut Vec<Scene>) {
    for align in ALIGNS {
        for offset in [0, align] {
            for beyond in [-2i64, -1, 0, 1, 2] {
                let turns = 40 / align + 1;
                let second = offset + turns * align;
                let len = (turns * align) as i64 + beyond - 40;
                let end = second + 2 * align + 41;
                let length = end + 36;
                if len < 0 || length > 65_536 {
                    continue;
                }
                let mut image = if length > 9_000 { vec![0xFF; length] } else { background(rng, length) };
                let later = second + (40 / align + 1) * align;
                if later + 40 <= end {
                    put(&mut image, later as i64, &Raw::new(b"third", 3, b"").bytes());
                }
                put(&mut image, second as i64, &Raw::new(b"second", 2, b"").bytes());
                let raw = Raw::new(b"first", 1, &vec![0x5A; len as usize]);
                // A span that reaches over the next place must not corrupt the header there.
                let bytes = raw.bytes();
                put(&mut image, offset as i64, &bytes[..bytes.len().min(second - offset)]);
                Frame::new(length, 36, 36, align, offset).stamp(&mut image);
                state_each(rng, &mut image, &[offset, second, later], good);
                let numbers = [offset as u64, second as u64, (second + align) as u64, later as u64];
                scenes.push(Scene::new(image, &numbers, &[b"first", b"second", b"third"], "neighbours"));
            }
        }
    }
}

/// Names that are prefixes of others, all the lengths that matter, twice the same; lookups around them.
fn names(rng: &mut Rng, scenes: &mut Vec<Scene>) {
    let families: [Vec<Vec<u8>>; 5] = [
        vec![b"cal/12".to_vec(), b"cal/1".to_vec(), b"cal/123".to_vec(), b"cal".to_vec()],
        vec![b"cal/123".to_vec(), b"cal/12".to_vec()],
        vec![long_name(1), long_name(15), long_name(16), long_name(31), long_name(255)],
        vec![long_name(255), long_name(254), long_name(32), long_name(17), long_name(14)],
        vec![b"x".to_vec(), b"y".to_vec(), b"x".to_vec(), b"!".to_vec(), b"~".to_vec(), b"x".to_vec()],
    ];
    for family in families {
        for align in [16, 64, 512] {
            let mut image = rng.bytes(65_536);
            let mut at = 2 * align;
            for (index, name) in family.iter().enumerate() {
                let content = rng.bytes(index * 3);
                let raw = summed_or_not(rng, Raw::new(name, index as u32, &content));
                put(&mut image, at as i64, &raw.bytes());
                at = (at + raw.bytes().len() + align - 1) / align * align;
            }
            let end = at + 5;
            image.truncate(end + 64);
            Frame::new(end + 64, 40, 64, align, 2 * align).stamp(&mut image);
            let mut asked: Vec<Vec<u8>> =
                vec![Vec::new(), long_name(256), long_name(257), long_name(1024), vec![0], vec![0xFF; 16]];
            for name in &family {
                asked.extend(around(name));
            }
            let mut scene = Scene::new(image, &[], &[], "names");
            scene.names = asked;
            scenes.push(scene);
        }
    }
}

/// A name, and names that a hasty comparison takes for it.
pub fn around(name: &[u8]) -> Vec<Vec<u8>> {
    let mut list = vec![name.to_vec()];
    if !name.is_empty() {
        list.push(name[..name.len() - 1].to_vec());
        list.push(name[1..].to_vec());
        let mut other = name.to_vec();
        *other.last_mut().expect("not empty") ^= 1;
        list.push(other);
        let mut other = name.to_vec();
        other[0] ^= 0x20;
        list.push(other);
    }
    for end in [0x00, 0x20, 0x21, 0x7F, 0x80] {
        let mut other = name.to_vec();
        other.push(end);
        list.push(other);
    }
    let mut padded = name.to_vec();
    padded.resize(name.len() / 16 * 16 + 16, 0);
    list.push(padded);
    list
}

/// Numbers to step from, on a region that begins above 0 and ends off a multiple of align.
fn steps(rng: &mut Rng, scenes: &mut Vec<Scene>) {
    for (align, offset, end) in
        [(16, 64, 403), (64, 128, 640), (64, 0, 700), (256, 512, 1537), (1024, 0, 3073), (32, 96, 96), (32, 0, 0)]
    {
        let length = end + 64;
        let mut image = rng.bytes(length);
        for (index, place) in [offset, offset + 2 * align.max(64), offset + 3 * align.max(64)].into_iter().enumerate() {
            if place + 48 <= end {
                let raw = summed_or_not(rng, Raw::new(b"step", index as u32, &[0; 8]));
                put(&mut image, place as i64, &raw.bytes());
            }
        }
        Frame::new(length, 64, 64, align, offset).stamp(&mut image);
        let mut scene = Scene::new(image, &[], &[], "steps");
        scene.numbers = numbers(offset as u64, end as u64, align as u64);
        for place in (offset..end).step_by(align).take(16) {
            scene.numbers.extend([place as u64, place as u64 + 1, (place as u64).saturating_sub(1)]);
        }
        scenes.push(scene);
    }
}

/// No sum, the right one and each wrong one.
pub fn every_stated() -> Vec<Stated> {
    let wrong = WRONG.iter().map(|(way, _)| Stated::Wrong(*way));
    [Stated::None, Stated::Right].into_iter().chain(wrong).collect()
}

/// Each of them over contents and names of every kind, between two other components.
fn checksums(rng: &mut Rng, scenes: &mut Vec<Scene>) {
    let random = [&rng.bytes(76)[..], b"!"].concat();
    let contents: [&[u8]; 9] = [b"", b"\0", b"\xFF", b"content", &[0; 40], &random, &[0xFF; 300], &[0xFF; 1000], &[0x33; 20]];
    for (index, content) in contents.into_iter().enumerate() {
        for name in [1, 15, 16, 255].map(long_name) {
            let mut raw = Raw::new(&name, random_kind(rng), content);
            if index == 8 {
                // A multiple of 255 has fields that are right with their own bytes.
                raw.content[19] = 0;
                raw.content[19] = 255 - (walk::sum(&raw.bytes()) % 255) as u8;
            }
            for stated in every_stated() {
                scenes.extend(summed_scene(rng, &raw, stated));
            }
        }
    }
}

/// Each of them for sums at the edges of 16 and 17 bits.
fn edge_sums(rng: &mut Rng, scenes: &mut Vec<Scene>) {
    for sum in [0xFFFF, 0x1_0000, 0x1_0001, 0x1_FFFF, 0x2_0000] {
        let mut raw = Raw::new(b"edge", random_kind(rng), &[0; 520]);
        let mut left = u32::saturating_sub(sum, walk::sum(&raw.bytes()));
        for byte in &mut raw.content {
            *byte = left.min(255) as u8;
            left -= *byte as u32;
        }
        for stated in every_stated() {
            scenes.extend(summed_scene(rng, &raw, stated));
        }
    }
}

/// A content of 0xFF up to the end of the longest region: its sum is nearly 2^24.
pub fn widest() -> (Frame, Raw) {
    let frame = Frame::new(65_536, 36, 36, 64, 64);
    (frame, Raw::new(b"wide", 0x20, &[0xFF; 65_500 - 64 - 40]))
}

/// Some of them for that content.
fn widest_sum(rng: &mut Rng, scenes: &mut Vec<Scene>) {
    let wrong = [Wrong::OneAbove, Wrong::OneBelow, Wrong::Byte(0), Wrong::Byte(1), Wrong::Short].map(Stated::Wrong);
    for stated in [Stated::None, Stated::Right].into_iter().chain(wrong) {
        let (frame, raw) = widest();
        let mut image = lay(&frame, &[(64, raw)]);
        state(rng, &mut image, 64, stated);
        scenes.push(Scene::new(image, &[64], &[b"wide"], "checksum"));
    }
}

/// One component that states a sum in this way; none where its sum cannot be wrong so.
fn summed_scene(rng: &mut Rng, raw: &Raw, stated: Stated) -> Option<Scene> {
    let align = *rng.pick(&[16, 64, 256]);
    let offset = align * rng.below(3);
    let place = (offset + 48).div_ceil(align) * align;
    let after = (place + raw.bytes().len()).div_ceil(align) * align;
    let end = after + 48 + rng.below(20);
    let length = end + 64;
    let mut image = if rng.one_in(2) { vec![0xFF; length] } else { rng.bytes(length) };
    put(&mut image, offset as i64, &Raw::new(b"before", 1, b"1234").bytes());
    put(&mut image, after as i64, &Raw::new(b"after", 2, b"5678").bytes());
    put(&mut image, place as i64, &raw.bytes());
    Frame::new(length, 40, 64, align, offset).stamp(&mut image);
    state_each(rng, &mut image, &[offset, after], good);
    let name: Vec<u8> = raw.field.iter().take_while(|byte| **byte != 0).copied().collect();
    let fits = state(rng, &mut image, place, stated);
    fits.then(|| Scene::new(image, &[offset as u64, place as u64], &[&name, b"after"], "checksum"))
}

/// Each of them for a component whose span holds another one whole, or up to the region's end; the inner one is at a place or off it.
fn hiding(rng: &mut Rng, scenes: &mut Vec<Scene>) {
    for align in [16, 64, 256] {
        for stated in every_stated() {
            for (shift, to_end) in [(0, false), (0, true), (8, false)] {
                let inner = 48usize.div_ceil(align) * align + align * rng.below(2);
                let size = inner + 48 + rng.range(1, 300);
                let end = size + if to_end { 0 } else { rng.below(2 * align) };
                let mut image = if rng.one_in(2) { vec![0xFF; end + 64] } else { rng.bytes(end + 64) };
                put(&mut image, 0, &Raw::new(b"outer", random_kind(rng), &vec![0x5A; size - 40]).bytes());
                put(&mut image, (inner + shift) as i64, &Raw::new(b"inner", random_kind(rng), b"inside").bytes());
                Frame::new(end + 64, 40, 64, align, 0).stamp(&mut image);
                state_each(rng, &mut image, &[inner + shift], mostly_good);
                if state(rng, &mut image, 0, stated) {
                    scenes.push(Scene::new(image, &[0, inner as u64], &[b"outer", b"inner"], "checksum"));
                }
            }
        }
    }
}

/// Two components of one name: the sum of the first, of the second, of both or of neither is wrong.
fn twins(rng: &mut Rng, scenes: &mut Vec<Scene>) {
    for align in [16, 64, 256] {
        for (first, second) in [(false, false), (true, false), (false, true), (true, true)] {
            for fill in [0usize, 9, 300] {
                let place = (48 + fill).div_ceil(align) * align;
                let end = place + 60;
                let mut image = vec![0xFF; end + 64];
                put(&mut image, 0, &Raw::new(b"twin", 0x10, &vec![0xEE; fill]).bytes());
                put(&mut image, place as i64, &Raw::new(b"twin", 0x20, b"second").bytes());
                Frame::new(end + 64, 36, 64, align, 0).stamp(&mut image);
                for (at, wrong) in [(place, second), (0, first)] {
                    let stated = if wrong { sums::wrong(rng) } else { good(rng) };
                    state(rng, &mut image, at, stated);
                }
                scenes.push(Scene::new(image, &[0, place as u64], &[b"twin"], "checksum"));
            }
        }
    }
}

/// A component with the longest name and no content: its span of 280 bytes ends at the region's end, one byte past it or one before it.
/// It stands at the region's start, or after another component; the region begins at 0 or above. A stage, a payload or another type.
/// Every other one states its sum.
pub fn longest() -> Vec<Scene> {
    let mut scenes = Vec::new();
    let mut kinds = [0x10, 0x20, 0xFFFF_FFFF].into_iter().cycle();
    let mut summed = [false, true].into_iter().cycle();
    for align in [16, 64, 256, 4096] {
        for (offset, others) in [(0, 0), (0, 1), (3 * align, 0), (3 * align, 1)] {
            let raw = Raw::new(&long_name(255), kinds.next().expect("a cycle"), &[]);
            let raw = if summed.next().expect("a cycle") { raw.summed() } else { raw };
            for size in [279, 280, 281] {
                let place = offset + others * 48usize.div_ceil(align) * align;
                let end = place + size;
                let mut image = vec![0xFF; end + 64];
                put(&mut image, offset as i64, &Raw::new(b"near", 7, b"12345678").bytes());
                put(&mut image, place as i64, &raw.bytes());
                Frame::new(end + 64, 40, 64, align, offset).stamp(&mut image);
                let numbers = [offset as u64, place as u64, (place + align) as u64, end as u64];
                scenes.push(Scene::new(image, &numbers, &[&long_name(255), &long_name(254), b"near"], "longest name"));
            }
        }
    }
    scenes
}

/// Numbers at and beside the edges of a region.
pub fn numbers(start: u64, end: u64, align: u64) -> Vec<u64> {
    let last = if end > start { (end - 1) / align * align } else { start };
    let mut list = Vec::new();
    for edge in [0, start, start + align, last, end, (end + align - 1) / align * align, 1 << 31, 1 << 32, 1 << 63] {
        list.extend([edge.wrapping_sub(1), edge, edge + 1, edge.wrapping_add(align), edge.wrapping_sub(align)]);
        list.push(edge.wrapping_add(1 << 32));
        list.push(edge.wrapping_sub(16));
    }
    list.sort();
    list.dedup();
    list
}

/// A random frame, right in all its fields.
pub fn random_frame(rng: &mut Rng) -> Frame {
    loop {
        let align = match rng.below(4) {
            0 => *rng.pick(&ALIGNS),
            1 => 16,
            _ => *rng.pick(&ALIGNS[..6]),
        };
        let length = match rng.below(24) {
            0 => rng.range(64, 70),
            1..=6 => rng.range(64, 600),
            7..=15 => rng.range(300, 2_500),
            16..=22 => rng.range(1_000, 8_192),
            _ => *rng.pick(&[16_384, 30_001, 65_535, 65_536]),
        };
        let from_end = match rng.below(5) {
            0 => 36,
            1 => 37,
            2 => length,
            3 => length.min(rng.range(36, 300)),
            _ => rng.range(36, length.min(65_536)),
        };
        if from_end > length.min(65_536) {
            continue;
        }
        let boot = match rng.below(6) {
            0 => length,
            1 => rng.range(from_end, length),
            2 => length.min(from_end + rng.below(100)),
            _ => from_end,
        };
        let end = length - boot;
        let places = end / align;
        let offset = match rng.below(4) {
            0 => align * rng.range(0, places),
            1 => align * places.min(rng.below(4)),
            2 if rng.one_in(8) => align * places,
            _ => 0,
        };
        if end - offset < 40 && !rng.one_in(6) {
            continue;
        }
        let mut frame = Frame::new(length, from_end, boot, align, offset);
        frame.pads = [rng.number32(), rng.number32()];
        return frame;
    }
}

/// A random fit name, often one of a few.
pub fn random_name(rng: &mut Rng) -> Vec<u8> {
    let known: [&[u8]; 10] =
        [b"a", b"b", b"ab", b"abc", b"cal/1", b"cal/12", b"cal/13", b"cal/123", b"log", b"fallback/romstage"];
    match rng.below(8) {
        0 => {
            let length = *rng.pick(&[1, 14, 15, 16, 17, 30, 31, 32, 47, 48, 254, 255]);
            long_name(length)
        }
        1 => {
            let length = rng.range(1, 40);
            (0..length).map(|_| rng.range(0x21, 0x7E) as u8).collect()
        }
        _ => rng.pick(&known).to_vec(),
    }
}

pub fn random_kind(rng: &mut Rng) -> u32 {
    match rng.below(5) {
        0 => 0xFFFF_FFFF,
        1 => 0x10,
        2 => 0x20,
        3 => 0,
        _ => rng.number32(),
    }
}

/// Content of this length: random, even, or with the magic in it.
pub fn random_content(rng: &mut Rng, length: usize) -> Vec<u8> {
    match rng.below(5) {
        0 => vec![0; length],
        1 => vec![0xFF; length],
        2 => {
            let mut bytes = rng.bytes(length);
            for _ in 0..rng.range(1, 3) {
                let at = rng.below(length.max(1)) as i64;
                let at = if rng.one_in(2) { at / 8 * 8 } else { at };
                put(&mut bytes, at, LARCHIVE);
            }
            bytes
        }
        _ => rng.bytes(length),
    }
}

/// A component for a place with so much room after it: any span that fits, often at an edge. It states no sum yet.
pub fn random_raw(rng: &mut Rng, room: usize, align: usize) -> Raw {
    let mut raw = Raw::new(&random_name(rng), random_kind(rng), &[]);
    if rng.one_in(6) {
        let longer = (raw.field.len() + 16 * rng.below(4)).min(256);
        raw = raw.with_field(longer);
    }
    let head = raw.offset as usize;
    let free = room.saturating_sub(head);
    let turns = head / align + 1 + rng.below(3);
    let to_place = (turns * align).saturating_sub(head);
    let length = match rng.below(10) {
        0 => 0,
        1 => free,
        2 => to_place,
        3 => to_place.saturating_sub(1),
        4 => to_place + 1,
        5 => rng.below(free + 1),
        _ => rng.below(80),
    };
    let length = length.min(free);
    raw.content = random_content(rng, length);
    raw.len = length as u32;
    raw
}

/// Corrupts one field of a component, just so much that it may be ill formed.
pub fn corrupt_raw(rng: &mut Rng, raw: &mut Raw, room: usize) {
    let size = raw.field.len();
    match rng.below(9) {
        0 => raw.offset = *rng.pick(&[0, 24, 39, 41, 55, 57, 279, 281, 296, 0xFFFF_FFF8]),
        1 => raw.offset += 16,
        2 => raw.offset = raw.offset.wrapping_add(*rng.pick(&[1, 8, 0x100, 0xFFFF_FFF0, 0x8000_0000])),
        3 => raw.len = (room as u32).wrapping_sub(raw.offset).wrapping_add(rng.below(3) as u32),
        4 => raw.len = *rng.pick(&[0xFFFF_FFFF, 0x8000_0000, 0u32.wrapping_sub(raw.offset), 0xFFFF_FF00]),
        5 => raw.field[size - 1] = 0x41,
        6 => raw.field[0] = *rng.pick(&[0, 0x20, 0x7F]),
        7 => {
            let at = rng.below(size);
            raw.field[at] = *rng.pick(&[0, 0x20, 0x21, 0x7E, 0x7F, 0x80]);
        }
        _ => {
            let at = rng.below(8);
            raw.magic[at] ^= 1 << rng.below(8);
        }
    }
}

/// Puts components into a region, right and wrong ones, apart, side by side and in one another. Gives the names.
pub fn fill(rng: &mut Rng, image: &mut [u8], frame: &Frame) -> Vec<Vec<u8>> {
    let align = frame.align as usize;
    let end = frame.end();
    let mut at = frame.offset as usize;
    let mut left = rng.range(1, 14);
    let mut names = Vec::new();
    while at < end && left > 0 {
        left -= 1;
        let room = end - at;
        let mut raw = random_raw(rng, room, align);
        let mut place = at as i64;
        match rng.below(12) {
            0 | 1 => corrupt_raw(rng, &mut raw, room),
            2 => place += *rng.pick(&[-8, -1, 1, 8]),
            3 => {
                put(image, place, LARCHIVE);
                at += align;
                continue;
            }
            _ => {}
        }
        names.push(raw.field.iter().take_while(|byte| **byte != 0).copied().collect());
        let bytes = raw.bytes();
        put(image, place, &bytes[..bytes.len().min(room)]);
        at = match rng.below(8) {
            0 => at + align,
            1 => (at + bytes.len() + align - 1) / align * align + align * rng.below(4),
            _ => (at + bytes.len() + align - 1) / align * align,
        };
    }
    names
}

/// Flips, copies and cuts, as a bad link might.
pub fn damage(rng: &mut Rng, image: &mut Vec<u8>) {
    for _ in 0..rng.range(1, 4) {
        let length = image.len();
        if length == 0 {
            return;
        }
        match rng.below(12) {
            0 => image.truncate(length - rng.below(length.min(80))),
            1 => {
                let more = rng.range(1, 40);
                let bytes = rng.bytes(more);
                image.extend(bytes);
            }
            2 => {
                let first = rng.below(length.min(50));
                image.drain(..first);
            }
            3 => {
                let at = rng.below(length) as i64 / 16 * 16;
                put(image, at, LARCHIVE);
            }
            4 | 5 => {
                let from = rng.below(length);
                let count = rng.below((length - from).min(128) + 1);
                let bytes = image[from..from + count].to_vec();
                let to = rng.below(length) as i64 / 16 * 16;
                put(image, to, &bytes);
            }
            6 => {
                let at = length - 1 - rng.below(length.min(40));
                image[at] ^= 1 << rng.below(8);
            }
            _ => {
                let at = rng.below(length);
                image[at] ^= 1 << rng.below(8);
            }
        }
    }
    image.truncate(65_536);
}

/// A random scene: a right image, and one time in three a damaged one.
pub fn random(rng: &mut Rng) -> Scene {
    let frame = random_frame(rng);
    let mut image = background(rng, frame.length);
    let names = fill(rng, &mut image, &frame);
    frame.stamp(&mut image);
    let places = sums::magics(&image, frame.region());
    state_each(rng, &mut image, &places, mostly_good);
    let mut note = "random";
    if rng.one_in(3) {
        damage(rng, &mut image);
        note = "random, damaged";
    }

    let mut asked = Vec::new();
    for _ in 0..3 {
        if names.is_empty() || rng.one_in(5) {
            asked.push(random_name(rng));
        } else {
            let name = rng.pick(&names).clone();
            let list = around(&name);
            asked.push(if rng.one_in(2) { name } else { rng.pick(&list).clone() });
        }
    }
    for name in &mut asked {
        name.truncate(1_024);
    }

    let edges = numbers(frame.offset as u64, frame.end() as u64, frame.align as u64);
    let size = frame.end() - frame.offset as usize;
    let mut from = Vec::new();
    for _ in 0..3 {
        from.push(match rng.below(4) {
            0 => *rng.pick(&edges),
            1 => rng.next(),
            _ => frame.offset as u64 + (rng.below(size + 1) as u64) / frame.align as u64 * frame.align as u64,
        });
    }
    Scene { image: Arc::new(image), numbers: from, names: asked, note }
}
