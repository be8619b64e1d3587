// The images that are timed and compared. Every byte of an image is written as it is made.
use crate::sums::{state, state_off};
use crate::timing::{EVERY, GUARDED_LISTING, GUARDED_LOOKUP, STRICT_CHECK};

// A seeded generator (xorshift), so that every run has the same images.
pub struct Random(u64);

impl Random {
    pub fn new(seed: u64) -> Random {
        Random(seed | 1)
    }

    pub fn next(&mut self) -> u64 {
        self.0 ^= self.0 << 13;
        self.0 ^= self.0 >> 7;
        self.0 ^= self.0 << 17;
        self.0.wrapping_mul(0x2545_F491_4F6C_DD1D)
    }

    pub fn below(&mut self, n: usize) -> usize {
        (self.next() >> 16) as usize % n.max(1)
    }

    pub fn bytes(&mut self, n: usize) -> Vec<u8> {
        (0..n).map(|_| self.next() as u8).collect()
    }
}

pub const BOOTBLOCK: usize = 1024;

// An image filled with `fill`, with a master header `back` bytes before its end. Its region goes from `start` up to the last `bootblock` bytes.
pub fn framed(length: usize, back: usize, bootblock: usize, align: usize, start: usize, fill: u8) -> Vec<u8> {
    let mut image = vec![0; length];
    image.fill(fill);
    let numbers = [0x4F52_4243, 0x3131_3131, length, bootblock, align, start, 0, 0];
    for (k, number) in numbers.into_iter().enumerate() {
        image[length - back + 4 * k..][..4].copy_from_slice(&(number as u32).to_be_bytes());
    }
    image[length - 4..].copy_from_slice(&(back as u32).wrapping_neg().to_le_bytes());
    image
}

// The same with the header at the end: P is 0xFFFFFFDC.
pub fn blank(length: usize, bootblock: usize, align: usize, start: usize, fill: u8) -> Vec<u8> {
    framed(length, 36, bootblock, align, start, fill)
}

// A component at a place: its header, of type 0 and without a sum, and its name field. The content stays as it is. Answers where it begins.
pub fn put(image: &mut [u8], place: usize, name: &[u8], len: usize) -> usize {
    let offset = 24 + (name.len() / 16 + 1) * 16;
    image[place..place + offset].fill(0);
    image[place..][..8].copy_from_slice(b"LARCHIVE");
    image[place + 8..][..4].copy_from_slice(&(len as u32).to_be_bytes());
    image[place + 20..][..4].copy_from_slice(&(offset as u32).to_be_bytes());
    image[place + 24..][..name.len()].copy_from_slice(name);
    place + offset
}

// The same with its content and its type.
pub fn put_whole(image: &mut [u8], place: usize, name: &[u8], kind: u32, content: &[u8]) {
    let at = put(image, place, name, content.len());
    image[place + 12..][..4].copy_from_slice(&kind.to_be_bytes());
    image[at..][..content.len()].copy_from_slice(content);
}

// An image to be timed: what it is, its bytes, the name that the lookups ask for, and which of the calls are made on it.
pub struct Case {
    pub label: &'static str,
    pub image: Vec<u8>,
    pub name: Vec<u8>,
    pub calls: &'static [usize],
}

pub fn name_of(k: usize) -> Vec<u8> {
    format!("table/{k:04}").into_bytes()
}

// The region is all zero.
fn zeros(label: &'static str, length: usize, align: usize) -> Case {
    Case { label, image: blank(length, BOOTBLOCK, align, 0, 0), name: name_of(0), calls: EVERY }
}

// Components of the given span, one to a slot, random bytes elsewhere; the last one is asked for. No sums are stated.
fn components(label: &'static str, length: usize, number: usize, slot: usize, span: usize) -> Case {
    let mut image = blank(length, BOOTBLOCK, 64, 0, 0xFF);
    let mut random = Random::new(7);
    image[..length - BOOTBLOCK].iter_mut().for_each(|b| *b = random.next() as u8);
    for k in 0..number {
        put(&mut image, k * slot, &name_of(k), span - 40);
    }
    Case { label, image, name: name_of(number - 1), calls: EVERY }
}

// As many components for each MiB as make the most that are allowed in 16, each in half of its slot.
fn crowd(label: &'static str, size: usize) -> Case {
    components(label, size << 20, 64 * size, CROWDED, 8_192)
}

const CROWDED: usize = 16_320;

// The same with sums: the right ones, or so much more.
fn summed(label: &'static str, size: usize, more: u32) -> Case {
    let mut case = crowd(label, size);
    (0..64 * size).for_each(|k| state_off(&mut case.image, k * CROWDED, more));
    case
}

// The magic at every place, each header ill formed: its offset is read from the next place's magic.
fn ill_formed(label: &'static str, length: usize) -> Case {
    let mut image = blank(length, BOOTBLOCK, 16, 0, 0);
    image[..length - BOOTBLOCK].chunks_exact_mut(16).for_each(|place| place[..8].copy_from_slice(b"LARCHIVE"));
    Case { label, image, name: name_of(0), calls: EVERY }
}

// A well-formed header at every place, each with a span to the region's end; the last one is asked for.
fn nested(label: &'static str, length: usize) -> Case {
    let mut image = blank(length, BOOTBLOCK, 64, 0, 0);
    let end = length - BOOTBLOCK;
    let last = end / 64 - 1;
    for k in 0..=last {
        put(&mut image, k * 64, format!("n{k}").as_bytes(), end - k * 64 - 40);
    }
    Case { label, image, name: format!("n{last}").into_bytes(), calls: EVERY }
}

// The same with a wrong sum in each: no sum is 1, since the magic alone makes 590. The plain walk sums every span, up to the region's end, and so
// its time grows with the square of the size: it is timed elsewhere.
pub fn nested_wrong(label: &'static str, length: usize) -> Case {
    let mut case = nested(label, length);
    (0..(length - BOOTBLOCK) / 64).for_each(|k| state(&mut case.image, k * 64, 1));
    Case { calls: &[GUARDED_LISTING, GUARDED_LOOKUP, STRICT_CHECK], ..case }
}

// The cases at a size in MiB: the number of components grows with the size, their spans stay.
pub fn cases(size: usize) -> Vec<Case> {
    let length = size << 20;
    vec![
        zeros("zero, align 16", length, 16),
        zeros("zero, align 64", length, 64),
        components("256 of 60 KiB", length, 16 * size, 61_440, 61_440),
        crowd("1,024 components", size),
        ill_formed("ill formed, align 16", length),
        nested("nested, align 64", length),
        summed("1,024 components, right sums", size, 0),
        summed("1,024 components, wrong sums", size, 1),
        nested_wrong("nested, wrong sums", length),
    ]
}
