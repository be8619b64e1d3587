//! Document 01, "Master header": which region an image has, or refusals 1 to 8 in their order.

use crate::bytes::{big32, little32};

/// The bytes from `start` up to `end`; places are the multiples of `align` in it.
#[derive(Clone, Copy, Debug, PartialEq)]
pub struct Region {
    pub start: usize,
    pub end: usize,
    pub align: usize,
}

pub const MAGIC: u32 = 0x4F52_4243;
pub const VERSION: u32 = 0x3131_3131;

pub fn region(image: &[u8]) -> Result<Region, u32> {
    let length = image.len() as u64;
    if !(64..=16_777_216).contains(&length) {
        return Err(1);
    }

    // Byte `length` would lie at 2^32.
    let pointer = little32(image, image.len() - 4) as u64;
    if !(0xFFFF_0000..=0xFFFF_FFDC).contains(&pointer) {
        return Err(2);
    }
    let from_end = (1u64 << 32) - pointer;
    if from_end > length {
        return Err(2);
    }
    let at = (length - from_end) as usize;

    if big32(image, at) != MAGIC {
        return Err(3);
    }
    if big32(image, at + 4) != VERSION {
        return Err(4);
    }
    let romsize = big32(image, at + 8) as u64;
    if romsize != length {
        return Err(5);
    }
    let bootblocksize = big32(image, at + 12) as u64;
    if bootblocksize > romsize || (at as u64) < romsize - bootblocksize {
        return Err(6);
    }
    let align = big32(image, at + 16) as u64;
    if align.count_ones() != 1 || align < 16 || align > 65_536 {
        return Err(7);
    }
    let offset = big32(image, at + 20) as u64;
    let end = romsize - bootblocksize;
    if offset % align != 0 || offset > end {
        return Err(8);
    }
    Ok(Region { start: offset as usize, end: end as usize, align: align as usize })
}
