//! Document 01, "Flash map": the reader of an FMAP, refusals 1 and 27 to 37.

use crate::bytes::{little32, little64};

pub const SIGNATURE: [u8; 8] = [0x5F, 0x5F, 0x46, 0x4D, 0x41, 0x50, 0x5F, 0x5F];
pub const HEADER: usize = 56;
pub const AREA: usize = 42;
/// Most areas of a map.
pub const MOST: usize = 256;

pub struct Area {
    pub offset: u32,
    pub size: u32,
    pub flags: u16,
    /// Where the name stands in the image.
    pub name: usize,
}

pub struct Map {
    pub minor: u8,
    pub base: u64,
    pub areas: Vec<Area>,
}

fn little16(bytes: &[u8], at: usize) -> u16 {
    u16::from_le_bytes([bytes[at], bytes[at + 1]])
}

/// Where signatures stand: at multiples of 64, wholly in the image.
pub fn signatures(image: &[u8]) -> Vec<usize> {
    (0..image.len()).step_by(64).filter(|at| image[*at..].starts_with(&SIGNATURE)).collect()
}

/// The name in a field of 32 bytes, if it is fit: 1 to 31 bytes of 0x21 to 0x7E, then a zero.
pub fn name_in(field: &[u8]) -> Option<&[u8]> {
    let zero = field.iter().position(|byte| *byte == 0)?;
    let name = &field[..zero];
    let fit = !name.is_empty() && name.iter().all(|byte| (0x21..=0x7E).contains(byte));
    fit.then_some(name)
}

/// Do two areas cross: share a byte, and neither holds the other?
pub fn cross(one: (u32, u32), other: (u32, u32)) -> bool {
    let (a, a_end) = (one.0 as u64, one.0 as u64 + one.1 as u64);
    let (b, b_end) = (other.0 as u64, other.0 as u64 + other.1 as u64);
    let disjoint = a_end <= b || b_end <= a;
    let holds = a <= b && b_end <= a_end || b <= a && a_end <= b_end;
    !disjoint && !holds
}

pub fn read(image: &[u8]) -> Result<Map, u32> {
    let length = image.len();
    if length < 64 || length > 16_777_216 {
        return Err(1);
    }
    let found = signatures(image);
    let at = match found.len() {
        0 => return Err(27),
        1 => found[0],
        _ => return Err(28),
    };
    if at + HEADER > length {
        return Err(29);
    }
    let count = little16(image, at + 54) as usize;
    let map_end = at + HEADER + AREA * count;
    if map_end > length {
        return Err(29);
    }
    if image[at + 8] != 1 {
        return Err(30);
    }
    let size = little32(image, at + 18);
    if size as usize != length {
        return Err(31);
    }
    if count == 0 || count > MOST {
        return Err(32);
    }

    let mut areas: Vec<Area> = Vec::new();
    let mut names: Vec<&[u8]> = Vec::new();
    for index in 0..count {
        let here = at + HEADER + AREA * index;
        let area = Area {
            offset: little32(image, here),
            size: little32(image, here + 4),
            flags: little16(image, here + 40),
            name: here + 8,
        };
        names.push(name_in(&image[here + 8..here + 40]).ok_or(33u32)?);
        if area.size == 0 || area.offset as u64 + area.size as u64 > size as u64 {
            return Err(35);
        }
        areas.push(area);
    }
    for one in 0..count {
        if names[..one].contains(&names[one]) {
            return Err(34);
        }
    }
    for one in 0..count {
        for other in 0..one {
            if cross((areas[one].offset, areas[one].size), (areas[other].offset, areas[other].size)) {
                return Err(36);
            }
        }
    }
    let held = areas.iter().zip(&names).any(|(area, name)| {
        *name == b"FMAP" && area.offset as usize <= at && map_end <= area.offset as usize + area.size as usize
    });
    if !held {
        return Err(37);
    }
    Ok(Map { minor: image[at + 9], base: little64(image, at + 10), areas })
}
