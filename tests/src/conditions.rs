//! Document 01, "Refusal numbers": the condition of each of 1 to 8 by itself, whatever the others say,
//! as far as it can be read in the image. For the cases in which two conditions hold together.

use crate::bytes::{big32, little32};
use crate::master;

/// The header's start, where P puts it and 4 bytes at `field` can be read there.
fn field(image: &[u8], field: usize) -> Option<u64> {
    let at = header(image)? + field as i64;
    if at < 0 || at + 4 > image.len() as i64 {
        return None;
    }
    Some(big32(image, at as usize) as u64)
}

fn header(image: &[u8]) -> Option<i64> {
    if image.len() < 4 {
        return None;
    }
    let pointer = little32(image, image.len() - 4) as i64;
    Some(image.len() as i64 - ((1i64 << 32) - pointer))
}

/// Does the condition of this refusal hold? False where it cannot be read.
pub fn holds(number: u32, image: &[u8]) -> bool {
    read(number, image).unwrap_or(false)
}

fn read(number: u32, image: &[u8]) -> Option<bool> {
    let length = image.len() as u64;
    Some(match number {
        1 => length < 64 || length > 16_777_216,
        2 => {
            let start = header(image)?;
            let pointer = little32(image, image.len() - 4);
            pointer < 0xFFFF_0000 || pointer > 0xFFFF_FFDC || start < 0
        }
        3 => field(image, 0)? != master::MAGIC as u64,
        4 => field(image, 4)? != master::VERSION as u64,
        5 => field(image, 8)? != length,
        6 => {
            let romsize = field(image, 8)?;
            let boot = field(image, 12)?;
            boot > romsize || boot <= length && header(image)? < (length - boot) as i64
        }
        7 => {
            let align = field(image, 16)?;
            !(4..=16).any(|power| align == 1 << power)
        }
        8 => {
            let align = field(image, 16)?;
            let offset = field(image, 20)?;
            let boot = field(image, 12)?;
            let ragged = align != 0 && offset % align != 0;
            ragged || offset + boot > length
        }
        _ => return None,
    })
}
