//! Generators of images that the strict check accepts, or nearly: for the spoiler and the edits.

use crate::cases::{random_content, random_frame, random_raw};
use crate::image::{put, Frame, Raw};
use crate::master;
use crate::rng::Rng;
use crate::strict;
use crate::sums::{good, magics, state_each, Stated};

/// Images tried for an accepted one. A few are enough, unless the reference has a fault; then the run still ends.
const TRIES: usize = 1_000;

/// A random accepted image of at most so many bytes, with some components.
pub fn accepted(rng: &mut Rng, most: usize) -> Option<Vec<u8>> {
    for _ in 0..TRIES {
        let frame = random_frame(rng);
        if frame.length > most {
            continue;
        }
        let image = filled(rng, &frame);
        if let Ok(region) = master::region(&image) {
            if strict::check(&image, region).is_ok() {
                return Some(image);
            }
        }
    }
    None
}

/// Right components with different names in a region, packed or with gaps. They state their sums, or none, or some of them do.
fn filled(rng: &mut Rng, frame: &Frame) -> Vec<u8> {
    let align = frame.align as usize;
    let end = frame.end();
    let mut image = match rng.below(3) {
        0 => vec![0xFF; frame.length],
        1 => vec![0; frame.length],
        _ => rng.bytes(frame.length),
    };
    let mut at = frame.offset as usize;
    let mut left = *rng.pick(&[0, 1, 2, 3, 5, 8, 40]);
    let gaps = rng.below(4);
    let mut names: Vec<Vec<u8>> = Vec::new();
    while at < end && left > 0 {
        left -= 1;
        if gaps > 0 && rng.below(4) < gaps {
            at += align * rng.below(5);
            continue;
        }
        let mut raw = random_raw(rng, end - at, align);
        if rng.one_in(2) {
            let length = raw.content.len().min(rng.below(120));
            raw.content = random_content(rng, length);
            raw.len = length as u32;
        }
        let mut name: Vec<u8> = raw.field.iter().take_while(|byte| **byte != 0).copied().collect();
        if names.contains(&name) {
            name = format!("n{}", names.len()).into_bytes();
            raw = Raw::new(&name, raw.kind, &raw.content);
        }
        let bytes = raw.bytes();
        if at + bytes.len() > end {
            at += align;
            continue;
        }
        names.push(name);
        put(&mut image, at as i64, &bytes);
        at = (at + bytes.len() + align - 1) / align * align;
    }
    if rng.one_in(4) && end > 16 {
        // Part of the magic across the region's end, or a magic off the alignment.
        put(&mut image, end as i64 - 4, b"LARCHIVE");
    }
    frame.stamp(&mut image);
    let places = magics(&image, frame.region());
    let choose = *rng.pick::<fn(&mut Rng) -> Stated>(&[good, |_| Stated::Right, |_| Stated::None]);
    state_each(rng, &mut image, &places, choose);
    image
}

/// So many small components side by side at align 16, with one free place before and after. Every other one states its sum.
/// `twice` gives the last one the first one's name.
pub fn many(count: usize, twice: bool) -> Vec<u8> {
    let end = 48 * (count + 2) + 5;
    let mut image = vec![0xFF; end + 50];
    for index in 0..count {
        let name = if twice && index + 1 == count { "c0".to_string() } else { format!("c{index}") };
        let raw = Raw::new(name.as_bytes(), index as u32, &[]);
        let raw = if index % 2 == 1 { raw.summed() } else { raw };
        put(&mut image, 48 * (index as i64 + 1), &raw.bytes());
    }
    Frame::new(end + 50, 36, 50, 16, 0).over(image)
}

/// The same with one more, `new` of type 7 and without content, in the place before them: what an add leaves.
pub fn many_and_new(count: usize) -> Vec<u8> {
    let mut image = many(count, false);
    // LARCHIVE 590, the type 7, the offset 40, the name 330.
    put(&mut image, 0, &Raw { checksum: 967, ..Raw::new(b"new", 7, &[]) }.bytes());
    image
}
