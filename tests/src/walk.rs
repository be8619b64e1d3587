//! Document 01, "Components and the two walks": the header judge, and the plain walk, step, listing and lookup.
//! A stated checksum is judged by request 5 of document 02.

use std::ops::Range;

use crate::bytes::big32;
use crate::master::Region;

pub const LARCHIVE: &[u8; 8] = b"LARCHIVE";

/// A component that a walk takes. The span runs from `place` to `end`, the content from `content` to `end`.
#[derive(Clone, Debug, PartialEq)]
pub struct Component {
    pub place: usize,
    pub kind: u32,
    pub checksum: u32,
    pub name: Vec<u8>,
    pub content: usize,
    pub end: usize,
}

/// Does this place carry the magic? Its eight bytes must lie wholly in the region.
pub fn carries(image: &[u8], region: Region, place: usize) -> bool {
    place + 8 <= region.end && &image[place..place + 8] == LARCHIVE
}

/// Where the checksum stands in a header.
pub const CHECKSUM: Range<usize> = 16..20;

/// The sum of a span: all its bytes, the four checksum bytes counted as zero, as a 32-bit number.
pub fn sum(span: &[u8]) -> u32 {
    let counted = span.iter().enumerate().filter(|(at, _)| !CHECKSUM.contains(at));
    counted.fold(0, |sum: u32, (_, byte)| sum.wrapping_add(*byte as u32))
}

/// The component at a place that carries the magic and has a well-formed header.
pub fn judge(image: &[u8], region: Region, place: usize) -> Option<Component> {
    let component = formed(image, region, place)?;
    // A field of 0 states no sum.
    if component.checksum != 0 && component.checksum != sum(&image[place..component.end]) {
        return None;
    }
    Some(component)
}

/// The component at a place whose header is well formed but for its checksum, which is not judged.
pub fn formed(image: &[u8], region: Region, place: usize) -> Option<Component> {
    if !carries(image, region, place) {
        return None;
    }
    if place + 24 > region.end {
        return None;
    }
    let len = big32(image, place + 8) as usize;
    let kind = big32(image, place + 12);
    let checksum = big32(image, place + CHECKSUM.start);
    let offset = big32(image, place + 20) as usize;
    if offset < 40 || offset > 280 || (offset - 24) % 16 != 0 {
        return None;
    }
    let end = place + offset + len;
    if end > region.end {
        return None;
    }
    let field = &image[place + 24..place + offset];
    let zero = field.iter().position(|byte| *byte == 0)?;
    if zero < 1 || zero > 255 {
        return None;
    }
    if field[..zero].iter().any(|byte| *byte < 0x21 || *byte > 0x7E) {
        return None;
    }
    if field[zero..].iter().any(|byte| *byte != 0) {
        return None;
    }
    Some(Component { place, kind, checksum, name: field[..zero].to_vec(), content: place + offset, end })
}

/// The component at a place that a caller names, judged anew: none where the number is no place of the region.
pub fn component_at(image: &[u8], region: Region, number: u64) -> Option<Component> {
    if number < region.start as u64 || number >= region.end as u64 {
        return None;
    }
    if number % region.align as u64 != 0 {
        return None;
    }
    judge(image, region, number as usize)
}

/// The first place at or after a number, or else the region's end.
pub fn next_place(region: Region, number: usize) -> usize {
    let mut place = number / region.align * region.align;
    if place < number {
        place += region.align;
    }
    place.min(region.end)
}

/// What a walk takes at a place: the judge for the plain walk, a narrower one for the guarded walk.
pub type Take = fn(&[u8], Region, usize) -> Option<Component>;

/// One step of a walk: the first component that a walk begun at `from` takes, and the number to go on from.
/// Refusal 9 for a number no walk begins at.
pub fn step(image: &[u8], region: Region, from: u64, take: Take) -> Result<Option<(Component, usize)>, u32> {
    let start = region.start as u64;
    let end = region.end as u64;
    if from < start || from > end || (from < end && from % region.align as u64 != 0) {
        return Err(9);
    }
    let mut place = from as usize;
    while place < region.end {
        if let Some(component) = take(image, region, place) {
            let next = next_place(region, component.end);
            return Ok(Some((component, next)));
        }
        place += region.align;
    }
    Ok(None)
}

/// A listing: the components that a walk over the whole region takes.
pub fn listing(image: &[u8], region: Region, take: Take) -> Vec<Component> {
    let mut list = Vec::new();
    let mut place = region.start;
    while place < region.end {
        place = match take(image, region, place) {
            Some(component) => {
                let next = next_place(region, component.end);
                list.push(component);
                next
            }
            None => place + region.align,
        };
    }
    list
}

/// The components in a listing that bear this name, byte for byte.
pub fn bearers(list: &[Component], name: &[u8]) -> Vec<Component> {
    list.iter().filter(|component| component.name == name).cloned().collect()
}

/// Plain lookup: the first bearer; 10 if there is none.
pub fn plain_lookup(image: &[u8], region: Region, name: &[u8]) -> Result<Component, u32> {
    bearers(&listing(image, region, judge), name).into_iter().next().ok_or(10)
}
