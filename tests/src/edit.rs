//! Document 01, "Edits": add, replace and remove on accepted images. What is written states its sum, by request 5 of document 02.

use crate::master::{self, Region};
use crate::strict::{check, slots, MOST};
use crate::walk::{next_place, sum, Component, CHECKSUM, LARCHIVE};

/// A refusal's number and place.
pub type Refusal = (u32, usize);

/// The whole component as an edit writes it.
pub fn span(name: &[u8], kind: u32, content: &[u8]) -> Vec<u8> {
    let field = (name.len() + 1).div_ceil(16) * 16;
    let mut bytes = LARCHIVE.to_vec();
    bytes.extend((content.len() as u32).to_be_bytes());
    bytes.extend(kind.to_be_bytes());
    bytes.extend(0u32.to_be_bytes());
    bytes.extend((24 + field as u32).to_be_bytes());
    bytes.extend(name);
    bytes.resize(24 + field, 0);
    bytes.extend(content);
    let stated = sum(&bytes);
    bytes[CHECKSUM].copy_from_slice(&stated.to_be_bytes());
    bytes
}

/// Refusal 14's condition.
pub fn unfit(name: &[u8]) -> bool {
    name.is_empty() || name.len() > 255 || name.iter().any(|byte| *byte < 0x21 || *byte > 0x7E)
}

/// Refusal 16's condition: the magic at a multiple of align above 0 from the span's start.
pub fn contains_magic(span: &[u8], align: usize) -> bool {
    (align..span.len()).step_by(align).any(|at| span[at..].starts_with(LARCHIVE))
}

/// The free runs, lowest first: from the region's start, or the first place at or after a span's end,
/// to the next component's start or the region's end.
pub fn free_runs(list: &[Component], region: Region) -> Vec<(usize, usize)> {
    let mut starts = vec![region.start];
    starts.extend(list.iter().map(|it| next_place(region, it.end)));
    let mut ends: Vec<usize> = list.iter().map(|it| it.place).collect();
    ends.push(region.end);
    starts.into_iter().zip(ends).filter(|(start, end)| start < end).collect()
}

fn accepted(image: &[u8]) -> Result<(Region, Vec<Component>), Refusal> {
    let region = master::region(image).map_err(|number| (number, 0))?;
    let list = check(image, region)?;
    Ok((region, list))
}

/// Writes bytes at a slot's start and 0xFF up to its end.
fn write(image: &mut [u8], slot: (usize, usize), bytes: &[u8]) {
    image[slot.0..slot.1].fill(0xFF);
    image[slot.0..slot.0 + bytes.len()].copy_from_slice(bytes);
}

pub fn add(image: &mut [u8], name: &[u8], kind: u32, content: &[u8]) -> Result<usize, Refusal> {
    let (region, list) = accepted(image)?;
    if unfit(name) {
        return Err((14, 0));
    }
    if list.iter().any(|it| it.name == name) {
        return Err((15, 0));
    }
    if list.len() == MOST {
        return Err((13, 0));
    }
    let bytes = span(name, kind, content);
    if contains_magic(&bytes, region.align) {
        return Err((16, 0));
    }
    let runs = free_runs(&list, region);
    let run = runs.iter().find(|(start, end)| end - start >= bytes.len()).ok_or((17, 0))?;
    write(image, *run, &bytes);
    Ok(run.0)
}

/// The component of this name and its slot.
fn slot_of(list: &[Component], region: Region, name: &[u8]) -> Result<(Component, (usize, usize)), Refusal> {
    let index = list.iter().position(|it| it.name == name).ok_or((10, 0))?;
    Ok((list[index].clone(), slots(list, region)[index]))
}

pub fn replace(image: &mut [u8], name: &[u8], content: &[u8]) -> Result<usize, Refusal> {
    let (region, list) = accepted(image)?;
    let (component, slot) = slot_of(&list, region, name)?;
    let bytes = span(name, component.kind, content);
    if contains_magic(&bytes, region.align) {
        return Err((16, 0));
    }
    if bytes.len() > slot.1 - slot.0 {
        return Err((17, 0));
    }
    write(image, slot, &bytes);
    Ok(slot.0)
}

pub fn remove(image: &mut [u8], name: &[u8]) -> Result<usize, Refusal> {
    let (region, list) = accepted(image)?;
    let (_, slot) = slot_of(&list, region, name)?;
    write(image, slot, &[]);
    Ok(slot.0)
}
