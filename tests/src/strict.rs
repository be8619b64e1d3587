//! Document 01, "Components and the two walks": the guarded walk and lookup, and the strict check, with the limit of document 02.

use crate::master::Region;
use crate::walk::{bearers, carries, judge, listing, Component};

/// Most components that the strict check accepts: 256 in document 01, 1,024 by request 6 of document 02.
pub const MOST: usize = 1_024;

/// What the guarded walk takes: a component with no later place inside its span that carries the magic.
pub fn guarded(image: &[u8], region: Region, place: usize) -> Option<Component> {
    let component = judge(image, region, place)?;
    let mut later = place + region.align;
    while later < component.end {
        if carries(image, region, later) {
            return None;
        }
        later += region.align;
    }
    Some(component)
}

/// Guarded lookup: the only bearer; 10 if there is none, 11 if there are more.
pub fn guarded_lookup(image: &[u8], region: Region, name: &[u8]) -> Result<Component, u32> {
    let mut list = bearers(&listing(image, region, guarded), name);
    match list.len() {
        0 => Err(10),
        1 => Ok(list.remove(0)),
        _ => Err(11),
    }
}

/// The lowest place with the magic that the plain walk does not take.
pub fn untaken(image: &[u8], region: Region) -> Option<usize> {
    let taken: Vec<usize> = listing(image, region, judge).iter().map(|it| it.place).collect();
    let mut place = region.start;
    while place < region.end {
        if carries(image, region, place) && taken.binary_search(&place).is_err() {
            return Some(place);
        }
        place += region.align;
    }
    None
}

/// Are there two equal names in a listing?
pub fn twice(list: &[Component]) -> bool {
    let mut names: Vec<&Vec<u8>> = list.iter().map(|it| &it.name).collect();
    names.sort();
    names.windows(2).any(|two| two[0] == two[1])
}

/// The strict check: the plain listing of an accepted region, or a refusal's number and place.
pub fn check(image: &[u8], region: Region) -> Result<Vec<Component>, (u32, usize)> {
    if let Some(place) = untaken(image, region) {
        return Err((12, place));
    }
    let list = listing(image, region, judge);
    if list.len() > MOST {
        return Err((13, 0));
    }
    if twice(&list) {
        return Err((11, 0));
    }
    Ok(list)
}

/// The slots of an accepted region: from each component's start to the next one's, or the region's end.
pub fn slots(list: &[Component], region: Region) -> Vec<(usize, usize)> {
    let mut slots = Vec::new();
    for (index, component) in list.iter().enumerate() {
        let end = list.get(index + 1).map_or(region.end, |next| next.place);
        slots.push((component.place, end));
    }
    slots
}
