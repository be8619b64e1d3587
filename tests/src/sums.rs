//! Checksum fields for generated images, by request 5 of document 02: no sum stated, the right one, or one that a faulty program
//! would write or take for right.

use crate::bytes::big32;
use crate::image::put;
use crate::master::Region;
use crate::rng::Rng;
use crate::walk::{self, Component, CHECKSUM};

/// What a checksum field states.
#[derive(Clone, Copy, Debug)]
pub enum Stated {
    None,
    Right,
    Wrong(Wrong),
}

/// How a stated sum is wrong.
#[derive(Clone, Copy, Debug)]
pub enum Wrong {
    OneAbove,
    OneBelow,
    /// The field is wrong in this one of its bytes alone.
    Byte(usize),
    /// The sum is cut to 16 bits.
    Short,
    /// The field's own bytes are counted as they stand.
    OwnBytes,
    NoContent,
    NoName,
    NoHeader,
    NoMagic,
    /// The span's last byte is left out.
    ByteFewer,
    /// The byte after the span is counted too.
    ByteMore,
    LittleEndian,
    /// Sum and field add up to 0.
    Negative,
    /// The field is as in erased flash.
    Erased,
}

/// Every way to be wrong, with its label in the counts.
pub const WRONG: [(Wrong, &str); 17] = [
    (Wrong::OneAbove, "wrong by one above"),
    (Wrong::OneBelow, "wrong by one below"),
    (Wrong::Byte(0), "wrong in byte 0 alone"),
    (Wrong::Byte(1), "wrong in byte 1 alone"),
    (Wrong::Byte(2), "wrong in byte 2 alone"),
    (Wrong::Byte(3), "wrong in byte 3 alone"),
    (Wrong::Short, "wrong as cut to 16 bits"),
    (Wrong::OwnBytes, "wrong with its own bytes"),
    (Wrong::NoContent, "wrong without the content"),
    (Wrong::NoName, "wrong without the name"),
    (Wrong::NoHeader, "wrong without the header"),
    (Wrong::NoMagic, "wrong without the magic"),
    (Wrong::ByteFewer, "wrong by a byte fewer"),
    (Wrong::ByteMore, "wrong by a byte more"),
    (Wrong::LittleEndian, "wrong as little-endian"),
    (Wrong::Negative, "wrong as negative"),
    (Wrong::Erased, "wrong as erased"),
];

/// The span that a header's offset and len give, well formed or not, and the byte after it.
struct Span<'a> {
    bytes: &'a [u8],
    offset: usize,
    after: u8,
}

/// None where the span leaves the image, or has no header.
fn span_at(image: &[u8], place: usize) -> Option<Span<'_>> {
    if place + 24 > image.len() {
        return None;
    }
    let len = big32(image, place + 8) as usize;
    let offset = big32(image, place + 20) as usize;
    let bytes = image.get(place..place + offset + len).filter(|_| offset >= 24)?;
    Some(Span { bytes, offset, after: image.get(place + bytes.len()).copied().unwrap_or(0) })
}

fn total(bytes: &[u8]) -> u32 {
    bytes.iter().map(|byte| *byte as u32).sum()
}

impl Wrong {
    /// The field that is wrong in this way. It may come out right after all, or 0. `noise` is any number but 0.
    fn field(self, span: &Span, noise: u8) -> u32 {
        let bytes = span.bytes;
        let right = walk::sum(bytes);
        let own = |field: u32| total(&field.to_be_bytes());
        match self {
            Wrong::OneAbove => right.wrapping_add(1),
            Wrong::OneBelow => right.wrapping_sub(1),
            Wrong::Byte(index) => right ^ (noise as u32) << (24 - 8 * index),
            Wrong::Short => right & 0xFFFF,
            Wrong::OwnBytes => {
                // Most sums have no field that is right with its own bytes; then the bytes of the right one are counted.
                let mut fields = (0..=4 * 255).map(|more| (more, right.wrapping_add(more)));
                let fixed = fields.find(|(more, field)| *more > 0 && own(*field) == *more);
                fixed.map_or(right.wrapping_add(own(right)), |(_, field)| field)
            }
            Wrong::NoContent => right.wrapping_sub(total(&bytes[span.offset..])),
            Wrong::NoName => right.wrapping_sub(total(&bytes[24..span.offset])),
            Wrong::NoHeader => total(&bytes[24..]),
            Wrong::NoMagic => right.wrapping_sub(total(&bytes[..8])),
            Wrong::ByteFewer => right.wrapping_sub(total(&bytes[bytes.len() - 1..])),
            Wrong::ByteMore => right.wrapping_add(span.after as u32),
            Wrong::LittleEndian => right.swap_bytes(),
            Wrong::Negative => right.wrapping_neg(),
            Wrong::Erased => 0xFFFF_FFFF,
        }
    }

    /// Is this field, which is not the right one, wrong in this way?
    fn fits(self, span: &Span, field: u32) -> bool {
        match self {
            Wrong::Byte(index) => (walk::sum(span.bytes) ^ field) & !(0xFF << (24 - 8 * index)) == 0,
            way => way.field(span, 1) == field,
        }
    }
}

/// The ways in which the sum that a component states is wrong; none for a right one.
pub fn ways(image: &[u8], component: &Component) -> Vec<&'static str> {
    let span = span_at(image, component.place).expect("a component has a span");
    if component.checksum == walk::sum(span.bytes) {
        return Vec::new();
    }
    WRONG.iter().filter(|(way, _)| way.fits(&span, component.checksum)).map(|(_, label)| *label).collect()
}

/// Writes the checksum of the header at a place, whatever else is wrong with it. False where it cannot be as wanted.
pub fn state(rng: &mut Rng, image: &mut [u8], place: usize, stated: Stated) -> bool {
    let Some(span) = span_at(image, place) else {
        return false;
    };
    let right = walk::sum(span.bytes);
    let noise = rng.range(1, 255) as u8;
    let (field, wrong) = match stated {
        Stated::None => (0, false),
        Stated::Right => (right, false),
        Stated::Wrong(way) => (way.field(&span, noise), true),
    };
    put(image, (place + CHECKSUM.start) as i64, &field.to_be_bytes());
    wrong == (field != 0 && field != right)
}

/// No sum or the right one.
pub fn good(rng: &mut Rng) -> Stated {
    if rng.one_in(2) {
        Stated::None
    } else {
        Stated::Right
    }
}

/// A wrong one.
pub fn wrong(rng: &mut Rng) -> Stated {
    Stated::Wrong(rng.pick(&WRONG).0)
}

/// A wrong one at times.
pub fn mostly_good(rng: &mut Rng) -> Stated {
    if rng.one_in(7) {
        wrong(rng)
    } else {
        good(rng)
    }
}

/// Writes the checksums of the headers at these places. The highest place is first: its field counts in the sums of spans around it.
pub fn state_each(rng: &mut Rng, image: &mut [u8], places: &[usize], choose: fn(&mut Rng) -> Stated) {
    let mut places = places.to_vec();
    places.sort();
    for place in places.into_iter().rev() {
        let stated = choose(rng);
        state(rng, image, place, stated);
    }
}

/// The places of a region that carry the magic.
pub fn magics(image: &[u8], region: Region) -> Vec<usize> {
    (region.start..region.end).step_by(region.align).filter(|place| walk::carries(image, region, *place)).collect()
}

/// What stands at each of them whose header is well formed but perhaps for its checksum.
pub fn headers(image: &[u8], region: Region) -> Vec<Component> {
    magics(image, region).into_iter().filter_map(|place| walk::formed(image, region, place)).collect()
}
