// Sums in images that are made: how they are stated, right and wrong; and what the walks meet of them, so that a run can tell that each kind
// occurs. They are taken byte by byte here, and not by plain.rs, which might be wrong alike.
use crate::images::Random;
use crate::ours;
use crate::plain::name_fits;
use std::ops::Range;

// What a component states: the sum of its span, another number, or 0, which is none.
#[derive(Clone, Copy, PartialEq)]
pub enum Stated {
    Right,
    Wrong,
    Nothing,
}

// By how much a wrong sum is off, up or down. Else one of the field's four bytes is another.
const OFF: [u32; 5] = [1, 255, 256, 65_536, 1 << 24];

fn number_at(image: &[u8], at: usize) -> u32 {
    u32::from_be_bytes(image[at..at + 4].try_into().unwrap())
}

// The sum of the span at a place, its four checksum bytes counted as zero; none where the image ends before the span does.
pub fn right_sum(image: &[u8], place: usize) -> Option<u32> {
    let span = number_at(image, place + 8) as usize + number_at(image, place + 20) as usize;
    let bytes = image.get(place..place + span)?;
    let added = |total: u32, part: &[u8]| part.iter().fold(total, |total, &b| total.wrapping_add(u32::from(b)));
    Some(added(added(0, &bytes[..16]), &bytes[20..]))
}

// The number that the component at a place states.
pub fn stated_at(image: &[u8], place: usize) -> u32 {
    number_at(image, place + 16)
}

// Writes the field of the component at a place.
pub fn state(image: &mut [u8], place: usize, sum: u32) {
    image[place + 16..place + 20].copy_from_slice(&sum.to_be_bytes());
}

// States the right sum, and so much more.
pub fn state_off(image: &mut [u8], place: usize, more: u32) {
    let right = right_sum(image, place).expect("a span in the image");
    state(image, place, right.wrapping_add(more));
}

// States the right sum, a wrong one or none. A span that passes the image's end states 1.
pub fn state_some(image: &mut [u8], place: usize, stated: Stated, random: &mut Random) {
    let right = right_sum(image, place).unwrap_or(1);
    let off = OFF[random.below(OFF.len())];
    let byte = (1 + random.below(255) as u32) << (8 * random.below(4));
    let wrong = [right.wrapping_add(off), right.wrapping_sub(off), right ^ byte, right ^ byte][random.below(4)];
    let sum = match stated {
        Stated::Right => right,
        Stated::Wrong => wrong,
        Stated::Nothing => 0,
    };
    state(image, place, sum);
}

// What an image states: nothing, right sums, these and none, or all three.
pub fn some_mood(random: &mut Random) -> &'static [Stated] {
    const MOODS: [&[Stated]; 4] = [
        &[Stated::Nothing],
        &[Stated::Right],
        &[Stated::Right, Stated::Nothing],
        &[Stated::Right, Stated::Wrong, Stated::Nothing],
    ];
    MOODS[random.below(MOODS.len())]
}

// States a sum for each component that was put at one of the places: one of the mood. The last place comes first: an earlier span may hold it.
pub fn state_all(image: &mut [u8], places: &mut Vec<usize>, mood: &[Stated], random: &mut Random) {
    places.sort_unstable();
    places.dedup();
    for &place in places.iter().rev() {
        state_some(image, place, mood[random.below(mood.len())], random);
    }
}

// A component by its header's numbers and its name. A walk that meets it takes it unless its sum is wrong.
pub struct Met {
    pub place: usize,
    pub end: usize,
    pub name: Vec<u8>,
    pub stated: Stated,
    sum: u32,
    right: u32,
}

// The component at a place of a region that goes up to `end`.
fn met_at(image: &[u8], place: usize, end: usize) -> Option<Met> {
    let part = &image[place..end];
    if part.len() < 24 || !part.starts_with(b"LARCHIVE") {
        return None;
    }
    let (len, offset) = (number_at(part, 8) as usize, number_at(part, 20) as usize);
    if !(40..=280).contains(&offset) || offset % 16 != 8 || offset + len > part.len() {
        return None;
    }
    let field = &part[24..offset];
    let (name, zeros) = field.split_at(field.iter().position(|&b| b == 0)?);
    if !name_fits(name) || zeros.iter().any(|&b| b != 0) {
        return None;
    }
    let (sum, right) = (stated_at(image, place), right_sum(image, place)?);
    let stated = match sum {
        0 => Stated::Nothing,
        _ if sum == right => Stated::Right,
        _ => Stated::Wrong,
    };
    Some(Met { place, end: place + offset + len, name: name.to_vec(), stated, sum, right })
}

// The region of an image and its alignment; an empty one where the image is refused.
fn region(image: &[u8]) -> (usize, Range<usize>) {
    if ours::region(image) >> 32 != 0 {
        return (16, 0..0);
    }
    let header = image.len() - number_at(image, image.len() - 4).swap_bytes().wrapping_neg() as usize;
    let [bootblock, align, start] = [12, 16, 20].map(|at| number_at(image, header + at) as usize);
    (align, start..image.len() - bootblock)
}

// How many components a guarded walk takes: at every place of the region, those with no later magic in their span and no wrong sum.
pub fn guarded(image: &[u8]) -> usize {
    let (align, Range { start, end }) = region(image);
    let later = |m: &Met| (m.place + align..m.end).step_by(align).any(|place| image[place..end].starts_with(b"LARCHIVE"));
    let all = (start..end).step_by(align).filter_map(|place| met_at(image, place, end));
    all.filter(|m| m.stated != Stated::Wrong && !later(m)).count()
}

// All that the plain walk meets in an image.
pub fn met(image: &[u8]) -> Vec<Met> {
    let (align, Range { start, end }) = region(image);
    let mut all = Vec::new();
    let mut place = start;
    while place < end {
        let next = place + align;
        let Some(met) = met_at(image, place, end) else {
            place = next;
            continue;
        };
        place = if met.stated == Stated::Wrong { next } else { met.end.next_multiple_of(align) };
        all.push(met);
    }
    all
}

// How a stated sum can be wrong: off by so much, or in one byte of the field alone.
pub const WRONG: [&str; 9] = [
    "off by 1",
    "off by 255",
    "off by 256",
    "off by 65,536",
    "off by 16,777,216",
    "the first byte",
    "the second",
    "the third",
    "the last",
];

// Which of these occur in what is met.
pub fn wrong<'a>(met: impl Iterator<Item = &'a Met>) -> [bool; WRONG.len()] {
    let mut occurs = [false; WRONG.len()];
    for Met { sum, right, .. } in met.filter(|m| m.stated == Stated::Wrong) {
        let off = OFF.map(|off| right.wrapping_add(off) == *sum || right.wrapping_sub(off) == *sum);
        let bytes = [24, 16, 8, 0].map(|low| (right ^ sum) & !(0xFF << low) == 0);
        occurs.iter_mut().zip([&off[..], &bytes].concat()).for_each(|(occurs, this)| *occurs |= this);
    }
    occurs
}

// How often each of several things occurred that have to.
pub struct Seen<const N: usize> {
    what: [&'static str; N],
    times: [usize; N],
}

impl<const N: usize> Seen<N> {
    pub fn new(what: [&'static str; N]) -> Seen<N> {
        Seen { what, times: [0; N] }
    }

    pub fn note(&mut self, occurs: [bool; N]) {
        self.times.iter_mut().zip(occurs).for_each(|(times, occurs)| *times += usize::from(occurs));
    }

    // How many of them occurred too seldom. Prints how often each did.
    pub fn seldom(&self, label: &str, floor: usize) -> usize {
        let words = self.what.iter().zip(self.times).map(|(what, times)| format!("{what} {times}"));
        println!("{label}: {}", words.collect::<Vec<_>>().join(", "));
        let seldom = self.what.iter().zip(self.times).filter(|&(_, times)| times < floor);
        seldom.inspect(|(what, times)| println!("SELDOM: {label}, {what}: {times} times, and at least {floor} wanted")).count()
    }
}
