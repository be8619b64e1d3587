//! The order's demand 3: accepted images with any set of slots corrupted, and its sentences checked
//! on what the probe answers, not on what the reference says. With the sums of request 5 of document 02
//! a damaged content alone corrupts a slot: its component is no longer listed.

use std::sync::Arc;

use crate::accepted::accepted;
use crate::bytes::{big32, hex};
use crate::capability::{After, Batch};
use crate::cases::{corrupt_raw, random_raw};
use crate::image::{a_stating, lay, put, Frame, Raw};
use crate::master::{self, Region};
use crate::protocol::Case;
use crate::rng::Rng;
use crate::strict;
use crate::sums::{headers, mostly_good, state};
use crate::walk::{carries, Component, LARCHIVE};

/// Corrupts one slot, at random or so that it reaches for its neighbours. `others` are untouched components.
fn corrupt(rng: &mut Rng, image: &mut [u8], region: Region, slot: (usize, usize), others: &[Component], own: &Component) {
    let (start, end) = slot;
    let size = end - start;
    let mut bytes = match rng.below(3) {
        0 => rng.bytes(size),
        1 => vec![0xFF; size],
        _ => image[start..end].to_vec(),
    };
    let places = size.div_ceil(region.align);
    for _ in 0..*rng.pick(&[1, 1, 2, 3]) {
        let place = if rng.one_in(2) { 0 } else { region.align * rng.below(places) };
        match rng.below(13) {
            // A header with a long span: to the region's end, just into or over the next slots, or past all.
            0 | 1 | 10.. => {
                let mut raw = random_raw(rng, size - place, region.align);
                let room = region.end - start;
                let somewhere = rng.range(size, room);
                let reach = *rng.pick(&[size + 1, size + 8, size + 50, size, room, room + 1, somewhere, somewhere]);
                raw.len = (reach.saturating_sub(place) as u32).saturating_sub(raw.offset);
                put(&mut bytes, place as i64, &raw.bytes());
            }
            // Its own header with another len.
            2 => {
                let len = big32(&bytes, 8.min(size - 4)).wrapping_add(*rng.pick(&[1, 40, 400, 0xFFFF_FFFF]));
                put(&mut bytes, 8, &len.to_be_bytes());
            }
            // A copy of an untouched name, or of an untouched component whole.
            3 | 4 if !others.is_empty() => {
                let other = rng.pick(others);
                let fill = rng.below(9);
                put(&mut bytes, place as i64, &Raw::new(&other.name, other.kind, &vec![1; fill]).bytes());
            }
            5 if !others.is_empty() => {
                let other = rng.pick(others);
                let copy = image[other.place..other.end].to_vec();
                put(&mut bytes, place as i64, &copy);
            }
            // Magics at every place, with headers of every kind or none.
            6 => {
                for index in 0..places {
                    put(&mut bytes, (index * region.align) as i64, LARCHIVE);
                }
            }
            7 => {
                for index in 0..places {
                    let at = index * region.align;
                    let mut raw = random_raw(rng, size - at, region.align);
                    if rng.one_in(3) {
                        corrupt_raw(rng, &mut raw, size - at);
                    }
                    put(&mut bytes, at as i64, &raw.bytes());
                }
            }
            // A magic across the slot's end.
            8 => {
                let part = rng.range(1, 8) as i64;
                put(&mut bytes, size as i64 - part, LARCHIVE);
            }
            _ => {
                // The same component with another name, small and right.
                put(&mut bytes, 0, &Raw::new(&own.name, own.kind, &[]).bytes());
            }
        }
    }
    image[start..end].copy_from_slice(&bytes[..size]);
}

/// New sums for what stands in corrupted slots, or the old ones. The highest place is first, since its field counts in spans around it.
fn state_corrupted(rng: &mut Rng, image: &mut [u8], region: Region, corrupted: &[(usize, usize)]) {
    for it in headers(image, region).iter().rev() {
        // The checksum must lie in the slot.
        let inside = corrupted.iter().any(|(start, end)| it.place >= *start && it.place + 24 <= *end);
        if inside && !rng.one_in(4) {
            let stated = mostly_good(rng);
            state(rng, image, it.place, stated);
        }
    }
}

/// How one component is damaged, the rest of its slot as it was.
#[derive(Clone, Copy)]
enum Damage {
    ContentBit,
    ContentByte,
    NameBit,
    NameByte,
    TypeBit,
    /// Any bit of its span.
    Bit(usize),
    /// Two bytes that differ change places, which no sum can tell.
    Exchange,
    /// A byte of a content whose sum is not stated.
    Unstated,
}

/// What the listing of a damaged component is counted as.
pub const DAMAGED: &str = "damaged component";
pub const DAMAGES: [&str; 8] = [
    "not listed, one bit of its content",
    "not listed, one byte of its content",
    "not listed, one bit of its name",
    "not listed, one byte of its name",
    "not listed, one bit of its type",
    "not listed, any one bit of its span",
    "listed, two bytes of its content exchanged",
    "listed, one byte of its content and no sum",
];

/// The kinds that a random batch takes for a component with a sum.
const UNDER_SUM: [Damage; 6] =
    [Damage::ContentBit, Damage::ContentByte, Damage::NameBit, Damage::NameByte, Damage::TypeBit, Damage::Exchange];

impl Damage {
    fn label(self) -> &'static str {
        DAMAGES[match self {
            Damage::ContentBit => 0,
            Damage::ContentByte => 1,
            Damage::NameBit => 2,
            Damage::NameByte => 3,
            Damage::TypeBit => 4,
            Damage::Bit(_) => 5,
            Damage::Exchange => 6,
            Damage::Unstated => 7,
        }]
    }

    /// Is the component listed all the same?
    fn listed(self) -> bool {
        matches!(self, Damage::Exchange | Damage::Unstated)
    }

    /// Damages the component. False where it cannot be damaged so.
    fn inflict(self, rng: &mut Rng, image: &mut [u8], region: Region, it: &Component) -> bool {
        let fit = |byte: u8| (0x21..=0x7E).contains(&byte);
        let some = |rng: &mut Rng, from: usize, to: usize| from + rng.below(to - from);
        let (named, size) = (it.place + 24, it.end - it.content);
        match self {
            Damage::ContentBit if size > 0 => image[some(rng, it.content, it.end)] ^= 1 << rng.below(8),
            Damage::ContentByte | Damage::Unstated if size > 0 => image[some(rng, it.content, it.end)] ^= rng.range(1, 255) as u8,
            Damage::NameBit => {
                let at = some(rng, named, named + it.name.len());
                let other: Vec<u8> = (0..8).map(|bit| image[at] ^ 1 << bit).filter(|byte| fit(*byte)).collect();
                image[at] = *rng.pick(&other);
            }
            Damage::NameByte => {
                let at = some(rng, named, named + it.name.len());
                let other: Vec<u8> = (0x21..=0x7E).filter(|byte| *byte != image[at]).collect();
                image[at] = *rng.pick(&other);
            }
            Damage::TypeBit => image[some(rng, it.place + 12, it.place + 16)] ^= 1 << rng.below(8),
            Damage::Bit(bit) => image[it.place + bit / 8] ^= 1 << (bit % 8),
            Damage::Exchange if size > 1 => {
                let (one, other) = (some(rng, it.content, it.end), some(rng, it.content, it.end));
                image.swap(one, other);
                if image[one] == image[other] {
                    return false;
                }
            }
            _ => return false,
        }
        // What is listed all the same has no new magic in its span.
        !self.listed() || (it.place + region.align..it.end).step_by(region.align).all(|place| !carries(image, region, place))
    }
}

/// A slot whose component alone is damaged, and the content that it has now, in hexadecimal.
struct Damaged {
    slot: (usize, usize),
    damage: Damage,
    content: String,
}

/// What is listed from the slot of a damaged component: the component as before with its new content, or nothing.
fn damaged_listed(it: &Damaged, before: &[Row], now: &[Row]) -> Result<(), String> {
    let (start, end) = it.slot;
    let from_slot = |rows: &[Row]| -> Vec<Row> { rows.iter().filter(|row| row.0 >= start && row.0 < end).cloned().collect() };
    let [(place, kind, name, _)] = &from_slot(before)[..] else {
        return Err(format!("demand 3: the slot at {start} did not list its component before"));
    };
    let mut wanted = Vec::new();
    if it.damage.listed() {
        wanted.push((*place, kind.clone(), name.clone(), it.content.clone()));
    }
    if from_slot(now) != wanted {
        return Err(format!("demand 3: the slot of the damaged component at {start} lists otherwise: {}", it.damage.label()));
    }
    Ok(())
}

/// One line of a listing: place, type, name, content, as the probe wrote them.
type Row = (usize, String, String, String);

fn rows(answer: &str) -> Result<Vec<Row>, String> {
    let mut list = Vec::new();
    for line in answer.lines() {
        let words: Vec<&str> = line.split('\t').collect();
        match words.as_slice() {
            ["component", place, kind, name, content] => {
                let place = place.parse().map_err(|_| format!("no place: {line}"))?;
                list.push((place, kind.to_string(), name.to_string(), content.to_string()));
            }
            ["end", count] if count.parse() == Ok(list.len()) => return Ok(list),
            _ => return Err(format!("demand 3: not a listing: {line}")),
        }
    }
    Err("demand 3: the listing does not end".into())
}

/// The check of one corrupted image: the answers are the accepted image's listing, the corrupted one's,
/// and the lookup of each untouched name.
fn sentences(corrupted: Arc<Vec<u8>>, bad: Vec<(usize, usize)>, untouched: Vec<Component>, damaged: Vec<Damaged>) -> After {
    Box::new(move |answers| {
        let in_bad = |byte: usize| bad.iter().any(|(start, end)| byte >= *start && byte < *end);
        let before = rows(&answers[0])?;
        let now = rows(&answers[1])?;
        // The rest equals the accepted image's listing without the corrupted slots' components.
        let kept: Vec<&Row> = before.iter().filter(|row| !in_bad(row.0)).collect();
        let rest: Vec<&Row> = now.iter().filter(|row| !in_bad(row.0)).collect();
        if kept != rest {
            return Err(format!("demand 3: untouched slots list {} components, {} before", rest.len(), kept.len()));
        }
        // The component of every untouched slot is there.
        if kept.iter().map(|row| row.0).ne(untouched.iter().map(|it| it.place)) {
            return Err("demand 3: a component of an untouched slot is missing".into());
        }
        // Whatever else is listed has its whole span in corrupted slots.
        for row in now.iter().filter(|row| in_bad(row.0)) {
            let offset = big32(&corrupted, row.0 + 20) as usize;
            let content = if row.3 == "-" { 0 } else { row.3.len() / 2 };
            if !(row.0..row.0 + offset + content).all(in_bad) {
                return Err(format!("demand 3: the component at {} leaves the corrupted slots", row.0));
            }
        }
        // The lookup gives the untouched component, or 11 exactly when a corrupted slot's component bears the name too.
        for (component, answer) in untouched.iter().zip(&answers[2..]) {
            let name = hex(&component.name);
            let borne = now.iter().any(|row| in_bad(row.0) && row.2 == name);
            let own = before.iter().find(|row| row.0 == component.place).ok_or("demand 3: not listed before")?;
            let expected =
                if borne { "refused\t11\t0\t0\n".to_string() } else { format!("found\t{}\t{}\t{}\n", own.0, own.1, own.3) };
            if *answer != expected {
                return Err(format!(
                    "demand 3: lookup of {name}, borne in corrupted slots: {borne}, gives {}",
                    answer.trim_end()
                ));
            }
        }
        damaged.iter().try_for_each(|it| damaged_listed(it, &before, &now))?;
        Ok(damaged.iter().map(|it| (DAMAGED, it.damage.label())).collect())
    })
}

/// An accepted image, its components and its slots.
struct Accepted {
    image: Arc<Vec<u8>>,
    region: Region,
    components: Vec<Component>,
    slots: Vec<(usize, usize)>,
}

/// None for an image that is not accepted.
fn accept(image: Vec<u8>) -> Option<Accepted> {
    let region = master::region(&image).ok()?;
    let components = strict::check(&image, region).ok()?;
    let slots = strict::slots(&components, region);
    Some(Accepted { image: Arc::new(image), region, components, slots })
}

/// The cases of one corrupted image, and their check. `marks` says which slots are corrupted.
fn batch(rng: &mut Rng, from: &Accepted, corrupted: Vec<u8>, marks: &[bool], damaged: Vec<Damaged>) -> Batch {
    let marked = |mark: bool| (0..marks.len()).filter(move |index| marks[*index] == mark);
    let untouched: Vec<Component> = marked(false).map(|index| from.components[index].clone()).collect();
    let bad: Vec<(usize, usize)> = marked(true).map(|index| from.slots[index]).collect();
    let corrupted = Arc::new(corrupted);
    let mut cases = vec![Case::new(b'g', &from.image, "accepted"), Case::new(b'g', &corrupted, "corrupted")];
    for component in &untouched {
        cases.push(Case::new(b'k', &corrupted, "corrupted").named(&component.name));
    }
    cases.push(Case::new(b'c', &from.image, "accepted"));
    cases.push(Case::new(b'c', &corrupted, "corrupted"));
    if let Some(own) = marked(true).next() {
        cases.push(Case::new(b'k', &corrupted, "corrupted").named(&from.components[own].name));
    }
    let start = rng.pick(&from.slots).0 as u64;
    cases.push(Case::new(b'j', &corrupted, "corrupted").numbered(start));
    Batch { cases, after: Some(sentences(corrupted, bad, untouched, damaged)) }
}

/// One component of an accepted image damaged, and nothing else.
fn one_damaged(rng: &mut Rng, from: &Accepted, index: usize, damage: Damage) -> Option<Batch> {
    let mut corrupted = from.image.to_vec();
    let it = &from.components[index];
    if !damage.inflict(rng, &mut corrupted, from.region, it) {
        return None;
    }
    let marks: Vec<bool> = (0..from.slots.len()).map(|slot| slot == index).collect();
    let damaged = Damaged { slot: from.slots[index], damage, content: hex(&corrupted[it.content..it.end]) };
    Some(batch(rng, from, corrupted, &marks, vec![damaged]))
}

/// Bench image A with its sums, and an image of smaller components at align 16 of which the last states no sum: each component damaged in
/// each way; and every bit of one flipped.
pub fn single_damages(rng: &mut Rng) -> Vec<Batch> {
    let mut list = Vec::new();
    let small = [
        (0, Raw::new(b"one", 0x50, b"a table of one").summed()),
        (64, Raw::new(b"a/long/name/of/31/bytes/for/two", 0x51, &[0xFF; 300]).summed()),
        (432, Raw::new(b"three", 0x52, b"").summed()),
        (480, Raw::new(b"four", 0x53, b"no sum is stated")),
    ];
    let small = lay(&Frame::new(700, 36, 100, 16, 0), &small);
    // None is accepted where the reference has a fault.
    for from in [a_stating(2200, 2125), small].into_iter().filter_map(accept) {
        for index in 0..from.components.len() {
            let summed = from.components[index].checksum != 0;
            let kinds: &[Damage] = if summed { &UNDER_SUM } else { &[Damage::Unstated] };
            for damage in kinds.iter().flat_map(|damage| [*damage; 4]) {
                list.extend(one_damaged(rng, &from, index, damage));
            }
        }
        if from.region.align == 16 {
            let it = &from.components[0];
            for bit in 0..8 * (it.end - it.place) {
                list.extend(one_damaged(rng, &from, 0, Damage::Bit(bit)));
            }
        }
    }
    list
}

/// Corrupted images with their checks, of so many cases together.
pub fn batches(rng: &mut Rng, count: usize) -> Vec<Batch> {
    let mut list = Vec::new();
    let mut sent = 0;
    let mut tries = 0;
    // Each image makes more than one case, and most serve.
    while sent < count && tries < count {
        tries += 1;
        let Some(image) = accepted(rng, 8_192) else {
            break;
        };
        let Some(from) = accept(image) else {
            break;
        };
        let Accepted { region, components, slots, .. } = &from;
        if components.len() < 3 && !rng.one_in(10) || components.is_empty() {
            continue;
        }
        let share = rng.range(1, 4);
        let marks: Vec<bool> = slots.iter().map(|_| rng.below(4) < share).collect();
        let untouched: Vec<Component> =
            components.iter().zip(&marks).filter(|(_, mark)| !**mark).map(|(it, _)| it.clone()).collect();
        let mut image = from.image.to_vec();
        let (mut corrupted, mut damaged) = (Vec::new(), Vec::new());
        for ((slot, mark), own) in slots.iter().zip(&marks).zip(components) {
            if !*mark {
                continue;
            }
            let damage = if own.checksum != 0 { *rng.pick(&UNDER_SUM) } else { Damage::Unstated };
            let before = image.clone();
            if rng.one_in(3) && damage.inflict(rng, &mut image, *region, own) {
                damaged.push(Damaged { slot: *slot, damage, content: hex(&image[own.content..own.end]) });
            } else {
                image = before;
                corrupt(rng, &mut image, *region, *slot, &untouched, own);
                corrupted.push(*slot);
            }
        }
        state_corrupted(rng, &mut image, *region, &corrupted);
        let batch = batch(rng, &from, image, &marks, damaged);
        sent += batch.cases.len();
        list.push(batch);
    }
    list
}
