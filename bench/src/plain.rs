// The same algorithms in plain Rust: the master header, sums, the two walks, the lookups, the strict check and the edits.
// Written for speed and for reading, with the standard library alone; nothing here is proved.
const MAGIC: &[u8; 8] = b"LARCHIVE";
// How many components an image may have.
pub const LIMIT: usize = 1024;

// A refusal's number and the place that it reports.
#[derive(Clone, Copy)]
pub struct Refusal {
    number: u32,
    place: usize,
}

fn refused<T>(number: u32) -> Result<T, Refusal> {
    Err(Refusal { number, place: 0 })
}

// A count or a place in the lower 32 bits; a refusal's number in the upper 32, with its place in the lower.
fn answer_number(answer: Result<usize, Refusal>) -> u64 {
    match answer {
        Ok(value) => value as u64,
        Err(refusal) => (u64::from(refusal.number) << 32) + refusal.place as u64,
    }
}

fn be32(bytes: &[u8], at: usize) -> u32 {
    u32::from_be_bytes(bytes[at..at + 4].try_into().unwrap())
}

// The sum of all bytes, modulo 2^32. In blocks of a fixed length the compiler adds sixteen bytes by one instruction (psadbw on x86-64); one by
// one it widens each to 32 bits first, and takes four times as long.
pub fn sum(bytes: &[u8]) -> u32 {
    let added = |total: u32, part: &[u8]| part.iter().fold(total, |t, &b| t.wrapping_add(b.into()));
    let (blocks, rest) = bytes.as_chunks::<64>();
    blocks.iter().fold(added(0, rest), |total, block| total.wrapping_add(added(0, block)))
}

// The bytes that hold the components, where they begin in the image, and the alignment of places.
struct Region<'a> {
    bytes: &'a [u8],
    start: usize,
    align: usize,
}

fn region(image: &[u8]) -> Result<Region<'_>, Refusal> {
    let length = image.len();
    if !(64..=16_777_216).contains(&length) {
        return refused(1);
    }
    let address = u32::from_le_bytes(image[length - 4..].try_into().unwrap());
    let back = address.wrapping_neg() as usize;
    if !(0xFFFF_0000..=0xFFFF_FFDC).contains(&address) || back > length {
        return refused(2);
    }
    let header = &image[length - back..];
    let romsize = be32(header, 8) as usize;
    let bootblock = be32(header, 12) as usize;
    let align = be32(header, 16) as usize;
    let start = be32(header, 20) as usize;
    if be32(header, 0) != 0x4F52_4243 {
        return refused(3);
    }
    if be32(header, 4) != 0x3131_3131 {
        return refused(4);
    }
    if romsize != length {
        return refused(5);
    }
    if bootblock > romsize || back > bootblock {
        return refused(6);
    }
    if !align.is_power_of_two() || !(16..=65_536).contains(&align) {
        return refused(7);
    }
    let end = romsize - bootblock;
    if !start.is_multiple_of(align) || start > end {
        return refused(8);
    }
    let bytes = &image[start..end];
    Ok(Region { bytes, start, align })
}

// A component by its header's numbers: its place in the region, its name, and the end of its span. Whether its sum is right is asked apart.
#[derive(Clone, Copy)]
struct Component<'a> {
    place: usize,
    name: &'a [u8],
    end: usize,
}

fn printable(byte: &u8) -> bool {
    (0x21..=0x7E).contains(byte)
}

// 1 to 255 bytes of 0x21 to 0x7E.
pub fn name_fits(name: &[u8]) -> bool {
    (1..=255).contains(&name.len()) && name.iter().all(printable)
}

// The name in a name field, which has zeros after it. The field is read once: what ends the name must be a zero like all that follows.
fn name_in(field: &[u8]) -> Option<&[u8]> {
    let (name, padding) = field.split_at(field.iter().position(|b| !printable(b))?);
    ((1..=255).contains(&name.len()) && padding.iter().all(|&b| b == 0)).then_some(name)
}

impl<'a> Region<'a> {
    // The first place from `from` up to `below` that carries the magic, or else `below`.
    fn next_magic(&self, from: usize, below: usize) -> usize {
        let stop = below.min(self.bytes.len().saturating_sub(7));
        (from..stop).step_by(self.align).find(|&p| &self.bytes[p..p + 8] == MAGIC).unwrap_or(below)
    }

    // The component at a place that carries the magic, its sum not looked at.
    fn component_at(&self, place: usize) -> Option<Component<'a>> {
        let part = &self.bytes[place..];
        if part.len() < 24 {
            return None;
        }
        let offset = be32(part, 20) as usize;
        let span = offset + be32(part, 8) as usize;
        if !(40..=280).contains(&offset) || !(offset - 24).is_multiple_of(16) || span > part.len() {
            return None;
        }
        let name = name_in(&part[24..offset])?;
        let end = place + span;
        Some(Component { place, name, end })
    }

    // The component states no sum, or the right one: that of its span but for the four bytes that state it.
    fn sum_fits(&self, component: &Component) -> bool {
        let span = &self.bytes[component.place..component.end];
        let stated = be32(span, 16);
        stated == 0 || stated == sum(&span[..16]).wrapping_add(sum(&span[20..]))
    }

    // The first place at or after a number, or else the region's end.
    fn onward(&self, n: usize) -> usize {
        n.next_multiple_of(self.align).min(self.bytes.len())
    }

    fn walk(&'a self, guarded: bool) -> Walk<'a> {
        let at = 0;
        Walk { region: self, guarded, at }
    }
}

// One after the other, the components that the plain walk takes; or those that the guarded walk takes if their sums are right, of which no byte
// is summed. It goes on behind a span whose sum is wrong, too: no later place in it carries the magic. The plain walk goes one place further there.
struct Walk<'a> {
    region: &'a Region<'a>,
    guarded: bool,
    at: usize,
}

impl<'a> Iterator for Walk<'a> {
    type Item = Component<'a>;

    fn next(&mut self) -> Option<Component<'a>> {
        let region = self.region;
        let length = region.bytes.len();
        let mut place = region.next_magic(self.at, length);
        while place < length {
            let Some(component) = region.component_at(place).filter(|c| self.guarded || region.sum_fits(c)) else {
                place = region.next_magic(place + region.align, length);
                continue;
            };
            let end = component.end;
            let inside = if self.guarded { region.next_magic(place + region.align, end) } else { end };
            if inside >= end {
                self.at = region.onward(end);
                return Some(component);
            }
            place = inside;
        }
        self.at = length;
        None
    }
}

fn count(guarded: bool, image: &[u8]) -> u64 {
    answer_number(region(image).map(|region| region.walk(guarded).filter(|c| !guarded || region.sum_fits(c)).count()))
}

pub fn plain_count(image: &[u8]) -> u64 {
    count(false, image)
}

pub fn guarded_count(image: &[u8]) -> u64 {
    count(true, image)
}

fn find(guarded: bool, image: &[u8], name: &[u8]) -> Result<usize, Refusal> {
    let region = region(image)?;
    let mut bearers = region.walk(guarded).filter(|c| c.name == name && (!guarded || region.sum_fits(c)));
    match bearers.next() {
        None => refused(10),
        Some(_) if guarded && bearers.next().is_some() => refused(11),
        Some(first) => Ok(region.start + first.place),
    }
}

pub fn plain_place(image: &[u8], name: &[u8]) -> u64 {
    answer_number(find(false, image, name))
}

pub fn guarded_place(image: &[u8], name: &[u8]) -> u64 {
    answer_number(find(true, image, name))
}

// A number made of a name's bytes, eight at a time; two words are taken at a step. Names with different digests differ.
pub fn digest(name: &[u8]) -> u32 {
    let halves = |w: u64| (w as u32).wrapping_mul(31).wrapping_add((w >> 32) as u32);
    let further = |h: u32, w: u64| h.wrapping_mul(961).wrapping_add(halves(w));
    let word = |&bytes: &[u8; 8]| u64::from_le_bytes(bytes);
    let (words, rest) = name.as_chunks();
    let (pairs, odd) = words.as_chunks::<2>();
    let last = rest.iter().rev().fold(0, |w, &b| w << 8 | u64::from(b));
    let two = |h: u32, [w, v]: &[[u8; 8]; 2]| {
        h.wrapping_mul(923_521).wrapping_add(halves(word(w)).wrapping_mul(961)).wrapping_add(halves(word(v)))
    };
    further(odd.iter().map(word).fold(pairs.iter().fold(0, two), further), last)
}

// The strict check of a region, in one pass: a place with the magic that is ill formed, or that lies in a span, is untaken. Each span that states a
// sum is summed once, before it is searched: where the sum is wrong it is the span's own place that is untaken. Then the names are
// compared with the later ones, from the last component down, by their digests, which the pass takes. A digest leaves a mark in a table: 0 stands
// for none, 255 for different ones. Where no later digest left its mark there, none is the same. The names are stored, and each component is
// handed to `keep` with its index. Answers their number.
fn survey<'a>(
    region: &Region<'a>,
    names: &mut [&'a [u8]; LIMIT],
    mut keep: impl FnMut(usize, Component),
) -> Result<usize, Refusal> {
    let length = region.bytes.len();
    let untaken = |place: usize| Err(Refusal { number: 12, place: region.start + place });
    let mut count = 0;
    let mut digests = [0; LIMIT];
    let mut place = region.next_magic(0, length);
    while place < length {
        let Some(component) = region.component_at(place).filter(|c| region.sum_fits(c)) else {
            return untaken(place);
        };
        let inside = region.next_magic(place + region.align, component.end);
        if inside < component.end {
            return untaken(inside);
        }
        if count < LIMIT {
            names[count] = component.name;
            digests[count] = digest(component.name);
            keep(count, component);
        }
        count += 1;
        place = region.next_magic(region.onward(component.end), length);
    }
    if count > LIMIT {
        return refused(13);
    }
    let (names, digests) = (&names[..count], &digests[..count]);
    let repeated = |i: usize| {
        let (mine, later) = (digests[i], &digests[i + 1..]);
        later.contains(&mine) && later.iter().zip(&names[i + 1..]).any(|(&digest, &name)| digest == mine && name == names[i])
    };
    let mut marks = [0u8; 2048];
    for i in (0..count).rev() {
        let mixed = digests[i].wrapping_mul(2_654_435_761);
        let slot = &mut marks[mixed as usize >> 21];
        let mark = 1 + (mixed >> 13) as u8 % 254;
        if (*slot == mark || *slot == 255) && repeated(i) {
            return refused(11);
        }
        *slot = if *slot == 0 || *slot == mark { mark } else { 255 };
    }
    Ok(count)
}

// The components' places, counted from the image's start, and zeros after them.
struct Directory {
    count: usize,
    places: [usize; LIMIT],
}

fn strict_check(image: &[u8]) -> Result<Directory, Refusal> {
    let region = region(image)?;
    let mut places = [0; LIMIT];
    let count = survey(&region, &mut [&[]; LIMIT], |n, component| places[n] = region.start + component.place)?;
    Ok(Directory { count, places })
}

pub fn strict_count(image: &[u8]) -> u64 {
    answer_number(strict_check(image).map(|directory| directory.count))
}

// The k-th place of the directory, 0 past its end.
pub fn strict_place(image: &[u8], k: usize) -> u64 {
    answer_number(strict_check(image).map(|directory| directory.places.get(k).copied().unwrap_or(0)))
}

// Edits in one pass: the strict check keeps the components' names and spans, and the name, the slot and the free runs follow from them.
struct Components<'a> {
    region: Region<'a>,
    count: usize,
    names: [&'a [u8]; LIMIT],
    spans: [Span; LIMIT],
}

// From a place up to an end, in the region.
#[derive(Clone, Copy)]
struct Span {
    place: usize,
    end: usize,
}

// The bytes of the image that an edit writes, and the type of the component there.
struct Slot {
    from: usize,
    to: usize,
    kind: u32,
}

fn components(image: &[u8]) -> Result<Components<'_>, Refusal> {
    let region = region(image)?;
    let mut names: [&[u8]; LIMIT] = [&[]; LIMIT];
    let mut spans = [Span { place: 0, end: 0 }; LIMIT];
    let count = survey(&region, &mut names, |n, Component { place, end, .. }| spans[n] = Span { place, end })?;
    Ok(Components { region, count, names, spans })
}

impl Components<'_> {
    fn named(&self, name: &[u8]) -> Option<usize> {
        self.names[..self.count].iter().position(|&other| other == name)
    }

    fn slot(&self, from: usize, to: usize, kind: u32) -> Slot {
        let start = self.region.start;
        Slot { from: start + from, to: start + to, kind }
    }

    // The slot of the component with the name: up to the next component, or the region's end.
    fn slot_named(&self, name: &[u8]) -> Result<Slot, Refusal> {
        let Some(k) = self.named(name) else {
            return refused(10);
        };
        let spans = &self.spans[..self.count];
        let place = spans[k].place;
        let end = spans.get(k + 1).map_or(self.region.bytes.len(), |next| next.place);
        Ok(self.slot(place, end, be32(self.region.bytes, place + 12)))
    }

    // The lowest free run that holds so many bytes.
    fn free_run(&self, length: usize, kind: u32) -> Result<Slot, Refusal> {
        let mut from = 0;
        for span in &self.spans[..self.count] {
            if from + length <= span.place {
                return Ok(self.slot(from, span.place, kind));
            }
            from = self.region.onward(span.end);
        }
        let end = self.region.bytes.len();
        if from + length > end {
            return refused(17);
        }
        Ok(self.slot(from, end, kind))
    }

    // 16: the component to be written holds the magic at a place after its first. At an alignment of 16 or more only its name or its content can.
    fn holds_magic(&self, name: &[u8], content: &[u8]) -> bool {
        self.magic_in(24, name) || self.magic_in(offset_for(name), content)
    }

    // The part, which begins at byte `at` of a span, holds the magic at a place.
    fn magic_in(&self, at: usize, part: &[u8]) -> bool {
        let first = at.next_multiple_of(self.region.align) - at;
        (first..part.len().saturating_sub(7)).step_by(self.region.align).any(|p| &part[p..p + 8] == MAGIC)
    }
}

fn offset_for(name: &[u8]) -> usize {
    24 + (name.len() / 16 + 1) * 16
}

fn slot_to_add(image: &[u8], name: &[u8], kind: u32, content: &[u8]) -> Result<Slot, Refusal> {
    let components = components(image)?;
    if !name_fits(name) {
        return refused(14);
    }
    if components.named(name).is_some() {
        return refused(15);
    }
    if components.count == LIMIT {
        return refused(13);
    }
    if components.holds_magic(name, content) {
        return refused(16);
    }
    components.free_run(offset_for(name) + content.len(), kind)
}

fn slot_to_replace(image: &[u8], name: &[u8], content: &[u8]) -> Result<Slot, Refusal> {
    let components = components(image)?;
    let slot = components.slot_named(name)?;
    if components.holds_magic(name, content) {
        return refused(16);
    }
    if slot.from + offset_for(name) + content.len() > slot.to {
        return refused(17);
    }
    Ok(slot)
}

// Writes a component over the slot, with its sum, and 0xFF after it. Answers its place.
fn write(image: &mut [u8], slot: Slot, name: &[u8], content: &[u8]) -> usize {
    let offset = offset_for(name);
    let (header, rest) = image[slot.from..slot.to].split_at_mut(24);
    header[..8].copy_from_slice(MAGIC);
    header[8..12].copy_from_slice(&(content.len() as u32).to_be_bytes());
    header[12..16].copy_from_slice(&slot.kind.to_be_bytes());
    header[16..20].fill(0);
    header[20..].copy_from_slice(&(offset as u32).to_be_bytes());
    let stated = sum(header).wrapping_add(sum(name)).wrapping_add(sum(content));
    header[16..20].copy_from_slice(&stated.to_be_bytes());
    let (field, rest) = rest.split_at_mut(offset - 24);
    field[..name.len()].copy_from_slice(name);
    field[name.len()..].fill(0);
    let (held, after) = rest.split_at_mut(content.len());
    held.copy_from_slice(content);
    after.fill(0xFF);
    slot.from
}

pub fn add(image: &mut [u8], name: &[u8], kind: u32, content: &[u8]) -> u64 {
    answer_number(slot_to_add(image, name, kind, content).map(|slot| write(image, slot, name, content)))
}

pub fn replace(image: &mut [u8], name: &[u8], content: &[u8]) -> u64 {
    answer_number(slot_to_replace(image, name, content).map(|slot| write(image, slot, name, content)))
}

pub fn remove(image: &mut [u8], name: &[u8]) -> u64 {
    let slot = components(image).and_then(|components| components.slot_named(name));
    answer_number(slot.map(|slot| {
        image[slot.from..slot.to].fill(0xFF);
        slot.from
    }))
}
