// Compares the answers of both sides, at sizes that the probe cannot hold and on damaged images.
use crate::images::{self, blank, put, Random, BOOTBLOCK};
use crate::plain::{self, LIMIT};
use crate::sums::{guarded, met, some_mood, state_all, wrong, Met, Seen, Stated, WRONG};
use crate::timing::{CALLS, EVERY, SIDES};
use crate::{boundaries, check_times, edit_answers, edit_times, ours, sum_times, SIZES};
use std::sync::atomic::{AtomicUsize, Ordering};

// Fewest comparisons of a run without times.
const FLOOR: usize = 552_000;
// Fewest times that each kind of sum must occur in the walks, the lookups and the strict checks that are compared; and each way of being wrong.
const SUMS: usize = 1_000;
const WRONGS: usize = 100;

static COMPARED: AtomicUsize = AtomicUsize::new(0);

pub fn compared() -> usize {
    COMPARED.load(Ordering::Relaxed)
}

// Counts comparisons that were made elsewhere, and answers how many of them differ.
pub fn counted((differing, number): (usize, usize)) -> usize {
    COMPARED.fetch_add(number, Ordering::Relaxed);
    differing
}

// How many of the calls answer differently on an image: the five that are timed, and the strict check's first, third and last place, and none after it.
pub fn compare(label: &str, image: &[u8], name: &[u8]) -> usize {
    compare_some(label, image, name, EVERY)
}

// The same with some of the five.
pub fn compare_some(label: &str, image: &[u8], name: &[u8], calls: &[usize]) -> usize {
    let mut differing = 0;
    let mut judge = |call: &str, a: u64, b: u64| {
        if a != b {
            println!("DIFFER: {label}, {} bytes, {call}: {a:#x} and {b:#x}", image.len());
        }
        differing += counted((usize::from(a != b), 1));
    };
    for &call in calls {
        let [ours, plain] = SIDES[call];
        judge(CALLS[call], ours(image, name), plain(image, name));
    }
    for k in [0, 2, LIMIT - 1, LIMIT] {
        judge("a place of the directory", ours::strict_place(image, k), plain::strict_place(image, k));
    }
    differing
}

// Up to `number` components at random places of a region, spans overlapping or passing the end now and then, with right sums, wrong ones or
// none; and some bytes damaged.
pub fn spoil(image: &mut [u8], random: &mut Random, number: usize, align: usize, start: usize, end: usize) {
    let places = (end - start).div_ceil(align);
    let mut taken = Vec::new();
    for _ in 0..number {
        let place = start + random.below(places) * align;
        if place + 40 > end {
            continue;
        }
        let name = [b'a' + random.below(20) as u8, b'0' + random.below(10) as u8];
        let room = end - place - 40;
        let len = match random.below(8) {
            0 => room,
            1 => room + 1,
            2 => random.below(room + 1),
            _ => random.below(align.min(room + 1)),
        };
        put(image, place, &name, len);
        taken.push(place);
    }
    let mood = some_mood(random);
    state_all(image, &mut taken, mood, random);
    for _ in 0..random.below(8) {
        let place = start + random.below(places) * align;
        let at = (place + random.below(40)).min(image.len() - 1);
        image[at] = random.next() as u8;
    }
}

// What has to occur in the images that are compared, by the sums that a plain walk meets in them.
const OCCURS: [&str; 9] = [
    "right listed",
    "none listed",
    "wrong passed over",
    "right accepted by the strict check",
    "wrong refused by it",
    "a magic refused inside a span whose sum is right",
    "right found by the plain lookup",
    "right found by the guarded lookup",
    "wrong where the name is asked for",
];

// How often that is, and how often each way in which a listing meets a wrong sum.
struct Occurs {
    sums: Seen<{ OCCURS.len() }>,
    wrong: Seen<{ WRONG.len() }>,
}

// Compares the answers on an image, and notes what the sums are that a plain walk meets in it. Both listings are held to those sums, too.
fn compare_noting(seen: &mut Occurs, label: &str, image: &[u8], name: &[u8], met: &[Met]) -> usize {
    let differing = compare(label, image, name);
    let [listed, guardedly, first, only, strict] = SIDES.map(|[ours, _]| ours(image, name));
    if (1..=8).contains(&(listed >> 32)) {
        return differing;
    }
    let (refusal, reported) = (strict >> 32, strict as u32 as usize);
    let some = |stated, test: &dyn Fn(&Met) -> bool| met.iter().any(|m| m.stated == stated && test(m));
    seen.wrong.note(wrong(met.iter()));
    seen.sums.note([
        some(Stated::Right, &|_| true),
        some(Stated::Nothing, &|_| true),
        some(Stated::Wrong, &|_| true),
        some(Stated::Right, &|_| refusal == 0),
        some(Stated::Wrong, &|m| refusal == 12 && m.place == reported),
        some(Stated::Right, &|m| refusal == 12 && m.place < reported && reported < m.end),
        some(Stated::Right, &|m| m.place as u64 == first),
        some(Stated::Right, &|m| m.place as u64 == only),
        some(Stated::Wrong, &|m| m.name == name),
    ]);
    let taken = [met.iter().filter(|m| m.stated != Stated::Wrong).count(), guarded(image)];
    let unlike = [listed, guardedly].into_iter().zip(taken).filter(|&(listed, taken)| listed != taken as u64);
    let unlike =
        unlike.inspect(|(listed, taken)| println!("DIFFER: {label}, {} bytes: {listed} listed, not {taken}", image.len()));
    differing + counted((unlike.count(), 2))
}

// Lengths at both limits, a region of several places at align 65,536, and regions that end off align; each whole and damaged.
fn large(seen: &mut Occurs) -> usize {
    let mut differing = 0;
    let mut random = Random::new(11);
    for length in [64, 63, 65_536 * 5 + 777, 16_777_215, 16_777_216, 16_777_217] {
        for align in [16, 64, 4_096, 65_536] {
            for bootblock in [BOOTBLOCK, 1_025, 36] {
                if length < bootblock {
                    continue;
                }
                let end = length - bootblock;
                let start = (random.below(3) * align).min(end / align * align);
                let mut image = blank(length, bootblock, align, start, 0xFF);
                differing += compare("empty", &image, b"a1");
                if start < end {
                    spoil(&mut image, &mut random, 300, align, start, end);
                    differing += compare_noting(seen, "large", &image, b"a1", &met(&image));
                }
            }
        }
    }
    differing
}

// Small images of every geometry, with damage to the region and now and then to the master header.
fn damaged(number: usize, seen: &mut Occurs) -> usize {
    let mut differing = 0;
    let mut random = Random::new(13);
    for _ in 0..number {
        let align = 16 << random.below(13);
        let length = 64 + random.below(12 * align.max(400));
        let bootblock = (36 + random.below(64)).min(length);
        let end = length - bootblock;
        let start = (random.below(3) * align).min(end / align * align);
        let mut image = blank(length, bootblock, align, start, [0, 0xFF][random.below(2)]);
        if start < end {
            let components = random.below(12);
            spoil(&mut image, &mut random, components, align, start, end);
        }
        if random.below(4) == 0 {
            let at = length - 1 - random.below(36);
            image[at] = random.next() as u8;
        }
        let met = met(&image);
        let name = match met.get(random.below(2 * met.len())) {
            Some(one) => one.name.clone(),
            None => vec![b'a' + random.below(20) as u8, b'0' + random.below(10) as u8],
        };
        differing += compare_noting(seen, "damaged", &image, &name, &met);
    }
    differing
}

// The sum of all bytes, by both sides, and here by their number and value.
fn summing() -> usize {
    let mut differing = 0;
    let mut random = Random::new(19);
    let bytes = random.bytes(70_000);
    let mut judge = |part: &[u8], right: u64| {
        let answers = (ours::sum(part), u64::from(plain::sum(part)));
        if answers != (right, right) {
            println!("DIFFER: the sum of {} bytes: {} and {}, and {right} expected", part.len(), answers.0, answers.1);
        }
        differing += counted((usize::from(answers != (right, right)), 1));
    };
    let added = |part: &[u8]| part.iter().map(|&b| u64::from(b)).sum::<u64>() % (1 << 32);
    for length in (0..5_000).chain([8_191, 8_192, 65_535, 65_536, 65_537]) {
        let from = random.below(bytes.len() - length);
        judge(&bytes[from..from + length], added(&bytes[from..from + length]));
    }
    // 2^32 - 1 is 255 times 16,843,009.
    let full = vec![0xFF; 32 << 20];
    for (length, right) in [
        (1, 255),
        (257, 65_535),
        (65_793, 16_777_215),
        (16_777_216, 4_278_190_080),
        (16_843_009, 4_294_967_295),
        (16_843_010, 254),
        (33_554_432, 4_261_412_864),
    ] {
        judge(&full[..length], right);
    }
    differing
}

// All but the images that are timed. The answers on images at the boundaries are known beforehand.
pub fn special() -> usize {
    let mut seen = Occurs { sums: Seen::new(OCCURS), wrong: Seen::new(WRONG) };
    let differing = boundaries::unmet() + summing() + large(&mut seen) + damaged(40_000, &mut seen);
    let seldom = seen.sums.seldom("sums in the walks", SUMS) + seen.wrong.seldom("wrong sums in the walks", WRONGS);
    differing + seldom + counted(edit_answers::differing(30_000))
}

// The comparison by itself, the images that are timed included. Says whether it is good.
pub fn alone() -> bool {
    let mut differing = special();
    for case in SIZES.into_iter().flat_map(images::cases) {
        differing += compare_some(case.label, &case.image, &case.name, case.calls);
    }
    differing += counted(check_times::differing(&check_times::cases())) + counted(edit_times::differing(&edit_times::cases()));
    differing += counted(sum_times::differing());
    let held = boundaries::held();
    println!("answers: {} compared, and {held} of them with numbers written out; {differing} differ", compared());
    let few = compared() < FLOOR || held < boundaries::FLOOR;
    if few {
        println!("answers: FAILED, fewer than {FLOOR} compared, or fewer than {} as written out", boundaries::FLOOR);
    }
    differing == 0 && !few
}
