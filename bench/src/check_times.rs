// Times the strict check where it has most to do: as many components as an image may have, with names of which no two share a digest, and with
// long names that all share one. The check and the guarded listing of the same image, ours and plain Rust's, take turns. Where long names share
// a digest the check is timed with right sums, too: every name is compared with every other, and no span is to be summed again for that.
use crate::images::{blank, name_of, put, Random, BOOTBLOCK};
use crate::plain::{digest, name_fits, LIMIT};
use crate::sums::state_off;
use crate::timing::{Call, GUARDED_LISTING, SIDES, STRICT_CHECK};
use std::hint::black_box;
use std::time::Instant;

// An image's length, and how it is written.
type Size = (usize, &'static str);
const LARGE: Size = (16 << 20, "16 MiB");
const SMALL: Size = (512 << 10, "512 KiB");
const LONGEST: usize = 255;
// The offset of a component with the longest name.
const OFFSET: usize = 280;
const LISTING: [Call; 2] = SIDES[GUARDED_LISTING];
const CHECK: [Call; 2] = SIDES[STRICT_CHECK];

// The most that the check may take: in times of plain Rust's check, and of our guarded listing.
type Goals = [Option<f64>; 2];
// Where no two names share a digest, and where names of 255 bytes all do. The other lines are shown without a goal.
const APART: Goals = [Some(1.02), Some(1.25)];
const SHARED: Goals = [Some(4.0), None];
const SHOWN: Goals = [None; 2];

pub struct Case {
    label: String,
    goals: Goals,
    image: Vec<u8>,
    // the same, but the last component has the first one's name: refused by 11
    twice: Vec<u8>,
    // the image with the right sum in each component, where it is timed
    summed: Option<Vec<u8>>,
    // where the last component stands
    last: usize,
}

// A short name made as long as may be.
fn long(k: usize) -> Vec<u8> {
    let mut name = name_of(k);
    name.resize(LONGEST, b'x');
    name
}

// Pairs of bytes that make the same digest where they stand four bytes apart in a word of eight: 0x41 * 31 + 0x61 is 0x42 * 31 + 0x42.
const ALIKE: [&[u8; 2]; 2] = [b"Aa", b"BB"];

// The k-th of the names of 255 bytes that share a digest: ten pairs of bytes, in three words from the byte `at` on, tell it.
fn alike(k: usize, at: usize) -> Vec<u8> {
    let mut name = vec![b'x'; LONGEST];
    for bit in 0..10 {
        let first = at + bit / 4 * 8 + bit % 4;
        [name[first], name[first + 4]] = *ALIKE[k >> bit & 1];
    }
    name
}

// 961 times this is 1, modulo 2^32.
const BY_961: u32 = 3_427_929_153;

// The k-th of the names of 192 to 255 bytes with the digest 0. They agree up to their last full word, which is searched for: 961 times its digest
// makes up for that of the other bytes. Its first half is drawn, and the second follows from it.
fn of_any_length(k: usize) -> Vec<u8> {
    let mut name = vec![b'x'; 192 + k % 64];
    let at = name.len() / 8 * 8 - 8;
    name[at..at + 8].fill(0);
    let lacking = digest(&name).wrapping_neg().wrapping_mul(BY_961);
    let mut random = Random::new(k as u64);
    loop {
        let first = [0; 4].map(|_: u8| 0x21 + random.below(94) as u8);
        let second = lacking.wrapping_sub(u32::from_le_bytes(first).wrapping_mul(31)).to_le_bytes();
        if name_fits(&second) {
            name[at..at + 4].copy_from_slice(&first);
            name[at + 4..at + 8].copy_from_slice(&second);
            return name;
        }
    }
}

// Components of which each takes about half of its slot, random bytes elsewhere.
fn case(names: &str, goals: Goals, (length, size): Size, align: usize, name: impl Fn(usize) -> Vec<u8>) -> Case {
    let slot = (length - BOOTBLOCK) / LIMIT / align * align;
    let len = (slot - OFFSET) / 2;
    let mut image = blank(length, BOOTBLOCK, align, 0, 0xFF);
    let mut random = Random::new(7);
    image[..length - BOOTBLOCK].iter_mut().for_each(|b| *b = random.next() as u8);
    for k in 0..LIMIT {
        put(&mut image, k * slot, &name(k), len);
    }
    let last = (LIMIT - 1) * slot;
    let mut twice = image.clone();
    put(&mut twice, last, &name(0), len);
    let summed = (goals == SHARED).then(|| {
        let mut summed = image.clone();
        (0..LIMIT).for_each(|k| state_off(&mut summed, k * slot, 0));
        summed
    });
    Case { label: format!("{names}; {size}, align {align}"), goals, image, twice, summed, last }
}

pub fn cases() -> Vec<Case> {
    let middle = "one digest, the middle differs";
    vec![
        case("short names", APART, LARGE, 16, name_of),
        case("short names", APART, LARGE, 64, name_of),
        case("short names", SHOWN, LARGE, 1024, name_of),
        case("short names", SHOWN, LARGE, 4096, name_of),
        case("names of 255 bytes", APART, LARGE, 64, long),
        case("names of 255 bytes", SHOWN, LARGE, 1024, long),
        case("names of 255 bytes", SHOWN, LARGE, 4096, long),
        case("one digest, the first bytes differ", SHARED, LARGE, 64, |k| alike(k, 0)),
        case(middle, SHARED, LARGE, 64, |k| alike(k, 112)),
        case("one digest, the last bytes differ", SHARED, LARGE, 64, |k| alike(k, 232)),
        case("one digest, the bytes before the last eight differ", SHARED, LARGE, 64, |k| alike(k, 224)),
        case(middle, SHARED, SMALL, 64, |k| alike(k, 112)),
        case("one digest, 192 to 255 bytes", SHOWN, SMALL, 64, of_any_length),
    ]
}

// How many checks of the cases answer something else than is written out, on either side; and how many there are.
pub fn differing(cases: &[Case]) -> (usize, usize) {
    let (mut differing, mut number) = (0, 0);
    let mut judge = |image: &[u8], known: u64| {
        differing += usize::from(CHECK.iter().any(|check| check(image, b"") != known));
        number += 1;
    };
    for Case { image, twice, summed, last, .. } in cases {
        judge(image, LIMIT as u64);
        judge(twice, 11 << 32);
        if let Some(summed) = summed {
            judge(summed, LIMIT as u64);
            let mut wrong = summed.clone();
            state_off(&mut wrong, *last, 1);
            judge(&wrong, (12 << 32) + *last as u64);
        }
    }
    (differing, number)
}

// The least time of each call in microseconds; they take turns.
fn least<const N: usize>(calls: [(Call, &[u8]); N], runs: usize) -> [f64; N] {
    let mut least = [f64::INFINITY; N];
    for k in 0..N * runs {
        let side = (k + k / N) % N;
        let (call, image) = calls[side];
        let began = Instant::now();
        black_box(call(black_box(image), b""));
        least[side] = least[side].min(began.elapsed().as_nanos() as f64 / 1000.0);
    }
    least
}

fn judged(quotient: f64, goal: Option<f64>) -> String {
    match goal {
        Some(most) if quotient > most => format!("{most:.2} MISSED"),
        Some(most) => format!("{most:.2} met"),
        None => String::new(),
    }
}

// The table, in microseconds. Answers how many lines of it miss a goal, and how many there are.
pub fn report(cases: &[Case], runs: usize) -> (usize, usize) {
    let mut missed = 0;
    println!("| names | strict check | plain Rust | quotient | goal | guarded listing | check by listing | goal |");
    println!("|---|---|---|---|---|---|---|---|");
    for Case { label, goals, image, .. } in cases {
        let [ours, plain, listing] = least([(CHECK[0], image), (CHECK[1], image), (LISTING[0], image)], runs);
        let quotients = [ours / plain, ours / listing];
        let judged = [judged(quotients[0], goals[0]), judged(quotients[1], goals[1])];
        missed += usize::from(judged.iter().any(|goal| goal.ends_with("MISSED")));
        println!(
            "| {label} | {ours:.0} | {plain:.0} | {:.2} | {} | {listing:.0} | {:.2} | {} |",
            quotients[0], judged[0], quotients[1], judged[1]
        );
    }
    (missed, cases.len())
}

// The same where right sums are stated, beside the times without them.
pub fn report_summed(cases: &[Case], runs: usize) -> (usize, usize) {
    let (mut missed, mut lines) = (0, 0);
    println!("| names, right sums | strict check | plain Rust | quotient | goal | without sums | plain Rust without | the sums | of plain Rust |");
    println!("|---|---|---|---|---|---|---|---|---|");
    for Case { label, goals, image, summed, .. } in cases {
        let Some(summed) = summed else {
            continue;
        };
        let calls = [(CHECK[0], &summed[..]), (CHECK[1], summed), (CHECK[0], image), (CHECK[1], image)];
        let [ours, plain, bare, bare_plain] = least(calls, runs);
        let goal = judged(ours / plain, goals[0]);
        missed += usize::from(goal.ends_with("MISSED"));
        lines += 1;
        println!(
            "| {label} | {ours:.0} | {plain:.0} | {:.2} | {goal} | {bare:.0} | {bare_plain:.0} | {:.0} | {:.0} |",
            ours / plain,
            ours - bare,
            plain - bare_plain
        );
    }
    (missed, lines)
}
