// Times the sum of all bytes by itself; and the plain walk where it is slowest, on headers at every place whose sums are wrong: it sums each span,
// up to the region's end.
use crate::images::{nested_wrong, Case, Random};
use crate::timing::{both, lesser, Call, CALLS, PLAIN_LISTING, PLAIN_LOOKUP, SIDES};
use crate::{ours, plain};
use std::hint::black_box;
use std::time::Instant;

pub const QUOTIENT: f64 = 1.10;
const LARGEST: usize = 16 << 20;
const LENGTHS: [(usize, &str); 3] = [(1 << 10, "1 KiB"), (64 << 10, "64 KiB"), (LARGEST, "16 MiB")];
// The plain walk's time grows with the square of the size.
const SQUARED: [usize; 2] = [PLAIN_LISTING, PLAIN_LOOKUP];

type Sum = fn(&[u8]) -> u64;

// Ours, plain Rust's, and the same byte by byte.
const SUMS: [Sum; 3] = [
    ours::sum,
    |bytes| u64::from(plain::sum(bytes)),
    |bytes| u64::from(bytes.iter().fold(0u32, |total, &b| total.wrapping_add(b.into()))),
];

fn squared() -> Case {
    nested_wrong("nested, wrong sums", 1 << 20)
}

// How many of the timed sums and walks differ; and how many there are. No component of the second image is listed.
pub fn differing() -> (usize, usize) {
    let bytes = Random::new(7).bytes(16 << 20);
    let case = squared();
    let sums = LENGTHS.iter().filter(|&&(length, _)| SUMS.iter().any(|sum| sum(&bytes[..length]) != SUMS[2](&bytes[..length])));
    let walks = [0, 10 << 32].into_iter().zip(SQUARED).filter(|&(known, call)| {
        let answers = SIDES[call].map(|side| side(&case.image, &case.name));
        answers != [known; 2]
    });
    (sums.count() + walks.count(), LENGTHS.len() + SQUARED.len())
}

// The least time of each sum in nanoseconds, with as many calls in a run as take some 50 microseconds.
fn least(bytes: &[u8], runs: usize) -> [f64; 3] {
    let times = ((1 << 19) / bytes.len()).max(1);
    let mut least = [f64::INFINITY; 3];
    for k in 0..3 * runs {
        let side = (k + k / 3) % 3;
        let began = Instant::now();
        for _ in 0..times {
            black_box(SUMS[side](black_box(bytes)));
        }
        least[side] = least[side].min(began.elapsed().as_nanos() as f64 / times as f64);
    }
    least
}

// The tables, in microseconds. Answers how many lines of the first miss the goal, and how many there are. The second has none.
pub fn report(runs: usize) -> (usize, usize) {
    let bytes = Random::new(7).bytes(16 << 20);
    let mut missed = 0;
    println!("| bytes summed | ours | plain Rust | quotient | goal | plain Rust, byte by byte | ours by that |");
    println!("|---|---|---|---|---|---|---|");
    for (length, label) in LENGTHS {
        let [ours, plain, simple] = least(&bytes[..length], runs).map(|time| time / 1000.0);
        // The goal is for an image of the largest size.
        let goal = match (length == LARGEST, ours / plain > QUOTIENT) {
            (false, _) => "",
            (true, false) => "met",
            (true, true) => "MISSED",
        };
        missed += usize::from(goal == "MISSED");
        let quotients = [ours / plain, ours / simple];
        println!("| {label} | {ours:.3} | {plain:.3} | {:.2} | {goal} | {simple:.3} | {:.2} |", quotients[0], quotients[1]);
    }
    let Case { label, image, name, .. } = squared();
    println!("| image, 1 MiB | call | ours | plain Rust | quotient |");
    println!("|---|---|---|---|---|");
    for call in SQUARED {
        let sides: [Call; 2] = SIDES[call];
        let [ours, plain] = (0..(runs / 20).max(3))
            .map(|k| both(sides, &[&image], &name, k))
            .fold([f64::INFINITY; 2], lesser)
            .map(|time| time / 1000.0);
        println!("| {label} | {} | {ours:.0} | {plain:.0} | {:.2} |", CALLS[call], ours / plain);
    }
    (missed, 1)
}
