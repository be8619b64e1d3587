// Times both sides on one image: interleaved runs, of which the least counts.
use crate::{ours, plain};
use std::hint::black_box;
use std::time::Instant;

pub const CALLS: [&str; 5] = ["plain listing", "guarded listing", "plain lookup", "guarded lookup", "strict check"];

// Where each of them stands in CALLS.
pub const PLAIN_LISTING: usize = 0;
pub const GUARDED_LISTING: usize = 1;
pub const PLAIN_LOOKUP: usize = 2;
pub const GUARDED_LOOKUP: usize = 3;
pub const STRICT_CHECK: usize = 4;
pub const EVERY: &[usize] = &[PLAIN_LISTING, GUARDED_LISTING, PLAIN_LOOKUP, GUARDED_LOOKUP, STRICT_CHECK];

pub type Call = fn(&[u8], &[u8]) -> u64;

// Both sides of each call, in the order of CALLS.
pub const SIDES: [[Call; 2]; 5] = [
    [|i, _| ours::plain_count(i), |i, _| plain::plain_count(i)],
    [|i, _| ours::guarded_count(i), |i, _| plain::guarded_count(i)],
    [ours::plain_place, plain::plain_place],
    [ours::guarded_place, plain::guarded_place],
    [|i, _| ours::strict_count(i), |i, _| plain::strict_count(i)],
];

// The time that a call takes on the images in turn, in nanoseconds.
fn run(call: Call, images: &[&[u8]], name: &[u8], times: usize) -> f64 {
    let began = Instant::now();
    for k in 0..times {
        black_box(call(black_box(images[k % images.len()]), black_box(name)));
    }
    began.elapsed().as_nanos() as f64 / times as f64
}

// The times of a call on each side, ours first. A run goes over all images, and a quick call is repeated within it, for some 50 microseconds.
// The sides take turns: `first` tells which begins.
pub fn both(sides: [Call; 2], images: &[&[u8]], name: &[u8], first: usize) -> [f64; 2] {
    let round = run(sides[0], images, name, images.len());
    let times = (50_000.0 / round).clamp(1.0, 2000.0) as usize / images.len();
    let times = times.max(1) * images.len();
    let mut taken = [0.0; 2];
    for turn in 0..2 {
        let side = (first + turn) % 2;
        taken[side] = run(sides[side], images, name, times);
    }
    taken
}

// The lesser of each side.
pub fn lesser(a: [f64; 2], b: [f64; 2]) -> [f64; 2] {
    [a[0].min(b[0]), a[1].min(b[1])]
}
