//! The listing program, on bench images, on images of every refusal, on random ones and on inputs of every length.

use std::sync::Arc;

use crate::cases;
use crate::compare::check_output;
use crate::image::{put, Frame, Raw};
use crate::protocol::Case;
use crate::rng::Rng;
use crate::run::Words;
use crate::tally::{clip, Tally};
use crate::{bench, deciding, master, plain, program};

type Input = (Vec<u8>, &'static str);

/// Bench images and images of two refusals, with the reference held against what is known of them.
fn known(tally: &mut Tally) -> Vec<Input> {
    let mut inputs: Vec<Input> = Vec::new();
    for (input, expected) in bench::program() {
        if program::output(&input) != expected {
            tally.fail(format!("the reference's listing differs from document 01: {}", clip(&expected)));
        }
        inputs.push((input, "bench"));
    }
    for (first, image) in plain::master_pairs() {
        if master::region(&image) != Err(first) {
            tally.fail(format!("two refusals: {first} expected"));
        }
        inputs.push((image.to_vec(), "two refusals"));
    }
    inputs
}

/// Inputs at the limit and past it, right in all else or all zero.
fn long() -> Vec<Input> {
    let mut inputs: Vec<Input> = Vec::new();
    for length in [65_535, 65_536, 65_537, 65_538, 131_072, 200_000] {
        let mut image = vec![0xFF; length];
        put(&mut image, 1024, &Raw::new(b"big", 0x10, b"content").summed().bytes());
        Frame::new(length, 36, 4096, 64, 64).stamp(&mut image);
        inputs.push((image, "length"));
        inputs.push((vec![0; length], "length"));
    }
    inputs
}

/// Some of the fixed scenes, three of each refusal and some of stated sums among them, and random ones.
fn generated(rng: &mut Rng) -> Vec<Input> {
    let fixed = cases::fixed(rng);
    let every = fixed.len() / 300 + 1;
    let shift = rng.below(every);
    let mut scenes: Vec<&cases::Scene> = fixed.iter().skip(shift).step_by(every).collect();
    for number in 1..=8 {
        scenes.extend(fixed.iter().filter(|scene| master::region(&scene.image) == Err(number)).take(3));
    }
    scenes.extend(fixed.iter().filter(|scene| scene.note == "checksum").step_by(17));
    let random: Vec<cases::Scene> = (0..200).map(|_| cases::random(rng)).collect();
    scenes.into_iter().chain(&random).map(|scene| (scene.image.to_vec(), scene.note)).collect()
}

/// What an input shows of stated sums: the program lists what the plain walk takes.
fn count_sums(input: &[u8], tally: &mut Tally) {
    if input.len() > program::LIMIT {
        return;
    }
    let case = Case::new(b'p', &Arc::new(input.to_vec()), "listing program");
    for (call, kind) in deciding::kinds("listing program", &case, &plain::answer(&case), plain::answer) {
        tally.count(&call, kind);
    }
}

pub fn test(list: &Words, seed: u64, tally: &mut Tally) {
    let mut inputs = known(tally);
    inputs.extend(long());
    inputs.extend(generated(&mut Rng::new(seed ^ 0x1157)));
    inputs.extend(cases::longest().into_iter().map(|scene| (scene.image.to_vec(), scene.note)));
    println!("listing program: {} inputs", inputs.len());
    for (number, (input, note)) in inputs.iter().enumerate() {
        let note = format!("input {number} ({note})");
        check_output(list, input, &program::output(input), &note, "listing program", tally);
        count_sums(input, tally);
    }
}
