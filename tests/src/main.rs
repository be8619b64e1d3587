//! The second program: document 01 once more, from the paper, and the library compared with it over generated cases.
//!
//!   second PROBE LIST [--seed N] [--cases N] [--keep FILE]   compare; the status is 0 where all agrees,
//!                                                            1 where an answer differs, 2 where it fails otherwise
//!   second bench-image                                       write bench image A
//!   second self-test                                         show that the comparer notices wrong answers

mod accepted;
mod badcases;
mod bench;
mod bytes;
mod capability;
mod cases;
mod compare;
mod conditions;
mod corrupter;
mod deciding;
mod edit;
mod edits;
mod finds;
mod flashmap;
mod guarded;
mod image;
mod listings;
mod load;
mod maps;
mod master;
mod plain;
mod plans;
mod program;
mod protocol;
mod required;
mod rng;
mod run;
mod selftest;
mod strict;
mod sums;
mod tally;
mod walk;

use std::env;
use std::io::Write;
use std::process::ExitCode;

use capability::Capability;
use run::Words;
use tally::Tally;

/// The capabilities that are tested. Each is a module of its own and one line here.
#[rustfmt::skip]
fn capabilities() -> Vec<Capability> {
    vec![plain::capability(), guarded::capability(), edits::capability(), plans::capability(), maps::capability(), finds::capability()]
}

/// How many random cases a run asks for that does not say how many; each capability takes its share of them.
const CASES: usize = 20_000;

/// The least number of cases of such a run, random and fixed.
const FLOOR: usize = 160_000;

/// The status of a run in which an answer of the programs differs from the reference's.
const DIFFERS: u8 = 1;
/// The status of a run that fails though no answer differs.
const AMISS: u8 = 2;

fn compare_all(
    capabilities: Vec<Capability>,
    probe: &Words,
    list: &Words,
    seed: u64,
    count: usize,
    keep: Option<String>,
) -> Tally {
    let mut tally = Tally::new(keep);
    for capability in capabilities {
        compare::test_capability(&capability, probe, seed, count * capability.share / 100, &mut tally);
    }
    badcases::test(probe, &mut tally);
    listings::test(list, seed, &mut tally);
    tally
}

fn main() -> ExitCode {
    let words: Vec<String> = env::args().skip(1).collect();
    match words.first().map(String::as_str) {
        Some("bench-image") => {
            let written = std::io::stdout().write_all(&image::image_a());
            return if written.is_ok() { ExitCode::SUCCESS } else { ExitCode::FAILURE };
        }
        Some("self-test") => return selftest::run(),
        Some("fake-probe") => return selftest::fake_probe(words.get(1).map(String::as_str)),
        Some("fake-list") => return selftest::fake_list(),
        _ => {}
    }

    let mut seed = 1;
    let mut count = CASES;
    let mut keep = None;
    let mut paths: Vec<String> = Vec::new();
    let mut rest = words.into_iter();
    while let Some(word) = rest.next() {
        let number = |value: Option<String>| value.and_then(|text| text.parse::<u64>().ok());
        match word.as_str() {
            "--seed" | "--cases" => match number(rest.next()) {
                Some(value) if word == "--seed" => seed = value,
                Some(value) => count = value as usize,
                None => return usage(),
            },
            "--keep" => keep = rest.next(),
            _ => paths.push(word),
        }
    }
    if paths.len() != 2 {
        return usage();
    }

    let (probe, list) = (vec![paths[0].clone().into()], vec![paths[1].clone().into()]);
    let mut tally = compare_all(capabilities(), &probe, &list, seed, count, keep);
    print!("{}", tally.table());
    complete(&mut tally, if count < CASES { 0 } else { FLOOR });
    verdict(&tally, seed)
}

/// Fails a run that has left out an operation, an outcome or too many cases. A run that asks for fewer cases has no least number.
fn complete(tally: &mut Tally, floor: usize) {
    required::check(tally);
    if tally.difference.is_none() && tally.agreed < floor {
        tally.fail(format!("{} cases are fewer than {floor}", tally.agreed));
    }
}

/// Says how a run came out, in a line and in the status.
fn verdict(tally: &Tally, seed: u64) -> ExitCode {
    if tally.failures.is_empty() {
        println!("second program: {} cases agree", tally.agreed);
        return ExitCode::SUCCESS;
    }
    println!("first difference: {}", tally.difference.as_deref().unwrap_or("none"));
    println!("second program: FAILED, {} failures, {} cases agree, seed {seed}", tally.failures.len(), tally.agreed);
    ExitCode::from(if tally.difference.is_some() { DIFFERS } else { AMISS })
}

fn usage() -> ExitCode {
    eprintln!("second PROBE LIST [--seed N] [--cases N] [--keep FILE] | second bench-image | second self-test");
    ExitCode::from(AMISS)
}
