//! Sends a capability's cases to the probe and compares every answer with the reference's, byte by byte.

use std::thread;

use crate::bytes::hex;
use crate::capability::{Batch, Capability};
use crate::protocol::{lines_of_answer, outcome, Case};
use crate::run::{run, Words};
use crate::tally::{clip, Tally};
use crate::{deciding, master, required, walk};

/// Cases in one run of the probe.
const RUN: usize = 4_000;

/// Runs the probe on some cases, and the reference beside it: the probe's lines, and the answers expected.
fn ask(probe: &Words, capability: &Capability, part: &[Case], tally: &mut Tally) -> (Vec<String>, Vec<String>) {
    let mut expected = Vec::new();
    let ran = thread::scope(|scope| {
        let probing = scope.spawn(|| run(probe, |out| part.iter().try_for_each(|case| case.write(out))));
        expected.extend(part.iter().map(capability.answer));
        probing.join().expect("the driving thread ends")
    });
    let bytes = match ran {
        Ok((bytes, status)) => {
            if !status.success() {
                tally.fail(format!("the probe ended with {status}"));
            }
            bytes
        }
        Err(text) => {
            tally.stop(text);
            Vec::new()
        }
    };
    let text = String::from_utf8_lossy(&bytes);
    if !text.is_empty() && !text.ends_with('\n') {
        tally.fail("the probe's output does not end with a line".into());
    }
    (text.split_terminator('\n').map(str::to_string).collect(), expected)
}

/// A component takes so many bytes at least.
const LEAST: usize = 40;

/// How a case came out, for counting. An answer to `u` or `v` reports no refusal: its image is counted by the one that it has.
/// An answer of the strict check or an edit is counted by the number of components too.
fn kinds(case: &Case, expected: &str) -> Vec<String> {
    let mut kinds = vec![outcome(expected)];
    match (case.op, master::region(&case.image)) {
        (b'u' | b'v', Err(number)) => kinds.push(format!("image refused {number}")),
        (b'c' | b'a' | b'r' | b'd', Ok(region)) if case.image.len() >= 256 * LEAST => {
            let count = walk::listing(&case.image, region, walk::judge).len();
            kinds.extend(required::beside(&(case.op as char).to_string(), &kinds[0], count));
        }
        _ => {}
    }
    kinds
}

/// Compares one answer.
fn compare_one(capability: &Capability, number: usize, case: &Case, expected: &str, got: &str, tally: &mut Tally) {
    let call = (case.op as char).to_string();
    for kind in kinds(case, expected) {
        tally.count(&call, kind);
    }
    for (call, kind) in deciding::kinds(&call, case, expected, capability.answer) {
        tally.count(&call, kind);
    }
    if got == expected {
        tally.agreed += 1;
        return;
    }
    let described = format!("operation {}, {} case {number} ({})", case.op as char, capability.name, case.note);
    let text = format!(
        "{} case {number} differs: {}\n  expected: {}\n  got:      {}",
        capability.name,
        case.describe(),
        clip(expected),
        clip(got)
    );
    tally.differ(described, text);
    tally.keep(case);
}

/// Sends cases and compares. Gives what the probe answered to each, as far as it did.
fn compare(probe: &Words, capability: &Capability, cases: &[Case], tally: &mut Tally) -> Vec<String> {
    let mut answers = Vec::new();
    for part in cases.chunks(RUN) {
        let (lines, expected) = ask(probe, capability, part, tally);
        let mut at = 0;
        for (index, (case, expected)) in part.iter().zip(&expected).enumerate() {
            if at >= lines.len() || lines[at] == "bad case" {
                let said = lines.get(at).map_or("the output's end", |line| line);
                tally.fail(format!("{index} of {} cases answered, then: {said}\n  {}", part.len(), case.describe()));
                return answers;
            }
            let count = lines_of_answer(case.op, &lines[at..]).min(lines.len() - at);
            let got = lines[at..at + count].join("\n") + "\n";
            at += count;
            compare_one(capability, answers.len(), case, expected, &got, tally);
            answers.push(got);
        }
        if at < lines.len() {
            tally.fail(format!("{} lines after the last answer, the first: {}", lines.len() - at, clip(&lines[at])));
        }
    }
    answers
}

/// Bench cases, with the reference held against what document 01 says.
fn bench_cases(capability: &Capability, tally: &mut Tally) -> Vec<Case> {
    let mut cases = Vec::new();
    for literal in (capability.bench)() {
        let ours = (capability.answer)(&literal.case);
        if ours != literal.answer {
            tally.fail(format!(
                "the reference differs from document 01: {}\n  document: {}\n  reference: {}",
                literal.case.describe(),
                clip(&literal.answer),
                clip(&ours)
            ));
        }
        cases.push(literal.case);
    }
    cases
}

/// Cases of two refusals, with both conditions seen to hold, and the first one given.
fn pair_cases(capability: &Capability, tally: &mut Tally) -> Vec<Case> {
    let mut cases = Vec::new();
    for both in (capability.both)() {
        let described = format!("{} ({} and {})", both.case.describe(), both.first, both.second);
        if !both.first_holds || !both.second_holds {
            tally.fail(format!("the two conditions do not hold together: {described}"));
        }
        let kind = outcome(&(capability.answer)(&both.case));
        if kind != format!("refused {}", both.first) {
            tally.fail(format!("the reference gives {kind} for two refusals: {described}"));
        }
        tally.meet(both.case.op, both.first, both.second);
        cases.push(both.case);
    }
    cases
}

/// The checks that batches bring along, on what the probe answered.
fn check_after(batches: &[Batch], answers: &[String], tally: &mut Tally) {
    let mut at = 0;
    for batch in batches {
        let next = at + batch.cases.len();
        if let (Some(after), true) = (&batch.after, next <= answers.len()) {
            match after(&answers[at..next]) {
                Ok(seen) => seen.into_iter().for_each(|(call, kind)| tally.count(call, kind.to_string())),
                Err(text) => tally.fail(text),
            }
        }
        at = next;
    }
}

/// All of a capability: bench cases, cases of two refusals, generated ones; and that all pairs of refusals were met.
pub fn test_capability(capability: &Capability, probe: &Words, seed: u64, count: usize, tally: &mut Tally) {
    if tally.hung {
        return;
    }
    let mut batches = vec![Batch::plain(bench_cases(capability, tally)), Batch::plain(pair_cases(capability, tally))];
    batches.extend((capability.generated)(seed, count));
    let all: Vec<Case> = batches.iter().flat_map(|batch| batch.cases.iter().cloned()).collect();
    if let Some(case) = all.iter().find(|case| !case.fits() || !capability.operations.as_bytes().contains(&case.op)) {
        tally.fail(format!("a case that cannot be sent: {}", case.describe()));
        return;
    }
    println!("{}: {} cases", capability.name, all.len());
    let answers = compare(probe, capability, &all, tally);
    check_after(&batches, &answers, tally);
    for (op, first, second) in (capability.pairs)() {
        tally.need_pair(op, first, second);
    }
}

/// Runs a program on one input and compares its whole output.
pub fn check_output(words: &Words, input: &[u8], expected: &str, note: &str, call: &str, tally: &mut Tally) {
    if tally.hung {
        return;
    }
    match run(words, |out| out.write_all(input)) {
        Err(text) => tally.stop(text),
        Ok((bytes, _)) => {
            let got = String::from_utf8_lossy(&bytes).into_owned();
            tally.count(call, outcome(expected));
            if got == expected {
                tally.agreed += 1;
            } else {
                let described = if input.len() <= 256 { hex(input) } else { String::new() };
                let which = format!("{call}, {note}");
                let text = format!(
                    "{which}: differs on an input of {} bytes {described}\n  expected: {}\n  got:      {}",
                    input.len(),
                    clip(expected),
                    clip(&got)
                );
                tally.differ(which, text);
            }
        }
    }
}
