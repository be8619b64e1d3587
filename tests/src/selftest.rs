//! A probe and a listing program that answer from the reference, right or with a fault put in,
//! to show that the comparer agrees with the one and notices the other.

use std::env;
use std::io::{self, BufReader, BufWriter, Read, Write};
use std::process::ExitCode;

use crate::bytes::big32;
use crate::capability::Capability;
use crate::image::{a_stating, Raw};
use crate::master::Region;
use crate::run::Words;
use crate::tally::Tally;
use crate::{capabilities, compare, compare_all, complete, edit, listings, protocol, required, strict, walk, FLOOR};

/// What a faulty probe does wrong, each time in one answer only (or at the end).
const FAULTS: [&str; 7] = ["digit", "line", "extra", "stop", "bad-case", "tail", "rest"];

/// The answer in which it does.
const FAULTY: usize = 1_234;

pub fn fake_probe(fault: Option<&str>) -> ExitCode {
    let mut input = BufReader::with_capacity(1 << 16, io::stdin());
    let mut output = BufWriter::with_capacity(1 << 16, io::stdout());
    let mut count = 0;
    let written = loop {
        let answer = match protocol::read_case(&mut input) {
            Ok(None) => break Ok(()),
            Ok(Some(case)) => capabilities()
                .iter()
                .find(|capability| capability.operations.as_bytes().contains(&case.op))
                .map(|capability| (capability.answer)(&case)),
            Err(()) => None,
        };
        let Some(mut answer) = answer else {
            break output.write_all(b"bad case\n");
        };
        count += 1;
        if count == FAULTY {
            match fault {
                Some("digit") => {
                    let digit = answer.rfind(|c: char| c.is_ascii_hexdigit()).unwrap_or(0);
                    let other = if answer.as_bytes()[digit] == b'0' { "1" } else { "0" };
                    answer.replace_range(digit..=digit, other);
                }
                Some("line") => answer.clear(),
                Some("extra") => answer += "none\n",
                Some("stop") => break Ok(()),
                Some("bad-case") => answer = "bad case\n".into(),
                Some("rest") => answer = answer.trim_end().to_string() + "\t\n",
                _ => {}
            }
        }
        if output.write_all(answer.as_bytes()).is_err() {
            return ExitCode::FAILURE;
        }
    };
    let tail: &[u8] = if fault == Some("tail") && count > FAULTY { b"end\t0\n" } else { b"" };
    let written = written.and_then(|_| output.write_all(tail)).and_then(|_| output.flush());
    if written.is_ok() {
        ExitCode::SUCCESS
    } else {
        ExitCode::FAILURE
    }
}

pub fn fake_list() -> ExitCode {
    let mut input = Vec::new();
    let read = io::stdin().take(crate::program::LIMIT as u64 + 1).read_to_end(&mut input);
    let written = read.and_then(|_| io::stdout().write_all(crate::program::output(&input).as_bytes()));
    if written.is_ok() {
        ExitCode::SUCCESS
    } else {
        ExitCode::FAILURE
    }
}

/// A run that is right but for one call, one outcome of a call, or one case too few: does each of them fail?
fn partial_runs(right: &Tally) -> bool {
    let mut runs: Vec<(String, Tally)> = Vec::new();
    runs.extend(required::calls().into_iter().map(|call| (call.to_string(), right.without(call, None))));
    for (call, kind) in required::outcomes() {
        runs.push((format!("{call}: {kind}"), right.without(call, Some(&kind))));
    }
    let mut few = right.without("", None);
    few.agreed = FLOOR - 1;
    runs.push((format!("the last of {FLOOR} cases"), few));
    let count = runs.len();
    let mut failed = 0;
    for (what, mut run) in runs {
        let before = run.failures.len();
        complete(&mut run, FLOOR);
        if run.failures.len() > before {
            failed += 1;
        } else {
            println!("self-test: a run without {what} passes");
        }
    }
    println!("self-test: {failed} of {count} runs with something left out fail");
    failed == count
}

/// Runs of the fixed cases, whole for their number and with a capability left out whatever it is: each fails, and no answer differs.
fn left_out(probe: &Words, list: &Words) -> bool {
    let mut good = true;
    let mut run = |what: &str, capabilities: Vec<Capability>, floor: usize| {
        let mut tally = compare_all(capabilities, probe, list, 1, 0, None).without("", None);
        let before = tally.failures.len();
        complete(&mut tally, floor);
        println!("self-test: without {what}: {} cases agree, {} failures", tally.agreed, tally.failures.len());
        good = good && before == 0 && !tally.failures.is_empty();
    };
    for index in 0..capabilities().len() {
        let mut some = capabilities();
        let name = some.remove(index).name;
        run(&format!("capability {name}"), some, 0);
    }
    run("random cases", capabilities(), FLOOR);
    good
}

/// Sums that were added up by hand, and what comes of them in bench image A.
fn sums_by_hand() -> bool {
    let first = Raw::new(b"cal/12", 0xFFFF_FFFF, &[0; 100]);
    let spans: [(Vec<u8>, u32); 10] = [
        // LARCHIVE 590, len 100, type 4 * 255, offset 40, name 99 + 97 + 108 + 47 + 49 + 50.
        (first.bytes(), 2200),
        // The field counts as zero, whatever stands in it.
        (Raw { checksum: 2200, ..first.clone() }.bytes(), 2200),
        (Raw { checksum: 0xFFFF_FFFF, ..first }.bytes(), 2200),
        (Raw::new(b"cal/13", 0xFFFF_FFFF, &[0; 24]).bytes(), 2125),
        // 590, offset 40, name 33; with a name field of 240 bytes offset 1 + 8, which is the least that a component has.
        (Raw::new(b"!", 0, b"").bytes(), 663),
        (Raw::new(b"!", 0, b"").with_field(240).bytes(), 632),
        // 590, offset 1 + 24, name 255 * 126.
        (Raw::new(&[0x7E; 255], 0, b"").bytes(), 32_745),
        // 590, len 1 + 44, type 16, offset 40, name 97, content 300 * 255: above 2^16.
        (Raw::new(b"a", 0x10, &[0xFF; 300]).bytes(), 77_288),
        // More than any component of the longest image that the driver takes, and of the longest there is: no sum passes 32 bits.
        (vec![0xFF; 65_536], 16_710_660),
        (vec![0xFF; 16_777_216], 4_278_189_060),
    ];
    let mut good = spans.iter().all(|(span, sum)| walk::sum(span) == *sum);
    let region = Region { start: 0, end: 3072, align: 64 };
    for (stated, served) in [(0, true), (2200, true), (2199, false), (2201, false)] {
        let image = a_stating(stated, 2125);
        good &= walk::judge(&image, region, 0).is_some() == served;
        good &= strict::check(&image, region).err() == if served { None } else { Some((12, 0)) };
    }
    good &= big32(&edit::span(b"cal/12", 0xFFFF_FFFF, &[0; 100]), 16) == 2200;
    println!("self-test: sums added up by hand: {}", if good { "the same" } else { "FAILED" });
    good
}

/// Compares with itself: all agrees, and each fault is noticed.
pub fn run() -> ExitCode {
    let Ok(this) = env::current_exe() else {
        return ExitCode::FAILURE;
    };
    let words = |rest: &[&str]| -> Words {
        let mut words: Words = vec![this.clone().into()];
        words.extend(rest.iter().map(|word| word.into()));
        words
    };
    let list = words(&["fake-list"]);
    let probe = words(&["fake-probe"]);
    let mut right = compare_all(capabilities(), &probe, &list, 1, crate::CASES, None);
    print!("{}", right.table());
    complete(&mut right, FLOOR);
    let mut good = right.failures.is_empty();
    println!("self-test: without a fault {} cases agree, {} failures", right.agreed, right.failures.len());
    for fault in FAULTS {
        let mut tally = Tally::new(None);
        for capability in capabilities() {
            compare::test_capability(&capability, &words(&["fake-probe", fault]), 1, 3_000, &mut tally);
        }
        println!("self-test: fault {fault}: {} failures", tally.failures.len());
        good = good && !tally.failures.is_empty();
    }
    let mut tally = Tally::new(None);
    listings::test(&words(&["bench-image"]), 1, &mut tally);
    good = good && !tally.failures.is_empty();
    good &= sums_by_hand();
    good &= partial_runs(&right);
    good &= left_out(&probe, &list);
    println!("self-test: {}", if good { "good" } else { "FAILED" });
    if good {
        ExitCode::SUCCESS
    } else {
        ExitCode::FAILURE
    }
}
