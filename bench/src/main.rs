// Times the proved calls against the same algorithms in plain Rust, in one run, and compares the answers of both.
// It fails if an answer differs; the goals for the times are reported as met or missed. With `answers` it only compares, with `stack` it
// measures the stack of each call, and fails if one takes too much.
mod answers;
mod boundaries;
mod check_times;
mod edit_answers;
mod edit_times;
mod edits;
mod images;
mod ours;
mod plain;
mod stack;
mod sum_times;
mod sums;
mod timing;

use std::process::ExitCode;
use timing::{both, lesser, CALLS, SIDES};

const SIZES: [usize; 3] = [1, 4, 16];
// The growth is that from the first to the last of the sizes.
const ENDS: [usize; 2] = [SIZES[0], SIZES[2]];
// So many MiB the copies of an image take together, that calls on them in turn find none in the core's own cache. Else 1 MiB would be
// read from a nearer cache than 16 MiB, and the growth would tell of the machine. The copies of both sizes stand in the same memory, one
// after the other, and the runs on them take turns.
const COPIES: usize = 64;
const MIB: usize = 1 << 20;
const QUOTIENT: f64 = 1.25;
const GROWTH: f64 = 20.0;

// The least times of a call in nanoseconds, ours first: on one image of each size again and again, and on copies of those at both ends in turn.
#[derive(Clone, Copy)]
struct Times {
    same: [[f64; 2]; SIZES.len()],
    turn: [[f64; 2]; ENDS.len()],
}

const UNTIMED: Times = Times { same: [[f64::INFINITY; 2]; SIZES.len()], turn: [[f64::INFINITY; 2]; ENDS.len()] };

fn main() -> ExitCode {
    let words: Vec<String> = std::env::args().skip(1).collect();
    let runs = match words.iter().map(String::as_str).collect::<Vec<_>>()[..] {
        [] => 200,
        ["quick"] => 10,
        ["answers"] => return ExitCode::from(u8::from(!answers::alone())),
        ["stack"] => return ExitCode::from(u8::from(!stack::good())),
        _ => {
            println!("usage: bench/run [quick | answers | stack]");
            return ExitCode::from(2);
        }
    };
    let mut differing = answers::special();
    let labels: Vec<(&str, &[usize])> = images::cases(1).iter().map(|case| (case.label, case.calls)).collect();
    let mut times = vec![[UNTIMED; CALLS.len()]; labels.len()];
    for (size, mib) in SIZES.into_iter().enumerate() {
        for (case, row) in images::cases(mib).into_iter().zip(&mut times) {
            differing += answers::compare_some(case.label, &case.image, &case.name, case.calls);
            for &call in case.calls {
                let least = &mut row[call].same[size];
                for k in 0..runs {
                    *least = lesser(*least, both(SIDES[call], &[&case.image], &case.name, k));
                }
            }
        }
    }
    let mut memory = vec![0u8; COPIES * MIB];
    let ends = ENDS.map(images::cases);
    for (at, row) in times.iter_mut().enumerate() {
        for k in 0..runs {
            for (end, cases) in ends.iter().enumerate() {
                let case = &cases[at];
                memory.chunks_exact_mut(case.image.len()).for_each(|copy| copy.copy_from_slice(&case.image));
                let images: Vec<&[u8]> = memory.chunks_exact(case.image.len()).collect();
                for &call in case.calls {
                    let least = &mut row[call].turn[end];
                    *least = lesser(*least, both(SIDES[call], &images, &case.name, k));
                }
            }
        }
    }
    drop(memory);
    let (checks, edits) = (check_times::cases(), edit_times::cases());
    differing += answers::counted(check_times::differing(&checks)) + answers::counted(edit_times::differing(&edits));
    differing += answers::counted(sum_times::differing());
    let missed = report(&labels, &times);
    let (slow_checks, check_lines) = check_times::report(&checks, runs);
    let (slow_summed, summed_lines) = check_times::report_summed(&checks, runs);
    let (slow, lines) = edit_times::report(&edits, runs);
    let (slow_sums, sum_lines) = sum_times::report(runs);
    println!("answers: {} compared, {differing} differ", answers::compared());
    println!(
        "goals at 16 MiB: {QUOTIENT} times plain Rust, {GROWTH} times the time at 1 MiB: missed by {missed} of {}",
        labels.iter().map(|(_, calls)| calls.len()).sum::<usize>()
    );
    println!("strict check's goals with as many components as are allowed: missed by {slow_checks} of {check_lines}");
    println!("strict check's goal where names share a digest and state right sums: missed by {slow_summed} of {summed_lines}");
    println!("edits' goal at 16 MiB: {} times plain Rust: missed by {slow} of {lines}", edit_times::QUOTIENT);
    println!("the sum's goal: {} times plain Rust: missed by {slow_sums} of {sum_lines}", sum_times::QUOTIENT);
    ExitCode::from(u8::from(differing > 0))
}

// The table, in microseconds. Answers how many lines of it miss a goal.
fn report(labels: &[(&str, &[usize])], times: &[[Times; CALLS.len()]]) -> usize {
    let mut missed = 0;
    println!("| image | call | ours, 1 MiB | 4 MiB | 16 MiB | plain Rust, 16 MiB | quotients | growth | of plain Rust | goals |");
    println!("|---|---|---|---|---|---|---|---|---|---|");
    for ((label, calls), row) in labels.iter().zip(times) {
        for (call, t) in calls.iter().map(|&call| (CALLS[call], &row[call])) {
            let [one, four, all] = t.same.map(|[ours, _]| ours / 1000.0);
            let quotients = t.same.map(|[ours, plain]| ours / plain);
            let growth = [0, 1].map(|side| t.turn[1][side] / t.turn[0][side]);
            let goals = match (quotients[2] > QUOTIENT, growth[0] > GROWTH) {
                (false, false) => "met",
                (true, false) => "quotient MISSED",
                (false, true) => "growth MISSED",
                (true, true) => "both MISSED",
            };
            missed += usize::from(goals != "met");
            let quotients = quotients.map(|q| format!("{q:.2}")).join(", ");
            let plain = t.same[2][1] / 1000.0;
            println!(
                "| {label} | {call} | {one:.2} | {four:.2} | {all:.2} | {plain:.2} | {quotients} | {:.1} | {:.1} | {goals} |",
                growth[0], growth[1]
            );
        }
    }
    missed
}
