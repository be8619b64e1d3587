// Times the edits against plain Rust at 16 MiB. The sides take turns in the same memory, and the image is restored before each call: with an
// image for each side the quotients moved by a quarter from run to run. Beside both stands the bare writing of the slot, by memcpy and memset,
// and the same with the sum of what is copied. Only in the last image do components state sums before.
use crate::edits::{carried_out, Request, ADD, EDITS, REMOVE, REPLACE, SIDES};
use crate::images::{blank, name_of, put_whole, Random, BOOTBLOCK};
use crate::plain::{self, LIMIT};
use crate::sums::state_off;
use std::hint::black_box;
use std::ops::Range;
use std::time::Instant;

pub const QUOTIENT: f64 = 1.10;
const LENGTH: usize = 16 << 20;
const END: usize = LENGTH - BOOTBLOCK;
// So long that as many of them as an image may have components fit the region.
const SLOT: usize = END / LIMIT / 64 * 64;
const HALF: usize = 8_192;
const SMALL: usize = 4_096;
const LARGE: usize = 15 << 20;

// An edit that is timed: which, what it is asked for, the slot that it writes, and what it answers: that slot's start, or a refusal.
struct Timed {
    edit: usize,
    request: Request,
    slot: Range<usize>,
    answer: u64,
}

pub struct Case {
    label: String,
    image: Vec<u8>,
    timed: Vec<Timed>,
}

// Components of random bytes with the given places and spans, and 0xFF elsewhere. Contents that are written make a span of `written` bytes:
// a new component goes to the slot `free`, and the k-th, whose slot goes up to `to`, is replaced and removed.
fn case(label: &str, spans: &[Range<usize>], written: usize, free: Option<Range<usize>>, held: Option<(usize, usize)>) -> Case {
    let mut image = blank(LENGTH, BOOTBLOCK, 64, 0, 0xFF);
    let mut random = Random::new(7);
    for (k, span) in spans.iter().enumerate() {
        put_whole(&mut image, span.start, &name_of(k), 0x50, &random.bytes(span.len() - 40));
    }
    let content = random.bytes(written - 40);
    let timed = |edit, name, slot: Range<usize>| {
        let answer = slot.start as u64;
        Timed { edit, request: Request { name, kind: 0x50, content: content.clone() }, slot, answer }
    };
    let adds = free.map(|slot| timed(ADD, b"new".to_vec(), slot));
    let others = held.map(|(k, to)| [REPLACE, REMOVE].map(|edit| timed(edit, name_of(k), spans[k].start..to)));
    let timed = adds.into_iter().chain(others.into_iter().flatten()).collect();
    Case { label: label.to_string(), image, timed }
}

// As many small components as are allowed, and a name of 15 MiB that none has: refused by 10. Its bytes are those of the region where nothing stands.
fn long_name() -> Case {
    let spans: Vec<Range<usize>> = (0..LIMIT).map(|k| k * 64..k * 64 + 40).collect();
    let mut case = case("a name of 15 MiB", &spans, SMALL, None, None);
    let request = || Request { name: vec![0xFF; LARGE], kind: 0x50, content: vec![7; SMALL] };
    case.timed = [REPLACE, REMOVE].map(|edit| Timed { edit, request: request(), slot: 0..0, answer: 10 << 32 }).into();
    case
}

// The same, with the right sum in each of these components.
fn summed(mut case: Case, spans: &[Range<usize>]) -> Case {
    spans.iter().for_each(|span| state_off(&mut case.image, span.start, 0));
    case
}

pub fn cases() -> Vec<Case> {
    let slots = |number: usize, from: usize, apart: usize, span: usize| -> Vec<Range<usize>> {
        (0..number).map(|k| from + k * apart..from + k * apart + span).collect()
    };
    let (full, half) = (LIMIT - 1, LIMIT / 2);
    let mut gap = slots(14, SLOT, SMALL, SMALL);
    gap.insert(0, 0..SMALL);
    gap.push(full * SLOT..full * SLOT + SMALL);
    let large = [0..LARGE, LARGE..LARGE + SMALL];
    let crowd = slots(LIMIT, 0, SLOT, HALF);
    vec![
        case(
            &format!("full, {full} components"),
            &slots(full, 0, SLOT, SLOT),
            SLOT,
            Some(full * SLOT..END),
            Some((full - 1, END)),
        ),
        case(&format!("half free, {half}"), &slots(half, 0, 2 * SLOT, SLOT), SLOT, Some(SLOT..2 * SLOT), Some((half - 1, END))),
        case("mostly free, 16; the run is written", &slots(16, 0, SMALL, SMALL), SMALL, Some(16 * SMALL..END), Some((15, END))),
        case("mostly free, 16; a small slot is written", &gap, SMALL, Some(SMALL..SLOT), Some((15, END))),
        case("15 MiB free", &large[1..], LARGE, Some(0..LARGE), None),
        case("15 MiB held", &large, LARGE, None, Some((0, LARGE))),
        long_name(),
        summed(case("1,024 components, right sums", &crowd, HALF, None, Some((LIMIT - 1, END))), &crowd),
    ]
}

// How many edits of the cases answer something else than is written out, or differ from plain Rust; and how many there are.
pub fn differing(cases: &[Case]) -> (usize, usize) {
    let (mut differing, mut number) = (0, 0);
    let mut copy = Vec::new();
    for case in cases {
        for Timed { edit, request, answer: known, .. } in &case.timed {
            let (answer, agree) = carried_out(*edit, &mut case.image.clone(), &mut copy, request);
            differing += usize::from(!agree || answer != *known);
            number += 1;
        }
    }
    (differing, number)
}

// Writes what the edit writes, but for the header and the name; and sums the content where this is asked for.
fn write_bare(image: &mut [u8], Timed { edit, request, slot, .. }: &Timed, summing: bool) -> u64 {
    let held = if *edit == REMOVE || slot.is_empty() { &[] } else { &request.content[..] };
    let (content, rest) = image[slot.clone()].split_at_mut(held.len());
    let sum = if summing { plain::sum(held) } else { 0 };
    content.copy_from_slice(held);
    rest.fill(0xFF);
    sum.into()
}

// The table, in microseconds. Answers how many lines of it miss the goal, and how many there are.
pub fn report(cases: &[Case], runs: usize) -> (usize, usize) {
    let (mut missed, mut lines) = (0, 0);
    let mut work = vec![0; LENGTH];
    println!(
        "| image | edit | ours | plain Rust | quotient | bare memcpy and memset | with the sum | ours beyond it | plain Rust beyond it | goal |"
    );
    println!("|---|---|---|---|---|---|---|---|---|---|");
    for case in cases {
        for timed in &case.timed {
            let mut least = [f64::INFINITY; 4];
            for k in 0..4 * runs {
                let side = (k + k / 4) % 4;
                work.copy_from_slice(&case.image);
                let began = Instant::now();
                black_box(match SIDES[timed.edit].get(side) {
                    Some(edit) => edit(black_box(&mut work), &timed.request),
                    None => write_bare(black_box(&mut work), timed, side == 3),
                });
                least[side] = least[side].min(began.elapsed().as_nanos() as f64 / 1000.0);
            }
            let [ours, plain, bare, summed] = least;
            let goal = if ours / plain > QUOTIENT { "MISSED" } else { "met" };
            missed += usize::from(goal != "met");
            lines += 1;
            println!(
                "| {} | {} | {ours:.0} | {plain:.0} | {:.2} | {bare:.0} | {summed:.0} | {:.0} | {:.0} | {goal} |",
                case.label,
                EDITS[timed.edit],
                ours / plain,
                ours - summed,
                plain - summed
            );
        }
    }
    (missed, lines)
}
