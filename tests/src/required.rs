//! What a whole run must have reached: every operation of the probe's protocol and the listing program, each kind of their answers,
//! and each refusal that document 01, "Refusal numbers", allows them; what the strict check and the edits answer at the limit of
//! components, and at the one before request 6; and what request 5 makes of stated sums. No other may come.

use std::collections::BTreeSet;

use crate::corrupter::{DAMAGED, DAMAGES};
use crate::deciding::{GUARDED, PLACE, PLAIN, STRICT};
use crate::sums::WRONG;
use crate::tally::Tally;

/// Calls that answer alike: an operation to a letter, or a program by its name.
struct Row {
    calls: &'static [&'static str],
    kinds: &'static [&'static str],
    refusals: &'static [&'static [u32]],
}

const HEADER: &[u32] = &[1, 2, 3, 4, 5, 6, 7, 8];
const CHECK: &[u32] = &[12, 13, 11];

/// An answer to `u` or `v` reports no refusal, so the images are counted by theirs.
const PART: &[&str] = &[
    "part",
    "empty part",
    "image refused 1",
    "image refused 2",
    "image refused 3",
    "image refused 4",
    "image refused 5",
    "image refused 6",
    "image refused 7",
    "image refused 8",
];

const ROWS: &[Row] = &[
    Row { calls: &["m"], kinds: &["region"], refusals: &[HEADER] },
    Row { calls: &["p", "g"], kinds: &["listing", "empty listing"], refusals: &[HEADER] },
    Row { calls: &["i", "j"], kinds: &["taken", "none"], refusals: &[HEADER, &[9]] },
    Row { calls: &["l", "e"], kinds: &["found"], refusals: &[HEADER, &[10]] },
    Row { calls: &["k", "z"], kinds: &["found"], refusals: &[HEADER, &[10, 11]] },
    Row { calls: &["u", "v"], kinds: PART, refusals: &[] },
    Row { calls: &["c"], kinds: &["accepted"], refusals: &[HEADER, CHECK] },
    Row { calls: &["a"], kinds: &["done"], refusals: &[HEADER, CHECK, &[14, 15, 16, 17]] },
    Row { calls: &["r"], kinds: &["done"], refusals: &[HEADER, CHECK, &[10, 16, 17]] },
    Row { calls: &["d"], kinds: &["done"], refusals: &[HEADER, CHECK, &[10]] },
    Row { calls: &["s"], kinds: &["stage"], refusals: &[HEADER, &[10, 11, 18, 19, 22, 23, 24, 25]] },
    Row { calls: &["y"], kinds: &["payload"], refusals: &[HEADER, &[10, 11, 18, 19, 20, 21, 22, 23, 24, 25, 26]] },
    Row { calls: &["f"], kinds: &["map"], refusals: &[&[1, 27, 28, 29, 30, 31, 32, 33, 34, 35, 36, 37]] },
    Row { calls: &["listing program"], kinds: &["place"], refusals: &[HEADER] },
    Row { calls: &["bad case"], kinds: &["bad case", "region", "no answer"], refusals: &[&[2]] },
];

/// Numbers of components beside the limit, 1,024, and beside 256, which it is in document 01.
const BESIDE: [usize; 6] = [256, 257, 258, 1_023, 1_024, 1_025];

/// Outcomes that hang on the number of components: the call, the outcome, and at which of these numbers it must come. At the others it may not.
const AT: &[(&str, &str, &[usize])] = &[
    ("c", "accepted", &[256, 257, 258, 1_023, 1_024]),
    ("c", "refused 13", &[1_025]),
    ("c", "refused 11", &[256, 257, 258, 1_023, 1_024]),
    ("a", "done", &[256, 257, 258, 1_023]),
    ("a", "refused 13", &[1_024, 1_025]),
    ("r", "done", &[256, 257, 258, 1_023, 1_024]),
    ("r", "refused 13", &[1_025]),
    ("d", "done", &[256, 257, 258, 1_023, 1_024]),
    ("d", "refused 13", &[1_025]),
];

fn at(kind: &str, count: usize) -> String {
    format!("{kind} at {count}")
}

/// How a call came out at one of these numbers; none for another number, and for an outcome that does not hang on it.
pub fn beside(call: &str, kind: &str, count: usize) -> Option<String> {
    let hangs = AT.iter().any(|(its, this, _)| *its == call && *this == kind);
    (hangs && BESIDE.contains(&count)).then(|| at(kind, count))
}

/// Calls that judge headers. Each serves a component without a sum and one with its right sum, and is decided by a wrong one.
const JUDGING: &[&str] = &["p", "g", "i", "j", "l", "k", "c", "a", "r", "d", "s", "y", "e", "z", "u", "v", "listing program"];

/// The outcomes of the components' sums, call by call and for calls together.
fn of_sums() -> Vec<(&'static str, String)> {
    let mut list = Vec::new();
    let mut add = |calls: &[&'static str], kinds: &[&str]| {
        list.extend(calls.iter().flat_map(|call| kinds.iter().map(move |kind| (*call, kind.to_string()))));
    };
    add(JUDGING, &["no sum", "right sum", "wrong sum"]);
    add(&["c", "a", "r", "d"], &["12 at a wrong sum", "12 in a span with its sum", "12 in a span without a sum"]);
    let every = [PLAIN, GUARDED, STRICT, PLACE];
    add(&every, &WRONG.map(|(_, label)| label));
    add(&every, &["right, empty content", "right, content of 0xFF", "right, sum of 2^16 or more", "right, sum of 2^23 or more"]);
    add(&every, &["wrong, empty content", "wrong, content of 0xFF", "wrong, sum of 2^16 or more", "wrong, sum of 2^23 or more"]);
    // The guarded walk takes no such span, and the strict check accepts none.
    add(&[PLAIN, PLACE], &["right, magic in its span"]);
    add(&[PLAIN, PLACE, STRICT], &["wrong, magic in its span"]);
    add(&[DAMAGED], &DAMAGES);
    list
}

/// Every call, with every outcome that it must reach.
pub fn outcomes() -> Vec<(&'static str, String)> {
    let mut list = Vec::new();
    for row in ROWS {
        for call in row.calls {
            list.extend(row.kinds.iter().map(|kind| (*call, kind.to_string())));
            list.extend(row.refusals.iter().flat_map(|part| *part).map(|number| (*call, format!("refused {number}"))));
        }
    }
    for (call, kind, counts) in AT {
        list.extend(counts.iter().map(|count| (*call, at(kind, *count))));
    }
    list.extend(of_sums());
    list
}

/// The calls of the tables, each once.
pub fn calls() -> Vec<&'static str> {
    outcomes().into_iter().map(|(call, _)| call).collect::<BTreeSet<_>>().into_iter().collect()
}

/// Fails the run for what it has not reached, and for what no call may answer.
pub fn check(tally: &mut Tally) {
    let all = outcomes();
    for (call, kind) in &all {
        if !tally.has_reached(call, kind) {
            tally.fail(format!("not reached: {call}: {kind}"));
        }
    }
    for (call, kind) in tally.reached() {
        if !all.iter().any(|(its, allowed)| *its == call && *allowed == kind) {
            tally.fail(format!("reached, and not allowed: {call}: {kind}"));
        }
    }
}
