//! Counts what was compared and reached, and what failed.

use std::collections::BTreeMap;

use crate::protocol::Case;

/// Failures shown before the run stops showing more.
const SHOWN: usize = 5;

/// The counts and the failures of a whole run.
#[derive(Clone)]
pub struct Tally {
    pub agreed: usize,
    pub failures: Vec<String>,
    /// The first case whose answer was another than expected. None where all failures are of other kinds:
    /// a reference that breaks what document 01 writes out, an outcome not reached, a program that did not run to its end.
    pub difference: Option<String>,
    reached: BTreeMap<(String, String), usize>,
    pairs: BTreeMap<(u8, u32, u32), usize>,
    pub hung: bool,
    keep: Option<String>,
    quiet: bool,
}

impl Tally {
    pub fn new(keep: Option<String>) -> Tally {
        Tally {
            agreed: 0,
            failures: Vec::new(),
            difference: None,
            reached: BTreeMap::new(),
            pairs: BTreeMap::new(),
            keep,
            hung: false,
            quiet: false,
        }
    }

    /// A program could not be run to its end: nothing more is asked of any.
    pub fn stop(&mut self, text: String) {
        self.hung = true;
        self.fail(text);
    }

    pub fn fail(&mut self, text: String) {
        if self.failures.len() < SHOWN && !self.quiet {
            println!("{text}");
        }
        self.failures.push(text);
    }

    /// An answer other than expected, to the case that `case` tells.
    pub fn differ(&mut self, case: String, text: String) {
        self.difference.get_or_insert(case);
        self.fail(text);
    }

    pub fn count(&mut self, call: &str, kind: String) {
        *self.reached.entry((call.to_string(), kind)).or_insert(0) += 1;
    }

    pub fn has_reached(&self, call: &str, kind: &str) -> bool {
        self.reached.contains_key(&(call.to_string(), kind.to_string()))
    }

    /// Every call with every outcome that came.
    pub fn reached(&self) -> Vec<(String, String)> {
        self.reached.keys().cloned().collect()
    }

    /// The same run, as if it had not reached one outcome of a call, or none of them.
    pub fn without(&self, call: &str, kind: Option<&str>) -> Tally {
        let mut other = Tally { quiet: true, ..self.clone() };
        other.reached.retain(|(its, this), _| its != call || kind.is_some_and(|kind| this != kind));
        other
    }

    pub fn meet(&mut self, op: u8, first: u32, second: u32) {
        *self.pairs.entry((op, first, second)).or_insert(0) += 1;
    }

    pub fn need_pair(&mut self, op: u8, first: u32, second: u32) {
        if !self.pairs.contains_key(&(op, first, second)) {
            self.fail(format!("not reached: {}: {first} and {second} together", op as char));
        }
    }

    /// Keeps the first case that differs, where a file for it was named.
    pub fn keep(&mut self, case: &Case) {
        if let Some(file) = self.keep.take() {
            let _ = std::fs::write(file, case.encoded());
        }
    }

    /// Cases per call and outcome.
    pub fn table(&self) -> String {
        let mut lines: BTreeMap<&str, String> = BTreeMap::new();
        for ((call, kind), count) in &self.reached {
            let line = lines.entry(call).or_default();
            *line += &format!(", {kind} {count}");
        }
        let mut text = String::new();
        for (call, line) in lines {
            text += &format!("{call}: {}\n", &line[2..]);
        }
        text + &format!("two refusals at once: {} pairs of them, call by call\n", self.pairs.len())
    }
}

/// A long answer by the part that can be read.
pub fn clip(text: &str) -> String {
    let text = text.trim_end_matches('\n').replace('\n', " | ").replace('\t', "  ");
    let text: String = text.escape_debug().collect();
    if text.len() <= 600 {
        text
    } else {
        let cut: String = text.chars().take(600).collect();
        format!("{cut}.. ({} bytes)", text.len())
    }
}
