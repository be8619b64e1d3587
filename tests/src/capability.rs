//! What a capability is: some operations of the probe, their answers by the reference, and their cases.
//! Each capability is a module of its own and one line in main.rs.

use crate::protocol::Case;

/// Cases that belong together, and a check of what the probe answered to them, beyond the comparison.
pub struct Batch {
    pub cases: Vec<Case>,
    pub after: Option<After>,
}

/// Such a check tells what it has seen, as outcomes of a call to count.
pub type After = Box<dyn Fn(&[String]) -> Result<Vec<Seen>, String>>;
pub type Seen = (&'static str, &'static str);

impl Batch {
    pub fn plain(cases: Vec<Case>) -> Batch {
        Batch { cases, after: None }
    }
}

/// A case whose answer stands in document 01, or follows from request 5 or 6 of document 02, written out.
pub struct Literal {
    pub case: Case,
    pub answer: String,
}

/// A case in which two refusals' conditions hold, each looked at by itself. The first one must be given.
pub struct Both {
    pub case: Case,
    pub first: u32,
    pub second: u32,
    pub first_holds: bool,
    pub second_holds: bool,
}

pub struct Capability {
    pub name: &'static str,
    /// The operations it sends and answers.
    pub operations: &'static str,
    /// The reference's answer to a case of these operations.
    pub answer: fn(&Case) -> String,
    /// Pairs of refusals that some case must meet together.
    pub pairs: fn() -> Vec<(u8, u32, u32)>,
    /// Bench cases of document 01.
    pub bench: fn() -> Vec<Literal>,
    /// The cases for `pairs`.
    pub both: fn() -> Vec<Both>,
    /// Generated cases: a fixed part, and random ones up to about so many.
    pub generated: fn(u64, usize) -> Vec<Batch>,
    /// Its share of the number of cases asked for, in percent.
    pub share: usize,
}
