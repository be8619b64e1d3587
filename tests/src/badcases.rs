//! Inputs that the probe's protocol forbids, each in a run of its own.

use std::sync::Arc;

use crate::compare::check_output;
use crate::image::{image_a, put};
use crate::protocol::Case;
use crate::run::Words;
use crate::tally::Tally;

/// Cases cut short, unknown operations, lengths over their limits.
fn forbidden(good: &Case) -> Vec<(Vec<u8>, &'static str)> {
    let whole = good.encoded();
    let size = whole.len();
    let mut inputs: Vec<(Vec<u8>, &str)> = Vec::new();
    for cut in [1, 2, 4, 5, 6, size - 17, size - 16, size - 12, size - 8, size - 1] {
        inputs.push((whole[..cut].to_vec(), "cut short"));
    }
    for op in [0, b'?', b' ', b'\n', 0x80, 0xFF] {
        inputs.push((Case { op, ..good.clone() }.encoded(), "unknown operation"));
    }
    for (note, image, name, content) in
        [("image over its limit", 65_537, 0, 0), ("name over its limit", 64, 1_025, 0), ("content over its limit", 64, 0, 65_537)]
    {
        let case = Case::new(b'm', &Arc::new(vec![0; image]), note);
        inputs.push((case.named(&vec![b'a'; name]).holding(&vec![0; content]).encoded(), note));
    }
    for at in [1, 5, 9] {
        // A length of 2^32 - 1, with nothing behind it.
        let mut bytes = Case::new(b'm', &Arc::new(Vec::new()), "").encoded();
        put(&mut bytes, at, &[0xFF; 4]);
        inputs.push((bytes, "huge length"));
    }
    inputs
}

/// The answers to the cases before, then `bad case`, then nothing.
pub fn test(probe: &Words, tally: &mut Tally) {
    let good = Case::new(b'm', &Arc::new(image_a()), "before a bad case");
    for (input, note) in forbidden(&good) {
        for before in [0, 2] {
            let mut bytes = good.encoded().repeat(before);
            bytes.extend(&input);
            let expected = "region\t0\t3072\t64\n".repeat(before) + "bad case\n";
            check_output(probe, &bytes, &expected, note, "bad case", tally);
        }
    }
    check_output(probe, &[], "", "empty input", "bad case", tally);
    // The limits themselves are allowed.
    let widest = Case::new(b'm', &Arc::new(vec![0; 65_536]), "").named(&[b'a'; 1_024]).holding(&vec![0; 65_536]);
    check_output(probe, &widest.encoded(), "refused\t2\t0\t0\n", "fields at their limits", "bad case", tally);
}
