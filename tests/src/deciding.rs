//! What a case shows of request 5 of document 02, for counting: that a component without a sum or with its right one is served, or
//! that a wrong sum decides, so that the answer would be another if no header stated a sum.

use std::collections::BTreeSet;
use std::sync::Arc;

use crate::image::put;
use crate::master::{self, Region};
use crate::protocol::{outcome, Case};
use crate::walk::{self, Component, CHECKSUM};
use crate::{strict, sums};

/// Which call came to what.
pub type Kind = (String, String);

/// The calls together that judge headers in one way.
pub const PLAIN: &str = "sums in the plain walk";
pub const GUARDED: &str = "sums in the guarded walk";
pub const STRICT: &str = "sums in the strict check";
pub const PLACE: &str = "sums at a place";

fn together(op: u8) -> &'static str {
    match op {
        b'p' | b'i' | b'l' | b'e' => PLAIN,
        b'g' | b'j' | b'k' | b'z' | b's' | b'y' => GUARDED,
        b'c' | b'a' | b'r' | b'd' => STRICT,
        _ => PLACE,
    }
}

/// The part of an answer that tells which components were served: no content, since that may hold a checksum.
fn served_alone(op: u8, answer: &str) -> Vec<String> {
    let words = |line: &str| line.split('\t').take(3).collect::<Vec<&str>>().join(" ");
    match op {
        b'u' | b'v' => vec![outcome(answer)],
        b'c' => vec![answer.to_string()],
        _ => answer.lines().filter(|line| !line.starts_with("image\t")).map(words).collect(),
    }
}

/// The components that an answer serves: for an add those of the image, for a plan the one that it loads.
fn served(case: &Case, region: Region, answer: &str) -> Vec<Component> {
    let image = &case.image;
    let at = |word: &str| word.parse().ok().and_then(|place| walk::component_at(image, region, place));
    let first: Vec<&str> = answer.lines().next().unwrap_or("").split('\t').collect();
    match (case.op, first[0]) {
        (_, "refused" | "none") => Vec::new(),
        (b'p' | b'g', _) => answer.lines().filter_map(|line| at(line.strip_prefix("component\t")?.split('\t').next()?)).collect(),
        (b'c', _) => first[3..].iter().filter_map(|word| at(word)).collect(),
        (b'a', _) => walk::listing(image, region, walk::judge),
        (b's' | b'y', _) => strict::guarded_lookup(image, region, &case.name).into_iter().collect(),
        (b'u' | b'v', _) if first[1] == "-" => Vec::new(),
        (b'u' | b'v', _) => walk::component_at(image, region, case.number).into_iter().collect(),
        _ => at(first[1]).into_iter().collect(),
    }
}

/// What is special in a component's span.
fn special(image: &[u8], region: Region, it: &Component) -> Vec<&'static str> {
    let content = &image[it.content..it.end];
    let later = (it.place + region.align..it.end).step_by(region.align).any(|place| walk::carries(image, region, place));
    let sum = walk::sum(&image[it.place..it.end]);
    let marks = [
        (content.is_empty(), "empty content"),
        (!content.is_empty() && content.iter().all(|byte| *byte == 0xFF), "content of 0xFF"),
        (sum >= 1 << 16, "sum of 2^16 or more"),
        (sum >= 1 << 23, "sum of 2^23 or more"),
        (later, "magic in its span"),
    ];
    marks.into_iter().filter(|(holds, _)| *holds).map(|(_, label)| label).collect()
}

/// Where 12's place lies: in a span that the plain walk takes, with or without a sum, or at a header whose sum is wrong.
fn twelve(image: &[u8], region: Region, answer: &str) -> Option<&'static str> {
    let place: usize = answer.strip_prefix("refused\t12\t")?.split('\t').next()?.parse().ok()?;
    let taken = walk::listing(image, region, walk::judge);
    match taken.iter().find(|it| it.place < place && place < it.end) {
        Some(it) if it.checksum == 0 => Some("12 in a span without a sum"),
        Some(_) => Some("12 in a span with its sum"),
        None => walk::formed(image, region, place).map(|_| "12 at a wrong sum"),
    }
}

/// All that a case shows. `answer` gives the reference's answer to it and to cases like it; `call` is the operation's name in the counts.
pub fn kinds(call: &str, case: &Case, expected: &str, answer: fn(&Case) -> String) -> Vec<Kind> {
    let mut list: Vec<Kind> = Vec::new();
    let image = &case.image;
    let (Ok(region), false) = (master::region(image), matches!(case.op, b'm' | b'f')) else {
        return list;
    };
    let mut add = |call: &str, kind: String| list.push((call.to_string(), kind));
    let group = together(case.op);
    let (summed, unsummed): (Vec<Component>, Vec<Component>) =
        served(case, region, expected).into_iter().partition(|it| it.checksum != 0);
    if !unsummed.is_empty() {
        add(call, "no sum".into());
    }
    if !summed.is_empty() {
        add(call, "right sum".into());
        let marks: BTreeSet<&str> = summed.iter().flat_map(|it| special(image, region, it)).collect();
        marks.iter().for_each(|mark| add(group, format!("right, {mark}")));
    }
    if matches!(case.op, b'c' | b'a' | b'r' | b'd') {
        twelve(image, region, expected).into_iter().for_each(|kind| add(call, kind.into()));
    }

    let stated: Vec<Component> = sums::headers(image, region).into_iter().filter(|it| it.checksum != 0).collect();
    let wrong: Vec<&Component> = stated.iter().filter(|it| walk::judge(image, region, it.place).is_none()).collect();
    if wrong.is_empty() {
        return list;
    }
    // The same image, no sum stated. A checksum is in no other header and no name that is well formed, so nothing else changes.
    let mut without = image.to_vec();
    stated.iter().for_each(|it| put(&mut without, (it.place + CHECKSUM.start) as i64, &[0; 4]));
    let other = answer(&Case { image: Arc::new(without), ..case.clone() });
    if served_alone(case.op, &other) != served_alone(case.op, expected) {
        add(call, "wrong sum".into());
        if let [it] = wrong[..] {
            sums::ways(image, it).iter().for_each(|way| add(group, way.to_string()));
            special(image, region, it).iter().for_each(|mark| add(group, format!("wrong, {mark}")));
        }
    }
    list
}
