// The three edits on both sides: what is asked of them, and whether they answer alike and leave the same bytes.
use crate::{ours, plain};

pub const EDITS: [&str; 3] = ["add", "replace", "remove"];
pub const ADD: usize = 0;
pub const REPLACE: usize = 1;
pub const REMOVE: usize = 2;

// What an edit is asked for. Replace takes no type, and remove no content.
pub struct Request {
    pub name: Vec<u8>,
    pub kind: u32,
    pub content: Vec<u8>,
}

pub type Edit = fn(&mut [u8], &Request) -> u64;

// Both sides of each edit, in the order of EDITS.
pub const SIDES: [[Edit; 2]; 3] = [
    [|i, r| ours::add(i, &r.name, r.kind, &r.content), |i, r| plain::add(i, &r.name, r.kind, &r.content)],
    [|i, r| ours::replace(i, &r.name, &r.content), |i, r| plain::replace(i, &r.name, &r.content)],
    [|i, r| ours::remove(i, &r.name), |i, r| plain::remove(i, &r.name)],
];

// Carries out an edit on the image, and the same in plain Rust on a copy. Answers what ours answered, and whether both agree in it and in every byte.
pub fn carried_out(edit: usize, image: &mut [u8], copy: &mut Vec<u8>, request: &Request) -> (u64, bool) {
    copy.clear();
    copy.extend_from_slice(image);
    let [ours, plain] = SIDES[edit];
    let answers = (ours(image, request), plain(copy, request));
    let agree = answers.0 == answers.1 && image == &copy[..];
    if !agree {
        println!("DIFFER: {}, {} bytes: {:#x} and {:#x}", EDITS[edit], image.len(), answers.0, answers.1);
    }
    (answers.0, agree)
}
