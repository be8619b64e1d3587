// Images at the limits of document 01, with the five answers to each written out, and edits with their answer and the image afterwards.
// They do not come from plain.rs, which might be wrong alike.
use crate::answers::{compare, counted};
use crate::edits::{carried_out, Request, ADD, EDITS, REMOVE, REPLACE};
use crate::images::{blank, framed, put, put_whole};
use crate::sums::state;
use crate::timing::{CALLS, SIDES};
use crate::{ours, plain};
use std::ops::Range;
use std::sync::atomic::{AtomicUsize, Ordering};

// Fewest answers that are held to their numbers.
pub const FLOOR: usize = 1_082;

static HELD: AtomicUsize = AtomicUsize::new(0);

// How many answers were what they must be.
pub fn held() -> usize {
    HELD.load(Ordering::Relaxed)
}

const MOST: usize = 16_777_216;
const WIDE: usize = 65_536;

// A refusal with its place, as one number.
fn refused(number: u64, place: u64) -> u64 {
    (number << 32) + place
}

// All five calls refuse alike.
fn all(number: u64) -> [u64; 5] {
    [refused(number, 0); 5]
}

// Both listings and the strict check count `n`, and no component has the name.
fn unnamed(n: u64) -> [u64; 5] {
    [n, n, refused(10, 0), refused(10, 0), n]
}

// They count `n`, and both lookups give the place.
fn at(n: u64, place: u64) -> [u64; 5] {
    [n, n, place, place, n]
}

// Asks the five calls, and counts those that answer something else, or differ from plain Rust.
fn hold(label: &str, image: &[u8], name: &[u8], answers: [u64; 5]) -> usize {
    let mut unmet = compare(label, image, name);
    for ((call, [ours, _]), expected) in CALLS.iter().zip(SIDES).zip(answers) {
        let answer = ours(image, name);
        if answer == expected {
            HELD.fetch_add(1, Ordering::Relaxed);
        } else {
            println!("UNMET: {label}, {} bytes, {call}: {answer:#x}, and {expected:#x} expected", image.len());
            unmet += 1;
        }
    }
    unmet
}

// L of 64 to 16,777,216 bytes, and one byte less or more. The image is right in all else.
fn lengths() -> usize {
    let mut unmet = 0;
    for length in [MOST - 1, MOST, MOST + 1, MOST + 2, 2 * MOST] {
        for align in [16, WIDE] {
            let end = length - 1024;
            let last = (end - 40) / align * align;
            let mut image = blank(length, 1024, align, 0, 0xFF);
            put(&mut image, 0, b"first", 7);
            put(&mut image, last, b"last", end - last - 40);
            let good = length <= MOST;
            unmet += hold("length", &image, b"first", if good { at(2, 0) } else { all(1) });
            unmet += hold("length", &image, b"last", if good { at(2, last as u64) } else { all(1) });
        }
    }
    for length in [63, 64, 65] {
        let image = blank(length, 36, 16, 0, 0xFF);
        unmet += hold("length", &image, b"a", if length < 64 { all(1) } else { unnamed(0) });
    }
    unmet
}

// P of 0xFFFF0000 to 0xFFFFFFDC, and one less or more. The header stands where P says, in a bootblock that holds it.
fn pointers() -> usize {
    let mut unmet = 0;
    for (address, good) in
        [(0xFFFE_FFFFu32, false), (0xFFFF_0000, true), (0xFFFF_0001, true), (0xFFFF_FFDC, true), (0xFFFF_FFDD, false)]
    {
        let back = address.wrapping_neg() as usize;
        for length in [2 * WIDE + 7, 1 << 20, MOST] {
            let mut image = framed(length, back, back, 64, 64, 0xFF);
            put(&mut image, 128, b"one", 24);
            unmet += hold("P", &image, b"one", if good { at(1, 128) } else { all(2) });
        }
    }
    // With P 0xFFFF0000 an image of 65,536 bytes has its header at byte 0, and an empty region. In one byte less it would stand before byte 0.
    unmet += hold("P at byte 0", &framed(WIDE, WIDE, WIDE, 16, 0, 0xFF), b"one", unnamed(0));
    unmet += hold("P before byte 0", &framed(WIDE, WIDE, WIDE, 16, 0, 0xFF)[1..], b"one", all(2));
    // The header needs all 65,536 bytes of a bootblock.
    unmet += hold("bootblock", &framed(1 << 20, WIDE, WIDE - 1, 16, 0, 0xFF), b"one", all(6));
    unmet
}

// An image of 4 MiB with places 65,536 apart, a region from 131,072 on that ends off a place, and components below and after it that do not count.
fn wide_image() -> Vec<u8> {
    let length = 4 << 20;
    let mut image = blank(length, WIDE + 1000, WIDE, 2 * WIDE, 0xFF);
    put(&mut image, 0, b"below", 8);
    put(&mut image, WIDE, b"below", 8);
    put(&mut image, 2 * WIDE, b"cal/1", 8);
    put(&mut image, 3 * WIDE, b"cal/12", WIDE - 40);
    put(&mut image, 4 * WIDE, b"cal/13", WIDE - 39);
    put(&mut image, 6 * WIDE, b"cal/14", 0);
    // The last place is 62 times 65,536, and the region ends 64,536 bytes after it.
    put(&mut image, 62 * WIDE, b"last", WIDE - 1000 - 40);
    put(&mut image, 63 * WIDE, b"after", 8);
    image
}

// Several places at align 65,536. Places are counted from the image's start.
fn wide() -> usize {
    let whole = wide_image();
    let mut unmet = 0;
    for (name, place) in
        [(&b"cal/1"[..], 131_072), (b"cal/12", 196_608), (b"cal/13", 262_144), (b"cal/14", 393_216), (b"last", 4_063_232)]
    {
        unmet += hold("align 65,536", &whole, name, at(5, place));
    }
    for name in [&b"below"[..], b"after", b"cal/", b""] {
        unmet += hold("align 65,536", &whole, name, unnamed(5));
    }
    // A place with the magic that is ill formed, at 30 times 65,536.
    let mut untaken = whole.clone();
    untaken[30 * WIDE..][..8].copy_from_slice(b"LARCHIVE");
    unmet += hold("untaken magic", &untaken, b"last", [5, 5, 4_063_232, 4_063_232, refused(12, 1_966_080)]);
    // The magic between places is none.
    let mut between = whole.clone();
    between[30 * WIDE + 16..][..8].copy_from_slice(b"LARCHIVE");
    unmet += hold("magic between places", &between, b"last", at(5, 4_063_232));
    // A component inside another's span, at 5 times 65,536: the plain walk takes the outer one, the guarded walk the inner one.
    let mut inside = whole.clone();
    put(&mut inside, 5 * WIDE, b"inner", 8);
    for (name, places) in
        [(&b"cal/13"[..], [262_144, refused(10, 0)]), (b"inner", [refused(10, 0), 327_680]), (b"last", [4_063_232, 4_063_232])]
    {
        unmet += hold("inside a span", &inside, name, [5, 5, places[0], places[1], refused(12, 327_680)]);
    }
    // A name that two components bear.
    let mut twice = whole.clone();
    put(&mut twice, 40 * WIDE, b"cal/12", 3);
    unmet += hold("twice", &twice, b"cal/12", [6, 6, 196_608, refused(11, 0), refused(11, 0)]);
    unmet += hold("twice", &twice, b"cal/14", [6, 6, 393_216, 393_216, refused(11, 0)]);
    // The last span one byte longer passes the region's end.
    let mut past = whole;
    put(&mut past, 62 * WIDE, b"last", WIDE - 1000 - 39);
    unmet += hold("past the region", &past, b"last", [4, 4, refused(10, 0), refused(10, 0), refused(12, 4_063_232)]);
    unmet
}

// Align and offset beside their limits, in an image of 1 MiB; the region ends with 15 times 65,536.
fn aligns() -> usize {
    let mut unmet = 0;
    let length = 1 << 20;
    for (align, start, refusal) in [
        (WIDE, 0, 0),
        (WIDE, WIDE, 0),
        (WIDE, 15 * WIDE, 0),
        (16, 16, 0),
        (2 * WIDE, 0, 7),
        (WIDE + 16, 0, 7),
        (8, 0, 7),
        (0, 0, 7),
        (WIDE, WIDE / 2, 8),
        (WIDE, 16 * WIDE, 8),
        (16, 15 * WIDE + 16, 8),
    ] {
        let image = blank(length, WIDE, align, start, 0);
        unmet += hold("align and offset", &image, b"a", if refusal == 0 { unnamed(0) } else { all(refusal) });
    }
    unmet
}

// So many components, c0 and on, one at each place from the first.
fn crowd(number: usize, align: usize) -> Vec<u8> {
    let mut image = blank(MOST, 1024, align, 0, 0xFF);
    for k in 0..number {
        put_whole(&mut image, k * align, format!("c{k}").as_bytes(), 3, &[0; 16]);
    }
    image
}

// Asks for the k-th place of the directory, on both sides.
fn hold_place(image: &[u8], k: usize, expected: u64) -> usize {
    let (answer, plain) = (ours::strict_place(image, k), plain::strict_place(image, k));
    let differing = counted((usize::from(answer != plain), 1));
    if answer == expected {
        HELD.fetch_add(1, Ordering::Relaxed);
        return differing;
    }
    println!("UNMET: place {k} of the directory: {answer:#x}, and {expected:#x} expected; plain Rust: {plain:#x}");
    differing + 1
}

// 1,024 components are accepted, and 1,025 are not; 256 and 257 stand for the limit before. One stands at each place that align 65,536 can have, or closer.
fn counts() -> usize {
    let mut unmet = 0;
    for (number, align, good) in [
        (256, WIDE, true),
        (256, 4096, true),
        (257, 4096, true),
        (1_023, 4096, true),
        (1_024, 4096, true),
        (1_025, 4096, false),
        (4_000, 4096, false),
    ] {
        let image = crowd(number, align);
        let n = number as u64;
        let strict = if good { n } else { refused(13, 0) };
        let last = (n - 1) * align as u64;
        unmet += hold("count", &image, format!("c{}", number - 1).as_bytes(), [n, n, last, last, strict]);
        for k in [0, 254, 255, 256, 257, 1_022, 1_023, 1_024] {
            let place = if k < number { (k * align) as u64 } else { 0 };
            unmet += hold_place(&image, k, if good { place } else { refused(13, 0) });
        }
    }
    // The last one has the first one's name: 11 at 1,024, and 13 at 1,025. With the magic where no component is it is 12 at both.
    for (number, strict) in [(1_024, 11), (1_025, 13)] {
        let (n, mut twice) = (number as u64, crowd(number, 4096));
        put_whole(&mut twice, (number - 1) * 4096, b"c0", 3, &[0; 16]);
        unmet += hold("count, twice", &twice, b"c0", [n, n, 0, refused(11, 0), refused(strict, 0)]);
        twice[8_192_000..][..8].copy_from_slice(b"LARCHIVE");
        unmet += hold("count, untaken magic", &twice, b"c0", [n, n, 0, refused(11, 0), refused(12, 8_192_000)]);
    }
    unmet
}

// The image with a component written over a slot, which states the sum, and 0xFF after it.
fn written(image: &[u8], slot: Range<usize>, name: &[u8], kind: u32, content: &[u8], sum: u32) -> Vec<u8> {
    let mut after = cleared(image, slot.clone());
    put_whole(&mut after, slot.start, name, kind, content);
    state(&mut after, slot.start, sum);
    after
}

fn cleared(image: &[u8], slot: Range<usize>) -> Vec<u8> {
    let mut after = image.to_vec();
    after[slot].fill(0xFF);
    after
}

const KIND: u32 = 0x50;

// Carries out an edit on a copy of the image: Some(after) where it is done, and None where it is refused and leaves the image as it is.
fn hold_edit(image: &[u8], edit: usize, name: &[u8], content: &[u8], expected: u64, after: Option<Vec<u8>>) -> usize {
    let request = Request { name: name.to_vec(), kind: KIND, content: content.to_vec() };
    let mut edited = image.to_vec();
    let (answer, agree) = carried_out(edit, &mut edited, &mut Vec::new(), &request);
    let differing = counted((usize::from(!agree), 1));
    if answer == expected && edited == after.as_deref().unwrap_or(image) {
        HELD.fetch_add(1, Ordering::Relaxed);
        return differing;
    }
    println!("UNMET: {} {name:?}, {} bytes: {answer:#x}, and {expected:#x} expected, or other bytes", EDITS[edit], image.len());
    differing + 1
}

// Bench image A of document 01. No sums are stated.
fn bench_image() -> Vec<u8> {
    let mut a = blank(4096, 1024, 64, 0, 0xFF);
    put_whole(&mut a, 0, b"cal/12", u32::MAX, &[0; 100]);
    put_whole(&mut a, 192, b"cal/13", u32::MAX, &[0; 24]);
    a
}

// The same with sums.
fn summed(twelve: u32, thirteen: u32) -> Vec<u8> {
    let mut a = bench_image();
    state(&mut a, 0, twelve);
    state(&mut a, 192, thirteen);
    a
}

// Asks the calls that the five do not reach: what a plain and a guarded step from 0 take, how long the name and the content at 0 are, and how long
// what the lookups of cal/12 give.
fn hold_parts(image: &[u8], answers: [u64; 6]) -> usize {
    let name = b"cal/12";
    let steps = [ours::plain_step(image, 0), ours::guarded_step(image, 0)];
    let parts =
        [ours::name_at(image, 0), ours::content_at(image, 0), ours::plain_lookup(image, name), ours::guarded_lookup(image, name)];
    let unmet = [&steps[..], &parts].concat().iter().zip(answers).filter(|(&a, b)| a != *b).count();
    if unmet > 0 {
        println!("UNMET: steps and parts at 0: {steps:?}, {parts:?}, and {answers:?} expected");
    }
    HELD.fetch_add(answers.len() - unmet, Ordering::Relaxed);
    unmet
}

// What bench image A answers with sums. Of cal/12 it is 2200: 590 of the magic, 100, 1020, 40, and 450 of the name; of cal/13 2125.
fn sums_of_a() -> usize {
    let (none, at_first) = (refused(10, 0), refused(12, 0));
    let mut unmet = 0;
    for [twelve, thirteen] in [[2200, 2125], [2200, 0], [0, 2125], [0, 0]] {
        let image = summed(twelve, thirteen);
        unmet += hold("right sums", &image, b"cal/12", at(2, 0));
        unmet += hold("right sums", &image, b"cal/13", at(2, 192));
        unmet += hold_parts(&image, [0, 0, 6, 100, 100, 100]);
    }
    // One more or less, the four bytes turned round or moved up, their own sum (of 8 and 152) added, and 16 bits alone.
    for wrong in [2199, 2201, 1, u32::MAX, 2200 + 255, 2200 + 256, 2200 + 65_536, 2200 + (1 << 24), 0x9808_0000, 2200 << 16, 2360]
    {
        let image = summed(wrong, 2125);
        unmet += hold("a wrong sum", &image, b"cal/12", [1, 1, none, none, at_first]);
        unmet += hold("a wrong sum", &image, b"cal/13", [1, 1, 192, 192, at_first]);
        unmet += hold_parts(&image, [192, 192, 0, 0, 0, 0]);
        for edit in [ADD, REPLACE, REMOVE] {
            unmet += hold_edit(&image, edit, b"cal/13", b"", at_first, None);
        }
    }
    for wrong in [2124, 2126] {
        unmet += hold("a wrong sum", &summed(2200, wrong), b"cal/12", [1, 1, 0, 0, refused(12, 192)]);
        unmet += hold("a wrong sum", &summed(2200, wrong), b"cal/13", [1, 1, none, none, refused(12, 192)]);
        unmet += hold("wrong sums", &summed(2201, wrong), b"cal/13", [0, 0, none, none, at_first]);
    }
    // With cal/12's name made cal/13 its sum is 2201. Where it states another, one component has the name cal/13.
    for (sum, places, strict) in [(2201, [0, refused(11, 0)], refused(11, 0)), (2200, [192, 192], at_first)] {
        let mut twice = summed(sum, 2125);
        twice[29] = b'3';
        let listed = if sum == 2201 { 2 } else { 1 };
        unmet += hold("twice", &twice, b"cal/13", [listed, listed, places[0], places[1], strict]);
    }
    unmet + sums_of_500()
}

// With cal/12's len made 500 its span goes to 540, and holds cal/13. Its sum is 90,150 where cal/13 states none; else the bytes of what cal/13
// states are added.
fn sums_of_500() -> usize {
    let (none, inside, at_first) = (refused(10, 0), refused(12, 192), refused(12, 0));
    let mut unmet = 0;
    // The sums; how many components the listings have; the places of cal/12 and cal/13 by both lookups; and the strict check.
    let cases = [
        ([90_150, 0], [1, 1], [0, none], [none, 192], inside),
        ([0, 0], [1, 1], [0, none], [none, 192], inside),
        ([90_151, 0], [1, 1], [none, none], [192, 192], at_first),
        ([90_149, 0], [1, 1], [none, none], [192, 192], at_first),
        ([90_235, 2125], [1, 1], [0, none], [none, 192], inside),
        ([90_150, 2125], [1, 1], [none, none], [192, 192], at_first),
        ([90_236, 2126], [1, 0], [0, none], [none, none], inside),
        ([90_235, 2126], [0, 0], [none, none], [none, none], at_first),
    ];
    for (sums, listed, twelve, thirteen, strict) in cases {
        let mut image = summed(sums[0], sums[1]);
        image[8..12].copy_from_slice(&500u32.to_be_bytes());
        unmet += hold("len 500", &image, b"cal/12", [listed[0], listed[1], twelve[0], twelve[1], strict]);
        unmet += hold("len 500", &image, b"cal/13", [listed[0], listed[1], thirteen[0], thirteen[1], strict]);
        for edit in [ADD, REPLACE, REMOVE] {
            unmet += hold_edit(&image, edit, b"cal/12", b"", strict, None);
        }
    }
    unmet
}

// One component of 0xFF bytes fills the largest region, up to the last 36 bytes of 16,777,216: 255 times 16,777,140, and 590 of the magic, 690 of
// the length, 40 of the offset and 313 of the name; 80 of the type where it is added.
fn largest_sum() -> usize {
    let mut unmet = 0;
    for align in [16, 64, WIDE] {
        let free = blank(MOST, 36, align, 0, 0xFF);
        let mut image = free.clone();
        put(&mut image, 0, b"all", 16_777_140);
        for (sum, good) in [(4_278_172_333, true), (0, true), (4_278_172_332, false), (4_278_172_334, false), (u32::MAX, false)] {
            state(&mut image, 0, sum);
            let (none, refused_untaken) = (refused(10, 0), refused(12, 0));
            unmet += hold("largest", &image, b"all", if good { at(1, 0) } else { [0, 0, none, none, refused_untaken] });
        }
        let content = vec![0xFF; 16_777_140];
        let added = written(&free, 0..MOST - 36, b"all", KIND, &content, 4_278_172_413);
        unmet += hold_edit(&free, ADD, b"all", &content, 0, Some(added.clone()));
        unmet += hold("largest, added", &added, b"all", at(1, 0));
    }
    unmet
}

// What document 01 says of edits of bench image A. With sums stated before it is the same: only the component that is written states another.
fn edits_of_a() -> usize {
    edits_of(bench_image()) + edits_of(summed(2200, 2125)) + edits_of(summed(0, 2125))
}

fn edits_of(a: Vec<u8>) -> usize {
    let of = |n: usize| vec![7; n];
    let magic_at = |n: usize| [&vec![7; n], &b"LARCHIVE"[..]].concat();
    let new = |slot: Range<usize>, name: &[u8], content: &[u8], sum| Some(written(&a, slot, name, KIND, content, sum));
    let whole = Some(written(&a, 0..192, b"cal/12", u32::MAX, &of(152), 3316));
    let short = Some(written(&a, 192..3072, b"cal/13", u32::MAX, b"", 2101));
    let long = [b'n'; 256];
    let hold = |edit, name: &[u8], content: &[u8], expected, after| hold_edit(&a, edit, name, content, expected, after);
    let mut unmet = 0;
    unmet += hold(REPLACE, b"cal/12", &of(152), 0, whole);
    unmet += hold(REPLACE, b"cal/12", &of(153), refused(17, 0), None);
    unmet += hold(REPLACE, b"cal/13", b"", 192, short);
    unmet += hold(REPLACE, b"cal/1", b"", refused(10, 0), None);
    unmet += hold(REPLACE, b"cal/12", &magic_at(24), refused(16, 0), None);
    unmet += hold(REMOVE, b"cal/12", b"", 0, Some(cleared(&a, 0..192)));
    unmet += hold(REMOVE, b"cal/13", b"", 192, Some(cleared(&a, 192..3072)));
    unmet += hold(REMOVE, b"cal/1", b"", refused(10, 0), None);
    unmet += hold(ADD, b"log", &of(2776), 256, new(256..3072, b"log", &of(2776), 20_690));
    unmet += hold(ADD, b"log", &of(2777), refused(17, 0), None);
    unmet += hold(ADD, b"log", &magic_at(24), refused(16, 0), None);
    unmet += hold(ADD, b"log", &magic_at(25), 256, new(256..3072, b"log", &magic_at(25), 1830));
    unmet += hold(ADD, b"xxxxxxxxLARCHIVE", b"", 256, new(256..3072, b"xxxxxxxxLARCHIVE", b"", 2276));
    unmet += hold(ADD, &long[1..], &of(9), 256, new(256..3072, &long[1..], &of(9), 28_817));
    for name in [&b""[..], &long, b"a b", b"a\x7F", b"a\0"] {
        unmet += hold(ADD, name, b"", refused(14, 0), None);
    }
    unmet += hold(ADD, b"cal/13", b"", refused(15, 0), None);
    // At align 16 byte 32 is a place.
    let fine = blank(4096, 1024, 16, 0, 0xFF);
    unmet += hold_edit(&fine, ADD, b"xxxxxxxxLARCHIVE", b"", refused(16, 0), None);
    // A name that two components have, and the magic where no component is.
    let (mut twice, mut untaken) = (a.clone(), a.clone());
    twice[29] = b'3';
    state(&mut twice, 0, 2201);
    untaken[2048..][..8].copy_from_slice(b"LARCHIVE");
    for edit in [ADD, REPLACE, REMOVE] {
        unmet += hold_edit(&twice, edit, b"cal/13", b"", refused(11, 0), None);
        unmet += hold_edit(&untaken, edit, b"cal/13", b"", refused(12, 2048), None);
    }
    unmet
}

// Places are counted from the image's start, and not from the region's, which begins at byte 128.
fn edits_at_offset() -> usize {
    let mut image = blank(4096, 1024, 64, 128, 0xFF);
    put_whole(&mut image, 128, b"cal/12", 3, &[0; 100]);
    let mut untaken = image.clone();
    untaken[1024..][..8].copy_from_slice(b"LARCHIVE");
    let added = Some(written(&image, 320..3072, b"log", KIND, b"new", 1365));
    let replaced = Some(written(&image, 128..3072, b"cal/12", 3, b"new", 1416));
    hold_edit(&image, ADD, b"log", b"new", 320, added)
        + hold_edit(&image, REPLACE, b"cal/12", b"new", 128, replaced)
        + hold_edit(&image, REMOVE, b"cal/12", b"", 128, Some(cleared(&image, 128..3072)))
        + hold_edit(&untaken, ADD, b"log", b"new", refused(12, 1024), None)
}

// An add is done beside 1,023 components, and refused beside 1,024; the other edits are done there. Beside 1,025 all are refused.
fn edits_at_count() -> usize {
    let mut unmet = 0;
    let thirteen = refused(13, 0);
    for (number, place, others) in [
        (255, 1_044_480, 8192),
        (256, 1_048_576, 8192),
        (257, 1_052_672, 8192),
        (1_023, 4_190_208, 8192),
        (1_024, thirteen, 8192),
        (1_025, thirteen, thirteen),
    ] {
        let image = crowd(number, 4096);
        let (slot, free) = (8192..12_288, number * 4096..MOST - 1024);
        let added = (place != thirteen).then(|| written(&image, free, b"new", KIND, b"new", 1373));
        let replaced = (others != thirteen).then(|| written(&image, slot.clone(), b"c2", 3, b"new", 1115));
        let removed = (others != thirteen).then(|| cleared(&image, slot));
        unmet += hold_edit(&image, ADD, b"new", b"new", place, added);
        unmet += hold_edit(&image, REPLACE, b"c2", b"new", others, replaced);
        unmet += hold_edit(&image, REMOVE, b"c2", b"", others, removed);
    }
    unmet + edits_when_full()
}

// At 1,024 components: 14 and 15 come before 13, and 16 and 17 after it. What an add to 1,023 leaves takes no other.
fn edits_when_full() -> usize {
    let (mut full, room) = (crowd(1_024, 4096), crowd(1_023, 4096));
    let magic = [&[7; 4096 - 40][..], b"LARCHIVE"].concat();
    let thirteen = refused(13, 0);
    let mut unmet = 0;
    unmet += hold_edit(&full, ADD, b"a b", b"", refused(14, 0), None);
    unmet += hold_edit(&full, ADD, b"c1023", b"", refused(15, 0), None);
    unmet += hold_edit(&full, ADD, b"new", &magic, thirteen, None);
    unmet += hold_edit(&full, ADD, b"new", &vec![7; MOST], thirteen, None);
    unmet += hold_edit(&room, ADD, b"new", &magic, refused(16, 0), None);
    unmet += hold_edit(&room, ADD, b"new", &vec![7; MOST], refused(17, 0), None);
    let added = written(&room, 4_190_208..MOST - 1024, b"new", KIND, b"", 1040);
    unmet += hold("added", &added, b"new", at(1_024, 4_190_208));
    unmet += hold_edit(&added, ADD, b"more", b"", thirteen, None);
    put_whole(&mut full, 1_023 * 4096, b"c0", 3, &[0; 16]);
    unmet + hold_edit(&full, ADD, b"new", b"", refused(11, 0), None)
}

// How many answers at the boundaries are not what they must be, or differ from plain Rust.
pub fn unmet() -> usize {
    let walks = lengths() + pointers() + wide() + aligns() + counts() + sums_of_a() + largest_sum();
    walks + edits_of_a() + edits_at_offset() + edits_at_count()
}
