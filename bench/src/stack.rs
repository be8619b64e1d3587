// Measures the stack of each public call: a thread's stack is painted, the call is made, and the lowest byte that changed tells how deep it went.
use crate::images::{blank, name_of, put, put_whole, BOOTBLOCK};
use crate::ours;
use crate::plain::LIMIT;
use crate::sums::state_off;
use std::hint::black_box;
use std::thread;

// The most that a call may take, with as many components as are allowed.
const MOST: usize = 24 << 10;
// What a call may take besides its arrays. Then the arrays: the strict check's places, digests and their marks, a plan of 16 segments,
// a map of 256 areas.
const FRAMES: usize = 1 << 10;
const PLACES: usize = 8 * LIMIT;
const DIGESTS: usize = 4 * LIMIT;
const MARKS: usize = 2048;
const PLAN: usize = 40 * 16;
const AREAS: usize = 32 * 256;
// The thread's stack, and how much of it is painted.
const STACK: usize = 1 << 20;
const PAINTED: usize = 256 << 10;
// Between the frame that paints and the paint. The frame of `called` covers it, so that what is called begins in the paint.
const GAP: usize = 1 << 10;

// What a call is made with, and what it must answer: each takes what it needs.
#[derive(Clone, Copy)]
struct Input<'a> {
    image: &'a [u8],
    name: &'a [u8],
    number: usize,
    content: &'a [u8],
    answer: u64,
}

type Call = fn(&mut [u8], &Input) -> u64;

#[inline(never)]
fn called(call: Call, image: &mut [u8], input: &Input) -> u64 {
    let gap = [0u8; 2 * GAP];
    black_box(&gap);
    let answer = call(image, input);
    black_box(&gap);
    answer
}

// The call's answer, and how many bytes below this frame it changed.
#[inline(never)]
fn painted(paint: u8, call: Call, image: &mut [u8], input: &Input) -> (u64, usize) {
    let here = 0u8;
    let frame = black_box(&here) as *const u8 as usize;
    let (low, top) = (frame - PAINTED, frame - GAP);
    for at in low..top {
        unsafe { std::ptr::write_volatile(at as *mut u8, paint) };
    }
    let answer = called(call, image, input);
    let changed = (low..top).find(|&at| unsafe { std::ptr::read_volatile(at as *const u8) } != paint);
    (answer, frame - changed.unwrap_or(top))
}

// The depth of a call on an input, in threads of its own and by two paints, since a byte that is written may be like the paint.
fn depth(label: &str, call: Call, input: &Input) -> Result<usize, String> {
    let mut most = 0;
    for paint in [0xA5, 0x5A] {
        let mut image = input.image.to_vec();
        let (answer, deep) = thread::scope(|scope| {
            let thread = thread::Builder::new().stack_size(STACK);
            let thread = thread.spawn_scoped(scope, || painted(paint, call, &mut image, input));
            thread.expect("a thread").join().expect("a depth")
        });
        if answer != input.answer {
            return Err(format!("{label} answers {answer:#x}, and {:#x} is expected", input.answer));
        }
        most = most.max(deep);
    }
    Ok(most)
}

const LENGTH: usize = 1 << 20;
const SLOT: usize = (LENGTH - BOOTBLOCK) / (LIMIT + 1) / 64 * 64;

// So many components, one to a slot, each with its sum.
fn filled(number: usize) -> Vec<u8> {
    let mut image = blank(LENGTH, BOOTBLOCK, 64, 0, 0xFF);
    for k in 0..number {
        put(&mut image, k * SLOT, &name_of(k), SLOT - 40);
        state_off(&mut image, k * SLOT, 0);
    }
    image
}

// A stage, and a payload of 16 segments, in a region that begins at byte 128.
fn loaded() -> Vec<u8> {
    let mut image = blank(64 << 10, BOOTBLOCK, 64, 128, 0xFF);
    let mut stage = [0; 28 + 64];
    stage[20] = 64;
    stage[24] = 64;
    put_whole(&mut image, 128, b"stage", 0x10, &stage);
    let mut payload = Vec::new();
    for k in 0..16u32 {
        // type and compression, then offset from the header, load_addr, len and mem_len
        payload.extend_from_slice(if k < 15 { b"CODE" } else { b"ENTR" });
        let numbers = [0, 40 + k, 0, k << 8, 16, 256];
        payload.extend(numbers.iter().flat_map(|n| n.to_be_bytes()));
    }
    put_whole(&mut image, 1024, b"payload", 0x20, &payload);
    [128, 1024].into_iter().for_each(|place| state_off(&mut image, place, 0));
    image
}

// Where the flash map stands.
const MAP: usize = 64;

// A flash map of 256 areas: the first is named FMAP and holds it, the others follow.
fn mapped() -> Vec<u8> {
    let mut image = vec![0xFF; 64 << 10];
    let length = image.len() as u32;
    let mut map = [&b"__FMAP__\x01\x01"[..], &[0; 8], &length.to_le_bytes(), &[0; 32], &256u16.to_le_bytes()].concat();
    for k in 0..256u32 {
        let (offset, size) = if k == 0 { (0, 16_384) } else { (16_384 + 64 * k, 64) };
        let mut name = if k == 0 { b"FMAP".to_vec() } else { format!("AREA{k}").into_bytes() };
        name.resize(32, 0);
        map.extend([&offset.to_le_bytes()[..], &u32::to_le_bytes(size), &name, &[0; 2]].concat());
    }
    image[MAP..][..map.len()].copy_from_slice(&map);
    image
}

// The images and the arguments.
struct Given {
    // as many components as are allowed; one more; one less; two with one name; a place with the magic and no component; a wrong sum in the last
    full: Vec<u8>,
    over: Vec<u8>,
    room: Vec<u8>,
    twice: Vec<u8>,
    untaken: Vec<u8>,
    wrong: Vec<u8>,
    loads: Vec<u8>,
    map: Vec<u8>,
    // the name of the last component; contents that fit its slot, that hold the magic, and that fit no slot
    last: Vec<u8>,
    fits: Vec<u8>,
    magic: Vec<u8>,
    long: Vec<u8>,
}

// Where the last component stands.
const LAST: usize = (LIMIT - 1) * SLOT;

fn given() -> Given {
    let (full, room) = (filled(LIMIT), filled(LIMIT - 1));
    let (mut twice, mut untaken, mut wrong) = (full.clone(), room.clone(), full.clone());
    put(&mut twice, SLOT, &name_of(0), SLOT - 40);
    untaken[LAST..][..8].copy_from_slice(b"LARCHIVE");
    state_off(&mut wrong, LAST, 1);
    let (last, fits, long) = (name_of(LIMIT - 1), vec![7; SLOT - 40], vec![7; LENGTH]);
    let magic = [&[7; 24], &b"LARCHIVE"[..]].concat();
    Given { full, over: filled(LIMIT + 1), room, twice, untaken, wrong, loads: loaded(), map: mapped(), last, fits, magic, long }
}

// A call with its inputs, and what its arrays may take.
struct Line<'a> {
    label: &'static str,
    call: Call,
    inputs: Vec<Input<'a>>,
    arrays: usize,
}

fn refused(number: u64) -> u64 {
    number << 32
}

fn lines(given: &Given) -> Vec<Line<'_>> {
    let Given { full, over, room, twice, untaken, wrong, loads, map, last, fits, magic, long } = given;
    let (place, held) = (LAST as u64, (SLOT - 40) as u64);
    let of = |image, name, number, content, answer| Input { image, name, number, content, answer };
    let by_number = |image, number, answer| of(image, &[][..], number, &[][..], answer);
    let by_name = |image, name, answer| of(image, name, 0, &[][..], answer);
    let edit = |image, name, content, answer| of(image, name, 0x50, content, answer);
    // The image is refused by 1; a part of it is empty.
    let (short, empty) = (|| of(&full[..63], last, 0, fits, refused(1)), || of(&full[..63], last, 0, &[], 0));
    let none_left = by_number(full, LENGTH - BOOTBLOCK, u64::from(u32::MAX));
    let unsummed = by_number(wrong, LAST, u64::from(u32::MAX));
    let step = || vec![by_number(full, LAST, place), unsummed, none_left, by_number(full, 1, refused(9)), short()];
    let find =
        || vec![by_name(full, last, place), by_name(wrong, last, refused(10)), by_name(full, b"none", refused(10)), short()];
    let lookup = || vec![by_name(full, last, held), by_name(wrong, last, 0), by_name(full, b"none", 0), empty()];
    let part = |length| vec![by_number(full, LAST, length), by_number(wrong, LAST, 0), by_number(full, 1, 0), empty()];
    let refused_untaken = refused(12) + place;
    let check = |k, answer| {
        let refusals = [by_number(over, k, refused(13)), by_number(twice, k, refused(11))];
        let places = [by_number(untaken, k, refused_untaken), by_number(wrong, k, refused_untaken)];
        [&[by_number(full, k, answer), short()], &refusals[..], &places].concat()
    };
    let add = vec![
        edit(room, b"new", fits, place),
        edit(full, b"new", fits, refused(13)),
        edit(room, b"new", magic, refused(16)),
        edit(room, b"new", long, refused(17)),
        edit(wrong, b"new", fits, refused_untaken),
        short(),
    ];
    let replace = vec![
        edit(full, last, fits, place),
        edit(full, b"none", fits, refused(10)),
        edit(full, last, magic, refused(16)),
        edit(full, last, long, refused(17)),
        edit(wrong, last, fits, refused_untaken),
        short(),
    ];
    let remove =
        vec![by_name(full, last, place), by_name(wrong, last, refused_untaken), by_name(full, b"none", refused(10)), short()];
    let stage = vec![by_name(loads, b"stage", 128 + 68), by_name(loads, b"payload", refused(18)), short()];
    let payload = |k, answer| vec![of(loads, b"payload", k, &[], answer), of(loads, b"stage", k, &[], refused(18)), short()];
    let areas = |k, answer| vec![by_number(map, k, answer), by_number(loads, k, refused(27)), short()];
    let map_at =
        |k, answer| vec![by_number(map, k, answer), by_number(loads, k, refused(29)), by_number(&map[..63], k, refused(29))];
    let line = |label, call, inputs| Line { label, call, inputs, arrays: 0 };
    let check_line = |label, call, inputs, kept| Line { label, call, inputs, arrays: PLACES + DIGESTS + MARKS + kept };
    let plan_line = |label, call, inputs| Line { label, call, inputs, arrays: 4 * PLAN };
    let map_line = |label, call, inputs| Line { label, call, inputs, arrays: 2 * AREAS };
    vec![
        line(
            "`region`",
            |i, _| ours::region(i),
            vec![by_number(full, 0, 0), by_number(map, 0, refused(2)), by_number(loads, 0, 128), short()],
        ),
        line("`plain_step`", |i, x| ours::plain_step(i, x.number), step()),
        line("`guarded_step`", |i, x| ours::guarded_step(i, x.number), step()),
        line("`plain_find`", |i, x| ours::plain_place(i, x.name), find()),
        line("`guarded_find`", |i, x| ours::guarded_place(i, x.name), find()),
        line("`plain_lookup`", |i, x| ours::plain_lookup(i, x.name), lookup()),
        line("`guarded_lookup`", |i, x| ours::guarded_lookup(i, x.name), lookup()),
        line("`name_at`", |i, x| ours::name_at(i, x.number), part(last.len() as u64)),
        line("`content_at`", |i, x| ours::content_at(i, x.number), part(held)),
        check_line("`strict_check`, its count", |i, _| ours::strict_count(i), check(0, LIMIT as u64), 0),
        check_line("`strict_check`, the directory kept", |i, x| ours::strict_place(i, x.number), check(LIMIT - 1, place), PLACES),
        check_line("`add`", |i, x| ours::add(i, x.name, x.number as u32, x.content), add, 0),
        check_line("`replace`", |i, x| ours::replace(i, x.name, x.content), replace, 0),
        check_line("`remove`", |i, x| ours::remove(i, x.name), remove, 0),
        line("`stage`", |i, x| ours::stage(i, x.name), stage),
        plan_line("`payload`, its count", |i, x| ours::payload(i, x.name), payload(0, 16)),
        plan_line("`payload`, the plan kept", |i, x| ours::segment(i, x.name, x.number), payload(14, 1024 + 54)),
        map_line("`fmap::read`, its count", |i, _| ours::fmap(i), areas(0, 256)),
        map_line("`fmap::read`, the map kept", |i, x| ours::area(i, x.number), areas(255, 16_384 + 64 * 255)),
        map_line("`fmap::map_at`, the map kept", |i, x| ours::map_at(i, MAP, i.len(), x.number), map_at(255, 16_384 + 64 * 255)),
        line("`fmap::name`", |i, x| ours::area_name(i, x.number), vec![by_number(map, MAP + 64, 4), by_number(map, 0, 0)]),
        line(
            "`fmap::signatures`",
            |i, _| ours::signatures(i),
            vec![by_number(map, 0, MAP as u64), by_number(loads, 0, refused(27))],
        ),
    ]
}

// The most that a call takes of its inputs, less what the harness takes by itself.
fn most(line: &Line, nothing: usize) -> Result<usize, String> {
    let depths = line.inputs.iter().map(|input| depth(line.label, line.call, input));
    Ok(depths.collect::<Result<Vec<usize>, String>>()?.into_iter().max().unwrap_or(0) - nothing)
}

// Prints the table. Says whether every call stays below its limit, and answers as it must.
pub fn good() -> bool {
    let given = given();
    let nothing = Input { image: &[], name: &[], number: 0, content: &[], answer: 0 };
    let nothing = depth("nothing", |_, _| 0, &nothing).expect("0");
    let mut bad = 0;
    println!("| call | stack, bytes | at most | goal |");
    println!("|---|---|---|---|");
    for line in lines(&given) {
        let most = most(&line, nothing);
        let limit = MOST.min(FRAMES + line.arrays);
        let goal = if most.as_ref().is_ok_and(|&bytes| bytes <= limit) { "met" } else { "MISSED" };
        bad += usize::from(goal != "met");
        println!("| {} | {} | {limit} | {goal} |", line.label, most.map_or_else(|unmet| unmet, |bytes| bytes.to_string()));
    }
    println!(
        "stack: at most {MOST} bytes a call, and the limits above: missed by {bad}; the harness takes {nothing} of its own, which are not counted"
    );
    bad == 0
}
