// Compares the edits of both sides on small images, whole and damaged, with names, contents and types at random, so that every outcome occurs; and
// with right sums, wrong ones and none.
use crate::answers::spoil;
use crate::edits::{carried_out, Request, EDITS, REMOVE};
use crate::images::{blank, put_whole, Random};
use crate::plain::LIMIT;
use crate::sums::{met, right_sum, state_all, state_some, stated_at, wrong, Seen, Stated, WRONG};

// The outcomes of an edit but for refusals 1 to 8: done, which is 0, or a refusal.
const OUTCOMES: [&[usize]; 3] = [&[0, 11, 12, 13, 14, 15, 16, 17], &[0, 10, 11, 12, 13, 16, 17], &[0, 10, 11, 12, 13]];
// Fewest times that each of these must occur.
const FLOOR: usize = 100;
// How many edits are carried out on an image, one after the other.
const EACH: usize = 4;
// What else must occur as often, for each edit.
const OCCURS: [&str; 4] = ["done beside a right sum", "beside none", "beside both", "refused for a wrong sum"];

// Few names, so that they meet; some are as long as they may be, or unfit.
fn some_name(random: &mut Random) -> Vec<u8> {
    match random.below(24) {
        0 => vec![],
        1 => vec![b'x'; [256, 257, 70_000][random.below(3)]],
        2 => vec![b'x'; 255],
        3 => vec![b'y'; 14 + random.below(4)],
        4 => vec![b'z', [0x20, 0x21, 0x7E, 0x7F, 0][random.below(5)]],
        5 => b"xxxxxxxxLARCHIVE"[random.below(2)..].to_vec(),
        _ => vec![b'a' + random.below(6) as u8, b'0' + random.below(3) as u8],
    }
}

// Now and then it holds the magic, at a place of the component or one byte beside.
fn some_content(random: &mut Random, align: usize, offset: usize) -> Vec<u8> {
    let most = if random.below(8) == 0 { 24 * align } else { 3 * align };
    let length = random.below(most);
    let mut content = random.bytes(length);
    let at = ((1 + random.below(3)) * align).saturating_sub(offset) + random.below(4) / 3;
    if random.below(3) == 0 && at + 8 <= content.len() {
        content[at..at + 8].copy_from_slice(b"LARCHIVE");
    }
    content
}

fn some_request(random: &mut Random, align: usize) -> Request {
    let name = some_name(random);
    let content = some_content(random, align, 40 + name.len() / 16 * 16);
    Request { name, kind: random.next() as u32, content }
}

// An image with components one after the other, up to two places apart, and its alignment. One in forty has as many as are allowed, or one less or more;
// one in 160 has 255 to 257, which was the limit of document 01.
fn some_image(random: &mut Random) -> (Vec<u8>, usize) {
    let kind = random.below(160);
    let many = kind < 5;
    let align = if many { 16 } else { 16 << random.below(7) };
    let number = match kind {
        0..=3 => LIMIT - 1 + random.below(3),
        4 => 255 + random.below(3),
        _ => random.below(10),
    };
    let (start, bootblock) = (random.below(3) * align, 36 + random.below(64));
    let end = start + 48 * number + (2 + random.below(30)) * align + random.below(align);
    let mut image = blank(end + bootblock, bootblock, align, start, [0, 0xFF][random.below(2)]);
    let mut place = start;
    let mut taken = Vec::new();
    for k in 0..number {
        let twice = k > 0 && random.below(50 * number) == 0;
        let name = if many { format!("c{}", k - usize::from(twice)).into_bytes() } else { some_name(random) };
        let length = if many { 8 } else { random.below(2 * align) };
        let span = 40 + name.len() / 16 * 16 + length;
        if name.is_empty() || place + span > end {
            continue;
        }
        let content = random.bytes(length);
        put_whole(&mut image, place, &name, random.next() as u32, &content);
        taken.push(place);
        let apart = if many { 0 } else { random.below(3) * align };
        place += span.next_multiple_of(align) + apart;
    }
    // Most images state right sums or none; in one of ten, one is wrong.
    let moods = [&[Stated::Nothing][..], &[Stated::Right], &[Stated::Right, Stated::Nothing]];
    let mood = moods[random.below(moods.len())];
    state_all(&mut image, &mut taken, mood, random);
    if !taken.is_empty() && random.below(10) == 0 {
        let place = taken[random.below(taken.len())];
        state_some(&mut image, place, Stated::Wrong, random);
    }
    match random.below(8) {
        0 => spoil(&mut image, random, 1, align, start, end),
        1 => {
            let at = image.len() - 1 - random.below(36);
            image[at] ^= 1 << random.below(8);
        }
        _ => {}
    }
    (image, align)
}

// How many edits differ, or outcomes occur too seldom; and how many edits were compared.
pub fn differing(images: usize) -> (usize, usize) {
    let mut differing = 0;
    let mut random = Random::new(17);
    let mut copy = Vec::new();
    let mut seen = [[0; 18]; EDITS.len()];
    let (mut occurs, mut wrongs) = (EDITS.map(|_| Seen::new(OCCURS)), Seen::new(WRONG));
    for _ in 0..images {
        let (mut image, align) = some_image(&mut random);
        for _ in 0..EACH {
            let edit = random.below(EDITS.len());
            let request = some_request(&mut random, align);
            let before = met(&image);
            let (answer, agree) = carried_out(edit, &mut image, &mut copy, &request);
            let (refusal, place) = ((answer >> 32) as usize, answer as u32 as usize);
            let done = refusal == 0;
            // What is written states the sum of its bytes.
            let unsummed = done && edit != REMOVE && right_sum(&image, place) != Some(stated_at(&image, place));
            if unsummed {
                println!("DIFFER: {}, {} bytes: the sum at {place} is not the right one", EDITS[edit], image.len());
            }
            differing += usize::from(!agree || unsummed);
            seen[edit][refusal % 18] += 1;
            let beside = |stated| done && before.iter().any(|m| m.stated == stated);
            let (right, nothing) = (beside(Stated::Right), beside(Stated::Nothing));
            let refused_untaken = before.iter().find(|m| refusal == 12 && m.place == place && m.stated == Stated::Wrong);
            occurs[edit].note([right, nothing, right && nothing, refused_untaken.is_some()]);
            wrongs.note(wrong(refused_untaken.into_iter()));
        }
    }
    differing += EDITS.iter().zip(occurs).map(|(edit, occurs)| occurs.seldom(&format!("sums, {edit}"), FLOOR)).sum::<usize>();
    differing += wrongs.seldom("wrong sums in the edits", FLOOR);
    for ((edit, seen), outcomes) in EDITS.iter().zip(seen).zip(OUTCOMES) {
        for &outcome in outcomes.iter().filter(|&&outcome| seen[outcome] < FLOOR) {
            println!("SELDOM: {edit}, outcome {outcome}: {} times, and at least {FLOOR} wanted", seen[outcome]);
            differing += 1;
        }
    }
    (differing, images * EACH)
}
