//! The bench cases of document 01 ("Bench image A"), each with its answer written out, and those of request 5 of document 02 on the same
//! image. A capability takes the ones that its operations allow.

use std::sync::Arc;

use crate::capability::Literal;
use crate::image::{a_stating, bench_a, image_a, lay, put, Frame, Raw};
use crate::protocol::Case;

/// What the listing program writes for image A.
pub const LISTING_A: &str = "place\tname\ttype\tlength\n0\tcal/12\tFFFFFFFF\t100\n192\tcal/13\tFFFFFFFF\t24\nend\t2\n";

/// What it writes for A with cal/12's len made 500, and for an empty region.
pub const LISTING_LONG: &str = "place\tname\ttype\tlength\n0\tcal/12\tFFFFFFFF\t500\nend\t1\n";
pub const LISTING_EMPTY: &str = "place\tname\ttype\tlength\nend\t0\n";

/// What it writes for A where cal/12's or cal/13's sum is wrong.
pub const LISTING_13: &str = "place\tname\ttype\tlength\n192\tcal/13\tFFFFFFFF\t24\nend\t1\n";
pub const LISTING_12: &str = "place\tname\ttype\tlength\n0\tcal/12\tFFFFFFFF\t100\nend\t1\n";

pub const CAL_12: &str = "63616c2f3132";
pub const CAL_13: &str = "63616c2f3133";

/// The sums of A's components. cal/12: LARCHIVE 590, len 100, type 1020, offset 40, name 450. cal/13: len 24 and name 451.
pub const SUM_12: u32 = 2200;
pub const SUM_13: u32 = 2125;

/// What cal/12 may not state.
#[rustfmt::skip]
pub const WRONG_12: [u32; 14] = [
    2199, 2201,     // one off
    1750,           // without the name
    450,            // without the header
    1610,           // without the magic
    2360,           // with its own bytes, 8 and 152
    2455,           // with the byte after its span
    152,            // cut to 8 bits
    67_736,         // 2^16 more
    16_779_416,     // 2^24 more
    2_550_661_120,  // little-endian
    4_294_965_096,  // 2^32 less the sum
    0xFFFF_FFFF,    // as in erased flash
    1,
];

/// What cal/13 may not state.
pub const WRONG_13: [u32; 4] = [2124, 2126, 2200, 67_661];

/// What the two may state.
pub const GOOD: [(u32, u32); 3] = [(SUM_12, SUM_13), (SUM_12, 0), (0, SUM_13)];

/// The sum of cal/12 with its len made 500, where cal/13 states none and where it states its own: above 2^16.
/// To 2345 of header and name come 52 and 284 bytes of 0xFF, and cal/13 whole.
pub const LONG_SUM: u32 = 90_150;
pub const LONG_SUM_OVER_SUM: u32 = 90_235;

/// What it may not state where cal/13 states none: one off, cut to 16 bits, the sum before, and the one where cal/13 states its own.
pub const WRONG_LONG: [u32; 5] = [90_149, 90_151, 24_614, 2200, 90_235];

/// A with cal/12's len made 500, and these checksums.
pub fn long_stating(first: u32, second: u32) -> Arc<Vec<u8>> {
    let mut image = a_stating(first, second);
    put(&mut image, 8, &500u32.to_be_bytes());
    Arc::new(image)
}

/// A with cal/12's name made cal/13, and this checksum in its header: 2201 is its sum now.
pub fn twice_stating(first: u32) -> Arc<Vec<u8>> {
    let mut image = a_stating(first, 0);
    put(&mut image, 24, b"cal/13");
    Arc::new(image)
}

/// A with 300 bytes 0xFF for cal/13's content, and this checksum. LARCHIVE 590, len 45, type 1020, offset 40, name 451, content 76,500.
pub fn wide_stating(second: u32) -> Arc<Vec<u8>> {
    let (frame, mut components) = bench_a();
    components[1].1 = Raw { checksum: second, ..Raw::new(b"cal/13", 0xFFFF_FFFF, &[0xFF; 300]) };
    Arc::new(lay(&frame, &components))
}

pub const WIDE_SUM: u32 = 78_646;

/// One off, cut to 16 bits, and without the content.
pub const WRONG_WIDE: [u32; 4] = [78_645, 78_647, 13_110, 2_146];

/// A with changes to its frame alone.
pub fn reframed(change: fn(&mut Frame)) -> Arc<Vec<u8>> {
    let (mut frame, components) = bench_a();
    change(&mut frame);
    Arc::new(lay(&frame, &components))
}

/// A with cal/12's len made 500.
pub fn long_cal_12() -> Arc<Vec<u8>> {
    let mut image = image_a();
    put(&mut image, 8, &500u32.to_be_bytes());
    Arc::new(image)
}

/// A with cal/12's name made cal/13.
pub fn twice_cal_13() -> Arc<Vec<u8>> {
    let mut image = image_a();
    put(&mut image, 24, b"cal/13");
    Arc::new(image)
}

/// cal/12's content when its len is 500, in hexadecimal: its own 100 bytes, the gap, cal/13 whole with its checksum, what follows.
fn long_content(checksum: &str) -> String {
    let mut text = "00".repeat(100);
    text += &"ff".repeat(52);
    text += &format!("4c4152434849564500000018ffffffff{checksum}00000028");
    text += "63616c2f313300000000000000000000";
    text += &"00".repeat(24);
    text += &"ff".repeat(284);
    text
}

fn ask(op: u8, image: &Arc<Vec<u8>>) -> Case {
    Case::new(op, image, "bench")
}

/// The bench cases that the plain calls allow.
pub fn plain() -> Vec<Literal> {
    let mut list = Vec::new();
    let mut add = |case: Case, answer: String| list.push(Literal { case, answer });
    on_a(&mut add);
    frames(&mut add);
    spans(&mut add);
    variants(&mut add);
    sums(&mut add);
    list
}

type Add<'a> = &'a mut dyn FnMut(Case, String);

/// The two components of A, as a listing and a step report them.
fn rows_of_a() -> (String, String) {
    let first = format!("0\t4294967295\t{CAL_12}\t{}", "00".repeat(100));
    let second = format!("192\t4294967295\t{CAL_13}\t{}", "00".repeat(24));
    (first, second)
}

/// Image A itself. P 0xFFFFFFDC is read.
fn on_a(add: Add) {
    let a = Arc::new(image_a());
    let (first, second) = rows_of_a();
    add(ask(b'm', &a), "region\t0\t3072\t64\n".into());
    add(ask(b'p', &a), format!("component\t{first}\ncomponent\t{second}\nend\t2\n"));
    for (from, answer) in [
        (0, format!("taken\t{first}\t192\n")),
        (64, format!("taken\t{second}\t256\n")),
        (192, format!("taken\t{second}\t256\n")),
        (256, "none\n".into()),
        (3072, "none\n".into()),
        (3073, "refused\t9\t0\t0\n".into()),
        (63, "refused\t9\t0\t0\n".into()),
    ] {
        add(ask(b'i', &a).numbered(from), answer);
    }
    add(ask(b'l', &a).named(b"cal/12"), format!("found\t0\t4294967295\t{}\n", "00".repeat(100)));
    add(ask(b'l', &a).named(b"cal/13"), format!("found\t192\t4294967295\t{}\n", "00".repeat(24)));
    // cal/1 is not cal/12.
    for name in [&b"cal/1"[..], b"cal/123", b"cal/12\0", b""] {
        add(ask(b'l', &a).named(name), "refused\t10\t0\t0\n".into());
    }
}

/// A with other numbers in its master header.
fn frames(add: Add) {
    // P 0xFFFFFFDD: 2, wherever the header stands.
    let mut left = image_a();
    put(&mut left, 4092, &0xFFFF_FFDDu32.to_le_bytes());
    let empty = reframed(|frame| frame.boot = 4096);
    let empty_above = reframed(|frame| frame.offset = 3072);
    for (image, region) in [
        (&reframed(|frame| frame.pointer = 0xFFFF_FFDD), "refused\t2\t0\t0\n"),
        (&Arc::new(left), "refused\t2\t0\t0\n"),
        (&reframed(|frame| frame.boot = 36), "region\t0\t4060\t64\n"),
        (&reframed(|frame| frame.boot = 35), "refused\t6\t0\t0\n"),
        (&reframed(|frame| frame.align = 16), "region\t0\t3072\t16\n"),
        (&reframed(|frame| frame.align = 8), "refused\t7\t0\t0\n"),
        (&reframed(|frame| frame.align = 48), "refused\t7\t0\t0\n"),
        (&reframed(|frame| frame.align = 131_072), "refused\t7\t0\t0\n"),
        (&empty, "region\t0\t0\t64\n"),
        (&empty_above, "region\t3072\t3072\t64\n"),
    ] {
        add(ask(b'm', image), region.into());
    }
    // Empty region: an empty listing.
    for (image, from) in [(&empty, 0), (&empty_above, 3072)] {
        add(ask(b'p', image), "end\t0\n".into());
        add(ask(b'l', image).named(b"cal/12"), "refused\t10\t0\t0\n".into());
        add(ask(b'i', image).numbered(from), "none\n".into());
    }
}

/// Where the next place is.
fn spans(add: Add) {
    let (first, second) = rows_of_a();
    let wide = reframed(|frame| frame.boot = 36);
    add(ask(b'p', &wide), format!("component\t{first}\ncomponent\t{second}\nend\t2\n"));
    add(ask(b'i', &reframed(|frame| frame.align = 16)), format!("taken\t{first}\t144\n"));
    // Span of 1052 at 0 with align 1024: next place 2048.
    let frame = Frame::new(4096, 36, 1024, 1024, 0);
    let span = Arc::new(lay(&frame, &[(0, Raw::new(b"long", 0x50, &[0x5A; 1012]))]));
    add(ask(b'i', &span), format!("taken\t0\t80\t6c6f6e67\t{}\t2048\n", "5a".repeat(1012)));
    add(ask(b'i', &span).numbered(2048), "none\n".into());
}

/// A with cal/12 changed.
fn variants(add: Add) {
    // Len made 500: the plain listing loses cal/13.
    let long = long_cal_12();
    let lost = format!("0\t4294967295\t{CAL_12}\t{}", long_content("00000000"));
    add(ask(b'p', &long), format!("component\t{lost}\nend\t1\n"));
    add(ask(b'i', &long), format!("taken\t{lost}\t576\n"));
    add(ask(b'l', &long).named(b"cal/13"), "refused\t10\t0\t0\n".into());
    // Name made cal/13: plain lookup gives place 0.
    let twice = twice_cal_13();
    add(ask(b'l', &twice).named(b"cal/13"), format!("found\t0\t4294967295\t{}\n", "00".repeat(100)));
    add(ask(b'l', &twice).named(b"cal/12"), "refused\t10\t0\t0\n".into());
}

/// A with sums stated, by request 5 of document 02.
fn sums(add: Add) {
    let (first, second) = rows_of_a();
    for (one, other) in GOOD {
        let image = Arc::new(a_stating(one, other));
        add(ask(b'p', &image), format!("component\t{first}\ncomponent\t{second}\nend\t2\n"));
        add(ask(b'i', &image), format!("taken\t{first}\t192\n"));
        add(ask(b'i', &image).numbered(64), format!("taken\t{second}\t256\n"));
        add(ask(b'l', &image).named(b"cal/12"), format!("found\t0\t4294967295\t{}\n", "00".repeat(100)));
        add(ask(b'l', &image).named(b"cal/13"), format!("found\t192\t4294967295\t{}\n", "00".repeat(24)));
    }
    // A wrong sum: the walk goes one align further.
    for wrong in WRONG_12 {
        let image = Arc::new(a_stating(wrong, SUM_13));
        add(ask(b'p', &image), format!("component\t{second}\nend\t1\n"));
        add(ask(b'i', &image), format!("taken\t{second}\t256\n"));
        add(ask(b'l', &image).named(b"cal/12"), "refused\t10\t0\t0\n".into());
        add(ask(b'l', &image).named(b"cal/13"), format!("found\t192\t4294967295\t{}\n", "00".repeat(24)));
    }
    for wrong in WRONG_13 {
        let image = Arc::new(a_stating(SUM_12, wrong));
        add(ask(b'p', &image), format!("component\t{first}\nend\t1\n"));
        add(ask(b'i', &image).numbered(64), "none\n".into());
        add(ask(b'l', &image).named(b"cal/13"), "refused\t10\t0\t0\n".into());
    }
    add(ask(b'p', &Arc::new(a_stating(SUM_12 - 1, SUM_13 + 1))), "end\t0\n".into());
    // Len made 500: with its sum the plain walk takes it and loses cal/13, with a wrong one it comes to cal/13.
    for (one, other, inner) in [(LONG_SUM, 0, "00000000"), (LONG_SUM_OVER_SUM, SUM_13, "0000084d")] {
        let long = long_stating(one, other);
        let lost = format!("0\t4294967295\t{CAL_12}\t{}", long_content(inner));
        add(ask(b'p', &long), format!("component\t{lost}\nend\t1\n"));
        add(ask(b'i', &long), format!("taken\t{lost}\t576\n"));
        add(ask(b'l', &long).named(b"cal/13"), "refused\t10\t0\t0\n".into());
    }
    for wrong in WRONG_LONG {
        let long = long_stating(wrong, 0);
        add(ask(b'p', &long), format!("component\t{second}\nend\t1\n"));
        add(ask(b'i', &long), format!("taken\t{second}\t256\n"));
        add(ask(b'l', &long).named(b"cal/12"), "refused\t10\t0\t0\n".into());
    }
    // Name made cal/13: the sum that was right is so no longer.
    for (stated, place, fill) in [(2201, 0, 100), (2200, 192, 24)] {
        let found = format!("found\t{place}\t4294967295\t{}\n", "00".repeat(fill));
        add(ask(b'l', &twice_stating(stated)).named(b"cal/13"), found);
    }
    // A sum above 2^16.
    let wide = format!("found\t192\t4294967295\t{}\n", "ff".repeat(300));
    add(ask(b'l', &wide_stating(WIDE_SUM)).named(b"cal/13"), wide);
    for wrong in WRONG_WIDE {
        add(ask(b'l', &wide_stating(wrong)).named(b"cal/13"), "refused\t10\t0\t0\n".into());
    }
}

/// Inputs of the listing program with its output written out.
pub fn program() -> Vec<(Vec<u8>, String)> {
    vec![
        (image_a(), LISTING_A.into()),
        (long_cal_12().to_vec(), LISTING_LONG.into()),
        (reframed(|frame| frame.boot = 4096).to_vec(), LISTING_EMPTY.into()),
        (reframed(|frame| frame.pointer = 0xFFFF_FFDD).to_vec(), "refused\t2\n".into()),
        (reframed(|frame| frame.boot = 35).to_vec(), "refused\t6\n".into()),
        (reframed(|frame| frame.align = 48).to_vec(), "refused\t7\n".into()),
        (Vec::new(), "refused\t1\n".into()),
        (a_stating(SUM_12, SUM_13), LISTING_A.into()),
        (a_stating(SUM_12 + 1, SUM_13), LISTING_13.into()),
        (a_stating(SUM_12 - 1, 0), LISTING_13.into()),
        (a_stating(0, SUM_13 + 1), LISTING_12.into()),
        (a_stating(1, 1), LISTING_EMPTY.into()),
        (long_stating(LONG_SUM, 0).to_vec(), LISTING_LONG.into()),
        (long_stating(LONG_SUM - 1, 0).to_vec(), LISTING_13.into()),
    ]
}
