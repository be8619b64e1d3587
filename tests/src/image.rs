//! Builds images: the frame (master header and P) and raw components, right or wrong in any field.
//! Document 01, "Master header" and "Components and the two walks".

use crate::master::{self, Region};
use crate::rng::Rng;
use crate::walk::{self, LARCHIVE};

/// The numbers of a master header and P, as they shall stand in the image.
#[derive(Clone, Debug)]
pub struct Frame {
    pub length: usize,
    pub pointer: u32,
    pub magic: u32,
    pub version: u32,
    pub romsize: u32,
    pub boot: u32,
    pub align: u32,
    pub offset: u32,
    pub pads: [u32; 2],
}

impl Frame {
    /// A frame whose header stands `from_end` bytes before the image's end.
    pub fn new(length: usize, from_end: usize, boot: usize, align: usize, offset: usize) -> Frame {
        Frame {
            length,
            pointer: (from_end as u32).wrapping_neg(),
            magic: master::MAGIC,
            version: master::VERSION,
            romsize: length as u32,
            boot: boot as u32,
            align: align as u32,
            offset: offset as u32,
            pads: [0xFFFF_FFFF; 2],
        }
    }

    pub fn end(&self) -> usize {
        self.length - self.boot as usize
    }

    pub fn region(&self) -> Region {
        Region { start: self.offset as usize, end: self.end(), align: self.align as usize }
    }

    /// Writes header and P, as far as they lie in the image, P last.
    pub fn stamp(&self, image: &mut [u8]) {
        let numbers = [self.magic, self.version, self.romsize, self.boot, self.align, self.offset, self.pads[0], self.pads[1]];
        let mut header = Vec::new();
        for number in numbers {
            header.extend(number.to_be_bytes());
        }
        let at = image.len() as i64 - ((1i64 << 32) - self.pointer as i64);
        put(image, at, &header);
        put(image, image.len() as i64 - 4, &self.pointer.to_le_bytes());
    }

    /// The image of this frame over a background.
    pub fn over(&self, mut image: Vec<u8>) -> Vec<u8> {
        self.stamp(&mut image);
        image
    }
}

/// A component's fields, as they shall stand in the image.
#[derive(Clone, Debug)]
pub struct Raw {
    pub magic: [u8; 8],
    pub len: u32,
    pub kind: u32,
    pub checksum: u32,
    pub offset: u32,
    pub field: Vec<u8>,
    pub content: Vec<u8>,
}

impl Raw {
    /// A well-formed component with the shortest name field, which states no sum.
    pub fn new(name: &[u8], kind: u32, content: &[u8]) -> Raw {
        let mut field = name.to_vec();
        field.push(0);
        while field.len() % 16 != 0 {
            field.push(0);
        }
        Raw {
            magic: *LARCHIVE,
            len: content.len() as u32,
            kind,
            checksum: 0,
            offset: 24 + field.len() as u32,
            field,
            content: content.to_vec(),
        }
    }

    /// The same with a name field of this many bytes.
    pub fn with_field(mut self, bytes: usize) -> Raw {
        self.field.resize(bytes, 0);
        self.offset = 24 + bytes as u32;
        self
    }

    /// The same with its right sum stated, where its span will be these bytes.
    pub fn summed(mut self) -> Raw {
        self.checksum = walk::sum(&self.bytes());
        self
    }

    pub fn bytes(&self) -> Vec<u8> {
        let mut bytes = self.magic.to_vec();
        for number in [self.len, self.kind, self.checksum, self.offset] {
            bytes.extend(number.to_be_bytes());
        }
        bytes.extend(&self.field);
        bytes.extend(&self.content);
        bytes
    }
}

/// Writes bytes at a place, as far as they lie in the image.
pub fn put(image: &mut [u8], at: i64, bytes: &[u8]) {
    for (index, byte) in bytes.iter().enumerate() {
        let here = at + index as i64;
        if here >= 0 && here < image.len() as i64 {
            image[here as usize] = *byte;
        }
    }
}

/// What lies where nothing was put.
pub fn background(rng: &mut Rng, length: usize) -> Vec<u8> {
    match rng.below(6) {
        0 => vec![0xFF; length],
        1 => vec![0; length],
        2 => {
            // The magic over and over, at some shift.
            let shift = rng.below(8);
            (0..length).map(|at| LARCHIVE[(at + shift) % 8]).collect()
        }
        _ => rng.bytes(length),
    }
}

/// Bench image A, with cal/12's and cal/13's fields open to change.
pub fn bench_a() -> (Frame, Vec<(usize, Raw)>) {
    let frame = Frame::new(4096, 36, 1024, 64, 0);
    let first = Raw::new(b"cal/12", 0xFFFF_FFFF, &[0; 100]);
    let second = Raw::new(b"cal/13", 0xFFFF_FFFF, &[0; 24]);
    (frame, vec![(0, first), (192, second)])
}

/// Lays components over 0xFF and stamps the frame.
pub fn lay(frame: &Frame, components: &[(usize, Raw)]) -> Vec<u8> {
    let mut image = vec![0xFF; frame.length];
    for (place, raw) in components {
        put(&mut image, *place as i64, &raw.bytes());
    }
    frame.over(image)
}

/// Bench image A with these checksums in the headers of cal/12 and cal/13.
pub fn a_stating(first: u32, second: u32) -> Vec<u8> {
    let (frame, mut components) = bench_a();
    components[0].1.checksum = first;
    components[1].1.checksum = second;
    lay(&frame, &components)
}

/// Bench image A itself.
pub fn image_a() -> Vec<u8> {
    let (frame, components) = bench_a();
    lay(&frame, &components)
}
