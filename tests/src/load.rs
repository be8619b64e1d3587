//! Document 01, "Load plans": stage and payload plans of a component found by the guarded lookup.

use crate::bytes::{big32, little32, little64};
use crate::master;
use crate::strict::guarded_lookup;
use crate::walk::Component;

/// Component types.
pub const STAGE: u32 = 0x10;
pub const PAYLOAD: u32 = 0x20;

/// Segment types, as numbers.
pub const CODE: u32 = 0x4544_4F43;
pub const DATA: u32 = 0x4154_4144;
pub const BSS: u32 = 0x2053_5342;
pub const PARAMS: u32 = 0x4152_4150;
pub const ENTRY: u32 = 0x5254_4E45;

/// Bytes of a stage's header and of a payload's record.
pub const RECORD: usize = 28;
/// Most segments of a plan.
pub const MOST: usize = 16;

pub struct Stage {
    pub compression: u32,
    pub entry: u64,
    pub load: u64,
    pub source: usize,
    pub len: u32,
    pub memlen: u32,
}

#[derive(Clone, Copy)]
pub struct Segment {
    pub kind: u32,
    pub compression: u32,
    pub source: usize,
    pub load: u64,
    pub len: u32,
    pub memlen: u32,
}

fn big64(bytes: &[u8], at: usize) -> u64 {
    (big32(bytes, at) as u64) << 32 | big32(bytes, at + 4) as u64
}

/// Refusals 1 to 8, 10, 11 and 18.
fn component(image: &[u8], name: &[u8], kind: u32) -> Result<Component, u32> {
    let region = master::region(image)?;
    let component = guarded_lookup(image, region, name)?;
    if component.kind != kind {
        return Err(18);
    }
    Ok(component)
}

/// Does a target pass 2^64?
pub fn passes(load: u64, memlen: u32) -> bool {
    load as u128 + memlen as u128 > 1 << 64
}

/// Do two targets share a byte? One of 0 bytes shares none.
pub fn overlap(one: (u64, u32), other: (u64, u32)) -> bool {
    let (a, b) = (one.0 as u128, other.0 as u128);
    one.1 > 0 && other.1 > 0 && a < b + other.1 as u128 && b < a + one.1 as u128
}

pub fn stage(image: &[u8], name: &[u8]) -> Result<Stage, u32> {
    let component = component(image, name, STAGE)?;
    let at = component.content;
    if component.end - at < RECORD {
        return Err(19);
    }
    let stage = Stage {
        compression: little32(image, at),
        entry: little64(image, at + 4),
        load: little64(image, at + 12),
        source: at + RECORD,
        len: little32(image, at + 20),
        memlen: little32(image, at + 24),
    };
    if stage.compression > 2 {
        return Err(22);
    }
    if stage.source + stage.len as usize > component.end {
        return Err(23);
    }
    if stage.compression == 0 && stage.len > stage.memlen {
        return Err(24);
    }
    if passes(stage.load, stage.memlen) {
        return Err(25);
    }
    Ok(stage)
}

pub fn payload(image: &[u8], name: &[u8]) -> Result<Vec<Segment>, u32> {
    let component = component(image, name, PAYLOAD)?;
    let mut list: Vec<Segment> = Vec::new();
    loop {
        if list.len() == MOST {
            return Err(21);
        }
        let at = component.content + RECORD * list.len();
        if at + RECORD > component.end {
            return Err(19);
        }
        let kind = little32(image, at);
        let compression = big32(image, at + 4);
        let offset = big32(image, at + 8) as usize;
        let load = big64(image, at + 12);
        let len = big32(image, at + 20);
        let memlen = big32(image, at + 24);
        let mut segment = Segment { kind, compression: 0, source: 0, load: 0, len: 0, memlen: 0 };

        let (has_source, has_target) = match kind {
            CODE | DATA => (true, true),
            BSS => (false, true),
            PARAMS => (true, false),
            ENTRY => (false, false),
            _ => return Err(20),
        };
        if has_source {
            if compression > 2 {
                return Err(22);
            }
            let source = component.place + offset;
            if source < component.content || source + len as usize > component.end {
                return Err(23);
            }
            segment = Segment { compression, source, len, ..segment };
        }
        if has_source && has_target && compression == 0 && len > memlen {
            return Err(24);
        }
        if has_target {
            if passes(load, memlen) {
                return Err(25);
            }
            let earlier = list.iter().filter(|it| matches!(it.kind, CODE | DATA | BSS));
            if earlier.into_iter().any(|it| overlap((it.load, it.memlen), (load, memlen))) {
                return Err(26);
            }
            segment = Segment { load, memlen, ..segment };
        }
        if kind == ENTRY {
            list.push(Segment { load, ..segment });
            return Ok(list);
        }
        list.push(segment);
    }
}
