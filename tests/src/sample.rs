//! Random addresses, words, TLBs, timers and instruction words.

use crate::emulator::{DIRTY, EXECUTE, READ, REFERENCED, VALID, WRITE};
use crate::rng::Rng;
use crate::timer::{Timer, INTERRUPT, START};

/// First bytes that document 01 gives a meaning.
pub fn valid_first_bytes() -> Vec<u8> {
    let mut bytes = vec![0x00, 0x14, 0xC0, 0xC4, 0xD0, 0xD4, 0xF0, 0xFF];
    for base in ALU.iter().chain(&[0x08]) {
        bytes.extend((0..8).map(|mode| base + mode));
    }
    bytes.extend([0x10, 0x11, 0x13, 0x16, 0x17]);
    bytes.extend([0xA0, 0xA1, 0xA8, 0xA9, 0xB0, 0xB6, 0xB8, 0xBE]);
    bytes
}

/// First bytes of ADD to SHRL in mode 0.
pub const ALU: [u8; 14] = [0x18, 0x20, 0x28, 0x30, 0x38, 0x40, 0x48, 0x50, 0x58, 0x60, 0x80, 0x88, 0x90, 0x98];

/// Ports with a meaning, and some without.
pub const PORTS: [u16; 45] = [
    0x00, 0x00, 0x02, 0x02, 0x04, 0x04, 0x06, 0x06, 0x18, 0x18, 0x80, 0x82, 0x84, 0x86, 0x88, 0x8A, 0x8C, 0x8E, 0x90,
    0x92, 0x94, 0x96, 0x98, 0x9A, 0x9C, 0x9E, 0xA2, 0xA2, 0xA4, 0xA4, 0xA6, 0xA0, 0x19, 0x81, 0xA3, 0x0118, 0x01A4,
    0x01, 0x03, 0x05, 0x07, 0x08, 0x0100, 0x0102, 0x0106,
];

/// The timers' ports, and the odd ones between them.
pub const TIMER_PORTS: [u16; 16] = [0, 0, 0, 2, 2, 2, 4, 4, 4, 6, 6, 6, 1, 3, 5, 7];

const EDGES: [u16; 18] = [
    0x0000, 0x0001, 0x0002, 0x0003, 0x00FE, 0x00FF, 0x0100, 0x7FFF, 0x8000, 0x8001, 0xFEFF, 0xFF00, 0xFFDE, 0xFFE0,
    0xFFFC, 0xFFFD, 0xFFFE, 0xFFFF,
];

/// An address at an edge: the ends of memory, the vectors, the sign.
pub fn edge(rng: &mut Rng) -> u16 {
    rng.pick(&EDGES)
}

/// An address inside one of the pages, near a page's end at times.
pub fn inside(rng: &mut Rng, pages: &[u8]) -> u16 {
    if pages.is_empty() {
        return rng.word();
    }
    let offset = if rng.chance(10) { rng.pick(&[0, 1, 2, 252, 253, 254, 255]) } else { rng.byte() };
    u16::from_be_bytes([rng.pick(pages), offset])
}

/// A number as data: small, near an end, or any.
pub fn number(rng: &mut Rng) -> u16 {
    match rng.below(4) {
        0 => rng.below(20) as u16,
        1 => edge(rng),
        _ => rng.word(),
    }
}

/// A register's value: an address in the pages, an edge or any number.
pub fn value(rng: &mut Rng, pages: &[u8]) -> u16 {
    match rng.below(10) {
        0..=4 => inside(rng, pages) & 0xFFFE,
        5 => inside(rng, pages),
        6 => edge(rng),
        _ => number(rng),
    }
}

/// An instruction word: a valid first byte mostly, any word at times. Its last field is 15 more often than others.
pub fn instruction_word(rng: &mut Rng, first_bytes: &[u8]) -> u16 {
    if rng.chance(10) {
        return rng.word();
    }
    let last = if rng.chance(15) { 15 } else { 0 };
    u16::from_be_bytes([rng.pick(first_bytes), rng.byte() | last])
}

const RIGHTS: [u32; 12] = [
    0,
    READ,
    WRITE,
    EXECUTE,
    READ | WRITE,
    READ | WRITE,
    READ | EXECUTE,
    READ | EXECUTE,
    WRITE | EXECUTE,
    READ | WRITE | EXECUTE,
    WRITE,
    READ | WRITE,
];

fn entry(rng: &mut Rng, page: u8, frame: u8, rights: u32) -> u32 {
    let mut bits = (page as u32) << 16 | VALID | rights | frame as u32;
    if rng.chance(30) {
        bits |= REFERENCED;
    }
    if rng.chance(30) {
        bits |= DIRTY;
    }
    bits
}

fn page_number(rng: &mut Rng) -> u8 {
    if rng.chance(15) {
        rng.pick(&[0x00, 0x01, 0xFE, 0xFF])
    } else {
        rng.byte()
    }
}

/// A TLB with duplicate pages and frames, all rights, some invalid entries.
pub fn tlb(rng: &mut Rng) -> [u32; 8] {
    let mut tlb = [0; 8];
    for k in 0..8 {
        let page = match k {
            1.. if rng.chance(25) => (tlb[rng.below(k as u64) as usize] >> 16) as u8,
            _ => page_number(rng),
        };
        let frame = match k {
            1.. if rng.chance(20) => tlb[rng.below(k as u64) as usize] as u8,
            _ => page_number(rng),
        };
        let rights = rng.pick(&RIGHTS);
        tlb[k] = entry(rng, page, frame, rights);
        if rng.chance(12) {
            tlb[k] &= !VALID;
        }
    }
    tlb
}

/// Puts entries for code, data and a write-only page at random places, each
/// with a page of its own, so that programs can run.
pub fn make_useful(rng: &mut Rng, tlb: &mut [u32; 8]) {
    let first = rng.below(8) as usize;
    let code = rng.pick(&[EXECUTE, READ | EXECUTE, READ | EXECUTE, READ | WRITE | EXECUTE]);
    for (k, rights) in [code, READ | WRITE, WRITE, READ | EXECUTE].into_iter().enumerate() {
        let at = (first + 3 * k) % 8;
        let mut page = page_number(rng);
        while tlb.iter().any(|e| e >> 16 == page as u32) {
            page = rng.byte();
        }
        let frame = page_number(rng);
        tlb[at] = entry(rng, page, frame, rights);
    }
}

/// A control word with bits that exist: started mostly.
fn control(rng: &mut Rng) -> u16 {
    rng.pick(&[0, START, START, INTERRUPT, INTERRUPT | START, INTERRUPT | START, INTERRUPT | START])
}

/// A period: small mostly, 0, near an end, or any.
fn period(rng: &mut Rng) -> u16 {
    match rng.below(10) {
        0 => 0,
        1..=6 => rng.between(1, 20) as u16,
        7 => rng.pick(&[1, 2, 0x7FFF, 0x8000, 0x8001, 0xFFFE, 0xFFFF]),
        _ => rng.word(),
    }
}

/// What OUT gives a timer's port: a period, a control word, anything at times.
pub fn timer_word(rng: &mut Rng, port: u16) -> u16 {
    match port % 4 {
        0 => period(rng),
        2 if rng.chance(70) => control(rng),
        _ => number(rng),
    }
}

/// A good timer, its count at either end at times.
pub fn timer(rng: &mut Rng) -> Timer {
    let period = period(rng);
    let last = period.saturating_sub(1);
    let count = match rng.below(4) {
        0 => 0,
        1 => last,
        _ => rng.between(0, last as u64) as u16,
    };
    Timer { count, period, control: control(rng), fired: rng.chance(40) }
}

pub fn timers(rng: &mut Rng) -> [Timer; 2] {
    [timer(rng), timer(rng)]
}

/// Milliseconds: few mostly, to or around the next firing of one of the timers, none, many now and then.
pub fn milliseconds(rng: &mut Rng, timers: &[Timer; 2]) -> u16 {
    let Timer { count, period, .. } = rng.pick(timers);
    let left = period - count;
    match rng.below(100) {
        0..=4 => 0,
        5..=84 if left < 500 || rng.chance(5) => left.wrapping_add(rng.pick(&[0, 0, 1, 0xFFFF])),
        5..=89 => rng.between(1, 25) as u16,
        90..=97 => rng.between(26, 1_000) as u16,
        98 => rng.word(),
        _ => rng.pick(&[0x7FFF, 0x8000, 0xFFFE, 0xFFFF]),
    }
}

/// The entry that serves a page: the lowest valid one with it.
pub fn serving(tlb: &[u32; 8], page: u8) -> Option<u32> {
    tlb.iter().copied().find(|e| e & VALID != 0 && e >> 16 == page as u32)
}

/// The frame of a page; the page itself if it is not translated or not there.
pub fn frame(tlb: &[u32; 8], page: u8, translated: bool) -> u8 {
    match serving(tlb, page) {
        Some(entry) if translated => entry as u8,
        _ => page,
    }
}
