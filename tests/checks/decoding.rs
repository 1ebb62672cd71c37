//! First bytes, used fields, state counts, results over all modes, four-bit operands.

use crate::common::*;
use tac_tests::emulator::*;
use tac_tests::sample;

/// The name of a first byte's instruction by document 01's list.
pub fn name(first: u8) -> Option<&'static str> {
    let (base, mode) = (first & 0xF8, first & 7);
    let all = [
        (0x08, "LD"),
        (0x18, "ADD"),
        (0x20, "SUB"),
        (0x28, "CMP"),
        (0x30, "AND"),
        (0x38, "OR"),
        (0x40, "XOR"),
        (0x48, "ADDS"),
        (0x50, "MUL"),
        (0x58, "DIV"),
        (0x60, "MOD"),
        (0x80, "SHLA"),
        (0x88, "SHLL"),
        (0x90, "SHRA"),
        (0x98, "SHRL"),
    ];
    let single = [
        (0x00, "NO"),
        (0x14, "LD FLAG"),
        (0xC0, "PUSH"),
        (0xC4, "POP"),
        (0xD0, "RET"),
        (0xD4, "RETI"),
        (0xF0, "SVC"),
        (0xFF, "HALT"),
    ];
    if let Some((_, name)) = single.iter().find(|(byte, _)| *byte == first) {
        return Some(name);
    }
    if let Some((_, name)) = all.iter().find(|(byte, _)| *byte == base) {
        return Some(name);
    }
    match (base, mode) {
        (0x10, 0 | 1 | 3 | 6 | 7) => Some("ST"),
        (0xA0, 0 | 1) => Some("JUMP"),
        (0xA8, 0 | 1) => Some("CALL"),
        (0xB0, 0 | 6) => Some("IN"),
        (0xB8, 0 | 6) => Some("OUT"),
        _ => None,
    }
}

/// A kernel machine on which every defined instruction can be done.
fn ready(word: u16) -> Machine {
    let mut m = kernel(&[word, 0x2000]);
    m.regs = [0x2000; 13];
    put(&mut m, 0x2000, &[0x0102, 0x0102]);
    put(&mut m, 0x4000, &[0x0102]);
    put(&mut m, 0x1000, &[0x0041, 0x0300]);
    m
}

#[test]
fn first_bytes() {
    let mut listed = sample::valid_first_bytes();
    listed.sort();
    let named: Vec<u8> = (0..=255).filter(|b| name(*b).is_some()).collect();
    assert_eq!(listed, named);
    for first in 0..=255u8 {
        let mut m = ready((first as u16) << 8 | 1);
        let report = one(&mut m);
        let expected = match name(first) {
            None => Ending::Entered(14),
            Some("SVC") => Ending::Entered(15),
            Some("HALT") => Ending::Halted,
            Some(_) => Ending::Spent,
        };
        assert_eq!(report.ending, expected, "{first:02X}");
    }
}

/// Does the instruction use Rd as a register?
pub fn uses_rd(name: &str) -> bool {
    !["NO", "RET", "RETI", "SVC", "HALT", "JUMP", "CALL"].contains(&name)
}

/// Does the last field name a register?
pub fn uses_rx(first: u8) -> bool {
    let single = ["NO", "LD FLAG", "PUSH", "POP", "RET", "RETI", "SVC", "HALT"];
    name(first).is_some_and(|name| !single.contains(&name)) && [1, 4, 6, 7].contains(&(first & 7))
}

/// Register fields of 15, by instruction: a used Rd is undefined, the last field is not.
#[test]
fn used_fields() {
    for first in 0..=255u8 {
        let Some(name) = name(first) else { continue };
        for (rd, rx) in [(15, 0), (0, 15), (15, 15), (13, 0), (14, 14)] {
            let mut m = ready((first as u16) << 8 | rd << 4 | rx);
            let undefined = uses_rd(name) && rd == 15 || name == "JUMP" && rd == 13;
            let ending = one(&mut m).ending;
            assert_eq!(ending == Ending::Entered(14), undefined, "{first:02X} {rd} {rx}: {ending:?}");
        }
    }
}

/// State counts of all instructions and modes.
#[test]
fn state_counts() {
    for first in 0..=255u8 {
        let Some(name) = name(first) else { continue };
        let mode = (first & 7) as usize;
        // The source's value, for the shift's n.
        let source = [0x0102, 0x0102, 0x2000, 0x0102, 0x2000, 3, 0x0102, 0x01][mode];
        let expected = match name {
            "LD" => [7, 7, 5, 7, 4, 4, 6, 6][mode],
            "ADD" | "SUB" | "CMP" | "AND" | "OR" | "XOR" => [7, 7, 5, 7, 5, 4, 6, 6][mode],
            "ADDS" => [8, 8, 6, 8, 6, 5, 7, 7][mode],
            "MUL" => [57, 57, 55, 57, 55, 54, 56, 56][mode],
            "DIV" | "MOD" => [73, 73, 71, 73, 71, 70, 72, 72][mode],
            "SHLA" | "SHLL" | "SHRA" | "SHRL" => [8, 8, 6, 8, 6, 5, 7, 7][mode] + source % 16,
            "ST" => [6, 6, 0, 6, 0, 0, 5, 5][mode],
            "JUMP" => 4,
            "CALL" => 6,
            "IN" => [7, 0, 0, 0, 0, 0, 6, 0][mode],
            "OUT" => [6, 0, 0, 0, 0, 0, 5, 0][mode],
            "NO" => 3,
            "LD FLAG" => 4,
            "PUSH" | "HALT" => 5,
            "POP" | "RET" => 6,
            "RETI" => 9,
            _ => 12,
        };
        let last = [0, 0, 0, 0, 1, 3, 1, 1][mode];
        let mut m = ready((first as u16) << 8 | last);
        if mode == 1 {
            m.regs[0] = 0;
        }
        assert_eq!(one(&mut m).states, expected, "{name} mode {mode}");
    }
}

/// Jump conditions over all sixteen combinations of V, C, S, Z.
#[test]
fn conditions() {
    for bits in 0..16u16 {
        let (v, c, s, z) = (bits & 8 != 0, bits & 4 != 0, bits & 2 != 0, bits & 1 != 0);
        let less = s != v;
        let table = [z, c, s, v, !(z || less), !less, z || less, less, !z, !c, !s, !v, !(z || c), false, z || c, true];
        for (number, taken) in table.into_iter().enumerate() {
            if number == 13 {
                continue;
            }
            let mut m = kernel(&[0xA000 | (number as u16) << 4, 0x4445]);
            m.flag |= bits;
            let cost = states(&mut m);
            let expected = if taken { (5, 0x4445) } else { (4, 0x0104) };
            assert_eq!((cost, m.pc, m.flag), (expected.0, expected.1, P | bits), "{number:X} {bits:04b}");
        }
    }
}

/// Results and flags on pairs of numbers, written out a second way.
#[test]
fn results() {
    let numbers = [0u16, 1, 2, 7, 0x0F, 0x10, 0xFF, 0x0100, 0x7FFE, 0x7FFF, 0x8000, 0x8001, 0xFFFE, 0xFFFF, 0x1234];
    for (a, b) in numbers.iter().flat_map(|a| numbers.map(|b| (*a as i64, b as i64))) {
        let signed = |n: i64| if n >= 0x8000 { n - 0x1_0000 } else { n };
        let outside = |n: i64| !(-0x8000..0x8000).contains(&n) as u16;
        let n = b % 16;
        let left = (a << n, (a >> 15) as u16 * C);
        let plus = (outside(signed(a) + signed(b)) * V) | ((a + b > 0xFFFF) as u16 * C);
        let minus = (outside(signed(a) - signed(b)) * V) | ((a < b) as u16 * C);
        let bottom = (a % 2) as u16 * C;
        let table = [
            (0x1C, (a + b, plus)),
            (0x24, (a - b, minus)),
            (0x2C, (a - b, minus)),
            (0x34, (a & b, 0)),
            (0x3C, (a | b, 0)),
            (0x44, (a ^ b, 0)),
            (0x4C, (a + 2 * b, 0)),
            (0x54, (a * b, 0)),
            (0x5C, (if b == 0 { 0 } else { a / b }, 0)),
            (0x64, (if b == 0 { 0 } else { a % b }, 0)),
            (0x84, left),
            (0x8C, left),
            (0x94, (signed(a).div_euclid(1 << n), bottom)),
            (0x9C, (a >> n, bottom)),
        ];
        for (first, (result, vc)) in table {
            let result = result.rem_euclid(0x1_0000) as u16;
            let mut m = kernel(&[first << 8 | 0x12]);
            (m.regs[1], m.regs[2]) = (a as u16, b as u16);
            m.flag |= V | C | S | Z | I;
            if b == 0 && (first == 0x5C || first == 0x64) {
                let before = m.clone();
                assert_eq!(entered(&mut m), 12);
                check_entry(&before, &m, 12, 0x0100);
                continue;
            }
            states(&mut m);
            let flags = vc | ((result >> 15) * S) | ((result == 0) as u16 * Z);
            let kept = if first == 0x2C { a as u16 } else { result };
            assert_eq!((m.regs[1], m.flag), (kept, P | I | flags), "{first:02X} {a:04X} {b:04X}");
        }
    }
}

/// "D4 and the four-bit immediate are signed, -8 to 7." The values of the fields 0 to 15.
const SIGNED: [i16; 16] = [0, 1, 2, 3, 4, 5, 6, 7, -8, -7, -6, -5, -4, -3, -2, -1];

/// Rd, for a four-bit operand: G0, FP and USP. Behind a NO the library has the first two in its fast loop, the last in its step.
const TARGETS: [u16; 3] = [0, 12, 14];

/// This word behind a NO, in kernel mode and in user mode, FP being in the middle of a page that can be read and written:
/// the machine, and the place that FP leads to.
fn four_bit(word: u16) -> [(Machine, usize); 2] {
    [(kernel(&[0, word]), 0x1380), (user(&[0, word]), 0x3580)].map(|(mut m, place)| {
        // R-bit and D of that page: the fast loop wants both.
        m.tlb[1] |= 0x1800;
        m.regs = [0x5555; 13];
        m.usp = 0x5555;
        m.regs[12] = 0x1380;
        (m, place)
    })
}

/// The states of the instruction behind NO.
fn states_behind(m: &mut Machine) -> u32 {
    run(m, 2).states - 3
}

fn register(m: &Machine, number: u16) -> u16 {
    match number {
        14 => m.usp,
        number => m.regs[number as usize],
    }
}

#[test]
fn four_bit_immediates() {
    for (field, value) in (0..).zip(SIGNED) {
        for rd in TARGETS {
            for (mut m, _) in four_bit(0x0D00 | rd << 4 | field) {
                assert_eq!(states_behind(&mut m), 4);
                assert_eq!(register(&m, rd), value as u16, "field {field}");
            }
        }
    }
}

#[test]
fn four_bit_displacements() {
    for (field, value) in (0..).zip(SIGNED) {
        let at = |place: usize| place.wrapping_add_signed(2 * value as isize);
        for rd in TARGETS {
            for (mut m, place) in four_bit(0x0B00 | rd << 4 | field) {
                put(&mut m, at(place), &[0xBEEF]);
                assert_eq!(states_behind(&mut m), 7);
                assert_eq!(register(&m, rd), 0xBEEF, "field {field}");
            }
            for (mut m, place) in four_bit(0x1300 | rd << 4 | field) {
                let stored = register(&m, rd);
                assert_eq!(states_behind(&mut m), 6);
                assert_eq!(m.get(at(place)), stored, "field {field}");
            }
        }
    }
}
