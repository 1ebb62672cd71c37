//! "Bench examples" and the misreadings.

use crate::common::*;
use tac_tests::card;
use tac_tests::emulator::*;

/// One instruction on G0: word, G0 before, G0 after, arithmetic flags.
fn arithmetic(word: u16, before: u16, after: u16, flags: u16) -> u32 {
    let mut m = kernel(&[word]);
    m.regs[0] = before;
    m.flag |= if flags & V == 0 { V } else { 0 };
    let states = states(&mut m);
    assert_eq!((m.regs[0], m.flag, m.pc), (after, P | flags, 0x0102));
    states
}

#[test]
fn arithmetic_examples() {
    arithmetic(0x1D01, 0x7FFF, 0x8000, V | S);
    arithmetic(0x2501, 0x0000, 0xFFFF, C | S);
    assert_eq!(arithmetic(0x8500, 0x8000, 0x8000, C | S), 5);
    arithmetic(0x9501, 0x8001, 0xC000, C | S);
    arithmetic(0x4D01, 0xFFFF, 0x0001, 0);
    arithmetic(0x5400, 0x0100, 0x0000, Z);
    arithmetic(0x5D02, 0xFFFF, 0x7FFF, 0);
}

#[test]
fn fp_displacements() {
    for (word, place) in [(0x0B08, 0x2000 - 16), (0x0B07, 0x2000 + 14)] {
        let mut m = kernel(&[word]);
        m.regs[12] = 0x2000;
        put(&mut m, place, &[0xBEEF]);
        assert_eq!(states(&mut m), 7);
        assert_eq!(m.regs[0], 0xBEEF);
    }
}

#[test]
fn indexed_wraps() {
    let mut m = kernel(&[0x0901, 0xFFFF]);
    m.regs[1] = 3;
    put(&mut m, 2, &[0x1234]);
    states(&mut m);
    assert_eq!(m.regs[0], 0x1234);

    let mut m = kernel(&[0x0901, 0xFFFF]);
    m.regs[1] = 2;
    assert_eq!(entered(&mut m), 11);
    assert_eq!((m.cause, m.violation), (2, 0x0001));
}

#[test]
fn fetch_through_the_entry() {
    let mut m = user(&[0x0D05]);
    assert_eq!(states(&mut m), 4);
    assert_eq!((m.regs[0], m.tlb[0]), (5, 0x12_9534));
}

#[test]
fn store_there_faults() {
    let mut m = user(&[0x1000, 0x1280]);
    let before = m.clone();
    assert_eq!(entered(&mut m), 11);
    assert_eq!((m.cause, m.violation, m.tlb[0]), (1, 0x1280, 0x12_9534));
    check_entry(&before, &m, 11, 0x1200);
}

#[test]
fn next_pc_wraps() {
    let mut m = kernel(&[]);
    m.pc = 0xFFFE;
    states(&mut m);
    assert_eq!(m.pc, 0x0000);
}

#[test]
fn longest_card() {
    let good = [0x06, 0x00].repeat(2048);
    assert_eq!(card::commands(&good).map(|list| list.len()), Ok(2048));
    assert_eq!(card::bench(&good), "runs 0\n");
    let mut long = good;
    long.push(0x06);
    assert_eq!(card::bench(&long), "refused 4 0\n");
}

/// C after a shift is not the last bit moved out.
#[test]
fn misreading_carry_of_shifts() {
    arithmetic(0x8502, 0x4000, 0x0000, Z);
    arithmetic(0x8501, 0x8000, 0x0000, C | Z);
    arithmetic(0x8502, 0x8000, 0x0000, C | Z);
    arithmetic(0x9D02, 0x0002, 0x0000, Z);
    arithmetic(0x9D02, 0x0001, 0x0000, C | Z);
    arithmetic(0x9500, 0x0001, 0x0001, C);
}

/// The odd address is tested before the TLB is searched.
#[test]
fn misreading_odd_before_search() {
    let mut m = user(&[0x0800, 0x7777]);
    assert_eq!(entered(&mut m), 11);
    assert_eq!((m.cause, m.violation, m.missed), (2, 0x7777, 0));
    let mut m = user(&[0x0800, 0x7776]);
    assert_eq!(entered(&mut m), 10);
    assert_eq!((m.cause, m.violation, m.missed), (0, 0, 0x77));
}

/// The saved FLAG shows P=0 after a user fault.
#[test]
fn misreading_saved_flag() {
    let mut m = user(&[0xFF00]);
    m.flag = E | C;
    let report = one(&mut m);
    assert_eq!(report.ending, Ending::Entered(13));
    assert_eq!((report.flag, report.pc), (E | C, 0x1200));
    assert_eq!((m.get(0x0FFC), m.get(0x0FFE)), (E | C, 0x1200));
    assert_eq!(m.flag, P | C);
}

/// A4h is cleared by IN.
#[test]
fn misreading_cause_is_cleared() {
    let mut m = kernel(&[0xB000, 0x00A4, 0xB010, 0x00A4]);
    m.cause = 3;
    assert_eq!(states(&mut m), 7);
    assert_eq!((m.regs[0], m.cause), (3, 0));
    m.regs[1] = 9;
    states(&mut m);
    assert_eq!(m.regs[1], 0);
}
