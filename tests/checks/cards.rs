//! The worked card, listings and reports.

use crate::common::*;
use tac_tests::card::{self, bench, commands, Command};
use tac_tests::emulator::*;
use tac_tests::image;
use tac_tests::timer::{Timer, INTERRUPT, START};

const WORKED: [u8; 18] =
    [0x01, 0x00, 0x06, 0xF0, 0x02, 0x0D, 0x10, 0x00, 0x04, 0x00, 0x0A, 0x01, 0x00, 0x00, 0xFF, 0x04, 0x00, 0x02];

#[test]
fn worked_card() {
    assert_eq!(bench(&WORKED), "runs 2\nentered 15 4 21 0008 0040\nhalted - 1 5 0002 0040\n");
}

#[test]
fn other_listings() {
    assert_eq!(bench(&[]), "runs 0\n");
    assert_eq!(bench(&[0x09]), "refused 5 0\n");
    // Ten steps of NO, then a run on an odd SSP.
    let card = [0x04, 0x00, 0x0A, 0x01, 0x00, 0x14, 0xF0, 0x02, 0x0D, 0x00, 0x01, 0x04, 0xFF, 0xFF];
    assert_eq!(bench(&card), "runs 2\nspent - 10 30 0014 0040\nlost - 1 0 0014 0040\n");
    let card = [0x07, 0x00, 0xEF, 0x04, 0x00, 0x00];
    assert_eq!(bench(&card), "runs 1\nspent - 0 0 0000 00EF\n");
}

#[test]
fn worked_card_in_bytes() {
    let mut memory = vec![0; MEMORY];
    let mut image = image::write(&Machine { flag: P, ..Machine::new() });
    let mut report = [0xEE; 30];
    let answer = card::card(&mut memory, &mut image, &WORKED, &mut report);
    assert_eq!(answer, 24);
    let expected = [
        1, 15, 0, 4, 0, 0, 0, 21, 0, 8, 0, 0x40, 2, 0xFF, 0, 1, 0, 0, 0, 5, 0, 2, 0, 0x40, 0xEE, 0xEE, 0xEE, 0xEE,
        0xEE, 0xEE,
    ];
    assert_eq!(report, expected);
    // The pushed PC and FLAG, and the two bytes that the card wrote.
    let mut changed: Vec<(usize, u8)> = Vec::new();
    changed.extend(memory.iter().copied().enumerate().filter(|(_, b)| *b != 0));
    assert_eq!(changed, [(0x0000, 0xFF), (0x0006, 0xF0), (0x0FFD, 0x40), (0x0FFF, 0x08)]);
    let mut expected = Machine { flag: P, pc: 2, ssp: 0x0FFC, condition: HALTED, ..Machine::new() };
    expected.memory = Vec::new();
    assert_eq!(image::read(Vec::new(), &image), expected);
}

#[test]
fn every_command() {
    let list = commands(&[
        1, 0x12, 0x34, 0x56, 2, 15, 0xAB, 0xCD, 3, 0x03, 0xFF, 0x99, 4, 0x01, 0x02, 5, 7, 0xFF, 0x9F, 0xFF, 6, 1, 7, 0,
        0xEF, 8, 0x03, 0xE8,
    ]);
    let expected = vec![
        Command::Byte { address: 0x1234, value: 0x56 },
        Command::Register { number: 15, value: 0xABCD },
        Command::Lines { lines: 0x03FF, input: 0x99 },
        Command::Run { allowance: 0x0102 },
        Command::Entry { number: 7, bits: 0xFF_9FFF },
        Command::Mmu { on: true },
        Command::Flag { value: 0xEF },
        Command::Time { milliseconds: 1_000 },
    ];
    assert_eq!(list, Ok(expected));
}

#[test]
fn image_round_trip() {
    let mut bytes: [u8; image::IMAGE] = std::array::from_fn(|k| (k as u8).wrapping_mul(37) | 1);
    bytes[image::FLAG] = 0;
    bytes[image::FLAG + 1] = 0xA9;
    bytes[image::PENDING] = 2;
    bytes[image::MMU] = 1;
    bytes[image::CONDITION] = 2;
    bytes[image::CAUSE] = 3;
    for k in 0..8 {
        bytes[image::TLB + 3 * k + 1] &= 0x9F;
    }
    bytes[68..76].copy_from_slice(&[0x12, 0x34, 0x56, 0x78, 0x80, 0x00, 0x00, 0x01]);
    bytes[76..84].copy_from_slice(&[0x00, 0x09, 0x9A, 0xBC, 0x80, 0x01, 0x00, 0x00]);
    let memory = vec![0; MEMORY];
    assert_eq!(image::test(&memory, &bytes), Ok(()));
    let m = image::read(memory, &bytes);
    assert_eq!(image::write(&m), bytes);
    assert_eq!((m.regs[0], m.regs[12]), (word(&bytes, 0), word(&bytes, 24)));
    assert_eq!((m.ssp, m.usp, m.pc), (word(&bytes, 26), word(&bytes, 28), word(&bytes, 30)));
    assert_eq!((m.input, m.output, m.missed), (bytes[36], bytes[37], bytes[43]));
    assert_eq!(m.violation, word(&bytes, 40));
    assert_eq!(m.tlb[7], u32::from_be_bytes([0, bytes[65], bytes[66], bytes[67]]));
    assert_eq!(m.timers[0], Timer { count: 0x1234, period: 0x5678, control: INTERRUPT, fired: true });
    assert_eq!(m.timers[1], Timer { count: 9, period: 0x9ABC, control: INTERRUPT | START, fired: false });
}

fn word(bytes: &[u8], at: usize) -> u16 {
    u16::from_be_bytes([bytes[at], bytes[at + 1]])
}

/// A run is ended by an entry even if allowance is left, and the report holds
/// the saved PC and FLAG.
#[test]
fn endings() {
    let mut m = kernel(&[0x0000, 0xF000]);
    m.flag |= Z;
    put(&mut m, 0xFFFE, &[0x4321]);
    let report = m.run(65_535);
    assert_eq!(report, Report { ending: Ending::Entered(15), steps: 2, states: 15, pc: 0x0104, flag: P | Z });
    assert_eq!(m.pc, 0x4321);
    // Spent exactly at an entry: entered wins.
    let mut m = kernel(&[0x0000, 0xF000]);
    assert_eq!(m.run(2).ending, Ending::Entered(15));
    let mut m = kernel(&[0x0000, 0xF000]);
    assert_eq!(m.run(1).ending, Ending::Spent);
    // Halted wins over spent.
    let mut m = kernel(&[0xFF00]);
    let halted = Report { ending: Ending::Halted, steps: 1, states: 5, pc: 0x0102, flag: P };
    assert_eq!(m.run(1), halted);
    assert_eq!(m.run(9), Report { steps: 0, states: 0, ..halted });
    let mut m = kernel(&[0xF000]);
    m.condition = LOST;
    m.flag |= E;
    m.pending = 1;
    let before = m.clone();
    assert_eq!(m.run(0), Report { ending: Ending::Lost, steps: 0, states: 0, pc: 0x0100, flag: P | E });
    assert_eq!(m, before);
}

#[test]
fn longest_run() {
    let mut m = kernel(&[0xA0F0, 0x0100]);
    let report = m.run(65_535);
    assert_eq!((report.steps, report.states), (65_535, 5 * 65_535));
}
