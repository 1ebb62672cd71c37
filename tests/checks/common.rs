//! Small starts for single tests, and calls by each emulator.

use tac_tests::assemble::put_words;
use tac_tests::case::{differ, difference, perform, shrink, Call, Case, Emulator, Outcome, OWN};
use tac_tests::emulator::{Ending, Machine, Report, P};
#[cfg(feature = "library")]
use tac_tests::ffi::LIBRARY;
use tac_tests::image;
use tac_tests::report::{report_bytes, REPORT};

/// This package's emulator, and with the feature `library` the library.
pub const EMULATORS: &[Emulator] = &[
    OWN,
    #[cfg(feature = "library")]
    LIBRARY,
];

/// Kernel mode, PC 0100h, SSP 1000h, with these words at PC.
pub fn kernel(words: &[u16]) -> Machine {
    let mut m = Machine::new();
    m.flag = P;
    m.pc = 0x0100;
    m.ssp = 0x1000;
    put(&mut m, 0x0100, words);
    m
}

/// User mode, MMU on, SSP 1000h. Page 12h (RX) is frame 34h with these words
/// at PC 1200h; page 13h (RW) is frame 35h, page 14h (R) 36h, page 15h (W) 37h.
pub fn user(words: &[u16]) -> Machine {
    let mut m = Machine::new();
    m.pc = 0x1200;
    m.ssp = 0x1000;
    m.usp = 0x1380;
    m.mmu_on = true;
    m.tlb[0] = 0x12_8534;
    m.tlb[1] = 0x13_8635;
    m.tlb[2] = 0x14_8436;
    m.tlb[3] = 0x15_8237;
    put(&mut m, 0x3400, words);
    m
}

pub fn put(m: &mut Machine, address: usize, words: &[u16]) {
    put_words(&mut m.memory, address, words);
}

/// An image whose bytes are as many different good values as there can be.
pub fn full_image() -> [u8; image::IMAGE] {
    let mut bytes = std::array::from_fn(|k| 0x80 + k as u8);
    bytes[image::FLAG..image::FLAG + 2].copy_from_slice(&[0x00, 0xEF]);
    bytes[image::PENDING] = 0x03;
    (bytes[image::MMU], bytes[image::CONDITION], bytes[image::CAUSE]) = (1, 2, 3);
    bytes[image::TLB..image::TIMERS].iter_mut().skip(1).step_by(3).for_each(|byte| *byte &= 0x9F);
    for timer in bytes[image::TIMERS..].chunks_mut(image::TIMER) {
        timer[image::CONTROL..].copy_from_slice(&[0x80, 0x01, 0x00, 0x01]);
    }
    bytes
}

/// A call on this machine, with a report of 12 bytes.
pub fn case_of(m: &Machine, call: Call) -> Case {
    Case { memory: m.memory.clone(), image: image::write(m).to_vec(), report: vec![0xEE; REPORT], call }
}

/// What the call gives; each emulator gives the same.
pub fn outcome(case: &Case) -> Outcome {
    let [mut own, mut other] = [Outcome::default(), Outcome::default()];
    perform(&OWN, case, &mut own);
    for emulator in &EMULATORS[1..] {
        perform(emulator, case, &mut other);
        assert_eq!(difference(&own, &other), None, "{}", emulator.name);
    }
    own
}

/// A run by the machine and by each emulator's call.
pub fn run(m: &mut Machine, allowance: u16) -> Report {
    let out = outcome(&case_of(m, Call::Run(allowance)));
    let report = m.run(allowance);
    let (image, bytes) = (image::write(m).to_vec(), report_bytes(&report).to_vec());
    assert_eq!((out.answer, out.image, out.report), (REPORT as u64, image, bytes));
    assert!(out.memory == m.memory, "memory differs");
    report
}

/// One step from outside: a run with allowance 1.
pub fn one(m: &mut Machine) -> Report {
    m.run(1)
}

/// One step that is an instruction; its state count.
pub fn states(m: &mut Machine) -> u32 {
    let report = one(m);
    assert_eq!((report.ending, report.steps), (Ending::Spent, 1));
    report.states
}

/// One step that enters the kernel; the number. Entry costs 12 states.
pub fn entered(m: &mut Machine) -> u8 {
    let report = one(m);
    assert_eq!((report.steps, report.states), (1, 12));
    match report.ending {
        Ending::Entered(number) => number,
        other => panic!("not entered but {other:?}"),
    }
}

/// What a faulting instruction may change: violation address, cause, missed
/// page, TLB. The rest is the entry's.
pub fn check_entry(before: &Machine, after: &Machine, number: u8, saved_pc: u16) {
    let mut expected = before.clone();
    expected.ssp = before.ssp.wrapping_sub(4);
    put(&mut expected, before.ssp.wrapping_sub(2) as usize, &[saved_pc]);
    put(&mut expected, before.ssp.wrapping_sub(4) as usize, &[before.flag]);
    expected.pc = expected.get(0xFFE0 + 2 * number as usize);
    expected.flag = before.flag & !0x80 | 0x40;
    expected.violation = after.violation;
    expected.cause = after.cause;
    expected.missed = after.missed;
    expected.tlb = after.tlb;
    assert_eq!(&expected, after);
}

/// "refused N P" of an answer.
pub fn refusal(answer: u64) -> (u64, u64) {
    (answer >> 32, answer & 0xFFFF_FFFF)
}

/// The first of so many drawn cases in which a wrong emulator differs from this package's, made small.
pub fn smallest_difference(wrong: &Emulator, count: u64, mut draw: impl FnMut(u64, &mut Case)) -> Case {
    let mut case = Case::empty();
    let found = (0..count).any(|index| {
        draw(index, &mut case);
        differ(&OWN, wrong, &case)
    });
    assert!(found, "{}", wrong.name);
    let small = shrink(&case, &|case| differ(&OWN, wrong, case));
    assert!(differ(&OWN, wrong, &small), "{}", wrong.name);
    small
}
