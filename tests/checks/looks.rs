//! Looks at the fault record (document 02, request 1). Their refusals are tried in `refusals`, with those of the other
//! calls. With the feature `library` the library is tried as well.

use crate::common::*;
use std::cell::Cell;
use tac_tests::assemble::Operand::*;
use tac_tests::assemble::*;
use tac_tests::card;
use tac_tests::case::{self, go_on, perform, Call, Case, Emulator, Outcome, OWN};
use tac_tests::emulator::*;
use tac_tests::generate::Maker;
use tac_tests::image;
use tac_tests::looks::{self, Looks};
use tac_tests::replay::{parse, Replay};
use tac_tests::report::{ENDING, NUMBER};
use tac_tests::rng::Rng;

/// A look by each emulator; it leaves every buffer as it was.
fn look_case(case: &Case) -> u64 {
    let out = outcome(case);
    assert!((&out.memory, &out.image, &out.report) == (&case.memory, &case.image, &case.report), "a buffer changed");
    out.answer
}

fn look(m: &Machine) -> u64 {
    look_case(&case_of(m, Call::Fault))
}

/// A machine that is zero but for its fault record.
fn record(cause: u8, missed: u8, violation: u16) -> Machine {
    Machine { cause, missed, violation, ..Machine::new() }
}

/// "It must show the fault cause": with the missed page and the violation address, each in its place.
#[test]
fn parts_in_their_places() {
    assert_eq!(look(&record(2, 0x9A, 0x1234)), 0x029A_1234);
    assert_eq!(look(&record(3, 0xFF, 0xFFFF)), 0x03FF_FFFF);
    assert_eq!(look(&record(0, 0, 0)), 0);
    assert_eq!([1, 2, 3].map(|cause| look(&record(cause, 0, 0))), [0x0100_0000, 0x0200_0000, 0x0300_0000]);
    for bit in 0..8 {
        assert_eq!(look(&record(0, 1 << bit, 0)), 0x1_0000 << bit);
    }
    for bit in 0..16 {
        assert_eq!(look(&record(0, 0, 1 << bit)), 1 << bit);
    }
}

/// No other field of the image is in the number.
#[test]
fn nothing_else_is_shown() {
    let full = image::read(vec![0xFF; MEMORY], &full_image());
    assert_eq!(look(&full), 0x03AB_A8A9);
    assert_eq!(look(&Machine { cause: 0, missed: 0, violation: 0, ..full }), 0);
}

/// "And leave it there": every byte of the image; a second look gives the same.
#[test]
fn the_image_stays() {
    let case = case_of(&image::read(vec![0xA5; MEMORY], &full_image()), Call::Fault);
    for emulator in EMULATORS {
        let mut out = Outcome::default();
        perform(emulator, &case, &mut out);
        let first = std::mem::take(&mut out.answer);
        go_on(emulator, &Call::Fault, &mut out);
        assert_eq!((first, out.answer), (0x03AB_A8A9, 0x03AB_A8A9), "{}", emulator.name);
        assert_eq!((&out.image, &out.report), (&case.image, &case.report), "{}", emulator.name);
        assert!(out.memory == case.memory, "{}", emulator.name);
    }
}

/// "On a stopped machine", and on a running one.
#[test]
fn each_condition() {
    for condition in [RUNNING, HALTED, LOST] {
        for (flag, mmu_on) in [(0, true), (P, true), (E | I, false)] {
            let m = Machine { condition, flag, mmu_on, pending: 1, ..record(1, 0x22, 0x3333) };
            assert_eq!(look(&m), 0x0122_3333);
        }
    }
}

/// The look takes the image alone: memory and report may be anything.
#[test]
fn memory_and_report_are_not_asked_for() {
    for (memory, report) in [(0, 0), (1, 11), (65_535, 12), (65_537, 1)] {
        let case = case_of(&record(3, 0x45, 0x6789), Call::Fault);
        assert_eq!(look_case(&Case { memory: vec![7; memory], report: vec![8; report], ..case }), 0x0345_6789);
    }
}

/// The user program faults, with this record before; the number entered and the look behind it.
fn behind_fault(code: &[Words], cause: u8) -> (Ending, u64) {
    let mut m = Machine { cause, missed: 0x24, violation: 0x1357, ..user(&code.concat()) };
    (run(&mut m, 9).ending, look(&m))
}

#[test]
fn odd_address() {
    let code = [no(), ld(0, At(0x1381))];
    assert_eq!(behind_fault(&code, 0), (Ending::Entered(11), 0x0224_1381));
    // On a page that is not there, and as a fetch.
    assert_eq!(behind_fault(&[ld(0, At(0x7777))], 0), (Ending::Entered(11), 0x0224_7777));
    assert_eq!(behind_fault(&[jump(ALWAYS, At(0x1201))], 0), (Ending::Entered(11), 0x0224_1201));
}

#[test]
fn missing_right() {
    assert_eq!(behind_fault(&[no(), st(0, At(0x1480))], 0), (Ending::Entered(11), 0x0124_1480));
    assert_eq!(behind_fault(&[ld(0, At(0x1580))], 0), (Ending::Entered(11), 0x0124_1580));
    assert_eq!(behind_fault(&[jump(ALWAYS, At(0x1300))], 0), (Ending::Entered(11), 0x0124_1300));
}

/// Causes that nobody has cleared add up; the address is the last one's.
#[test]
fn both_causes() {
    let (odd, right) = (|| ld(0, At(0x1381)), || ld(0, At(0x1580)));
    let mut m = user(&[odd(), right()].concat());
    assert_eq!((run(&mut m, 9).ending, look(&m)), (Ending::Entered(11), 0x0200_1381));
    (m.flag, m.pc) = (0, 0x1204);
    assert_eq!((run(&mut m, 9).ending, look(&m)), (Ending::Entered(11), 0x0300_1580));
    assert_eq!(behind_fault(&[odd()], 1), (Ending::Entered(11), 0x0324_1381));
    assert_eq!(behind_fault(&[odd()], 2), (Ending::Entered(11), 0x0224_1381));
    assert_eq!(behind_fault(&[right()], 1), (Ending::Entered(11), 0x0124_1580));
}

/// Fault 10 stores its page; cause and violation address are as before.
#[test]
fn missed_page() {
    for cause in 0..4 {
        let before = (cause as u64) << 24;
        assert_eq!(behind_fault(&[no(), ld(0, At(0x9980))], cause), (Ending::Entered(10), before | 0x0099_1357));
        assert_eq!(behind_fault(&[jump(ALWAYS, At(0xFF00))], cause), (Ending::Entered(10), before | 0x00FF_1357));
    }
}

/// Other entries leave the record, and so do steps without a fault.
#[test]
fn other_steps_leave_the_record() {
    for (code, number) in [(div(0, Short(0)), 12), (halt(), 13), (word(0xF800), 14), (svc(), 15)] {
        assert_eq!(behind_fault(&[code], 3), (Ending::Entered(number), 0x0324_1357));
    }
    assert_eq!(behind_fault(&vec![no(); 9], 3), (Ending::Spent, 0x0324_1357));
    let mut m = Machine { flag: E, pending: 0x20, ..user(&[]) };
    (m.cause, m.missed, m.violation) = (2, 0x24, 0x1357);
    assert_eq!((run(&mut m, 9).ending, look(&m)), (Ending::Entered(5), 0x0224_1357));
}

/// Of a lost machine: what the fault's own access left.
#[test]
fn lost_machine() {
    for (code, shown) in [(ld(0, At(0x1381)), 0x0224_1381), (ld(0, At(0x9980)), 0x0099_1357)] {
        let mut m = Machine { ssp: 0x1001, missed: 0x24, violation: 0x1357, ..user(&code) };
        assert_eq!((run(&mut m, 9).ending, m.condition, look(&m)), (Ending::Lost, LOST, shown));
    }
}

/// "The kernel's IN of A4h still clears it": it reads what the look showed, the upper half 0. The rest stays.
#[test]
fn kernel_reads_and_clears() {
    for cause in 0..4 {
        let mut m = kernel(&[input(0, At(0xA4)), input(1, At(0xA4))].concat());
        m.regs = [0xFFFF; 13];
        (m.cause, m.missed, m.violation) = (cause, 0x9A, 0x1234);
        let shown = look(&m);
        assert_eq!(shown, (cause as u64) << 24 | 0x009A_1234);
        assert_eq!(run(&mut m, 1).states, 7);
        assert_eq!((m.regs[0] as u64, look(&m)), (shown >> 24, 0x009A_1234));
        run(&mut m, 1);
        assert_eq!((m.regs[1], look(&m)), (0, 0x009A_1234));
    }
}

/// IN of A2h and A6h reads the other parts and clears nothing; OUT to the three ports changes no part.
#[test]
fn other_ports_leave_the_record() {
    let code = [input(0, At(0xA2)), input(1, At(0xA6)), output(2, At(0xA2)), output(2, At(0xA4)), output(2, At(0xA6))];
    let mut m = kernel(&code.concat());
    (m.cause, m.missed, m.violation) = (3, 0x9A, 0x1234);
    for _ in 0..code.len() {
        run(&mut m, 1);
        assert_eq!(look(&m), 0x039A_1234);
    }
    assert_eq!((m.regs[0], m.regs[1]), (0x1234, 0x009A));
}

/// "A look between two steps changes nothing a later step gives", whatever the steps are.
#[test]
fn between_two_steps() {
    let starts = [
        user(&[no(), ld(0, At(0x1381))].concat()),
        user(&ld(0, At(0x1381))),
        user(&st(0, At(0x1480))),
        user(&ld(0, At(0x9980))),
        kernel(&[input(0, At(0xA4)), input(1, At(0xA4))].concat()),
        kernel(&[halt(), no()].concat()),
        Machine { ssp: 0x1001, ..user(&ld(0, At(0x1381))) },
    ];
    for (k, mut m) in starts.into_iter().enumerate() {
        // The handler of 11 reads the cause.
        put(&mut m, 0xFFF6, &[0x0B00]);
        put(&mut m, 0x0B00, &input(0, At(0xA4)));
        m.cause = k as u8 % 4;
        for emulator in EMULATORS {
            let after = |looks: usize| {
                let mut out = Outcome::default();
                perform(emulator, &case_of(&m, Call::Run(1)), &mut out);
                (0..looks).for_each(|_| go_on(emulator, &Call::Fault, &mut out));
                go_on(emulator, &Call::Run(1), &mut out);
                out
            };
            let plain = after(0);
            assert!(after(1) == plain && after(2) == plain, "start {k}, {}", emulator.name);
        }
    }
}

/// What `compare` tries holds here, and its looks say something: each cause is shown, behind faults and others.
#[test]
fn random_looks() {
    let (mut maker, mut looks) = (Maker::new(), Looks::empty());
    let mut after = [[0; 4]; 16];
    for index in 0..400 {
        maker.looks(&mut Rng::of_case(14, 1, index), &mut looks);
        assert!(looks::asked(&looks));
        for &emulator in EMULATORS {
            let seen = looks::check([OWN, emulator], &looks).expect("looks change nothing");
            let number = if seen.report[ENDING] == 1 { seen.report[NUMBER] } else { 0 };
            after[number as usize][(seen.look >> 24) as usize] += 1;
        }
    }
    assert!(after[10].iter().all(|n| *n > 0), "{after:?}");
    assert!(after[11][0] == 0 && after[11][1..].iter().all(|n| *n > 0), "{after:?}");
}

/// The missed page and the violation address in each other's place.
fn exchanged(image: &[u8]) -> u64 {
    let look = card::fault(image);
    look >> 24 << 24 | (look & 0xFFFF) << 8 | look >> 16 & 0xFF
}

/// Nothing is shown of a stopped machine.
fn running_only(image: &[u8]) -> u64 {
    card::fault(image) * (image[image::CONDITION] == RUNNING) as u64
}

thread_local!(static EATEN: Cell<bool> = const { Cell::new(false) });

/// The next run finds the cause cleared.
fn eating(image: &[u8]) -> u64 {
    EATEN.set(true);
    card::fault(image)
}

fn eaten(memory: &mut [u8], image: &mut [u8], allowance: u16, report: &mut [u8]) -> u64 {
    if EATEN.take() {
        image[image::CAUSE] = 0;
    }
    card::run(memory, image, allowance, report)
}

/// What IN of A4h cleared is back after the run.
fn kept(memory: &mut [u8], image: &mut [u8], allowance: u16, report: &mut [u8]) -> u64 {
    let cause = image[image::CAUSE];
    let answer = card::run(memory, image, allowance, report);
    image[image::CAUSE] |= cause;
    answer
}

/// A single look that differs: the case gets smaller, is printed and read back.
#[test]
fn a_wrong_look_as_a_case() {
    let wrong = Emulator { name: "exchanged", fault: exchanged, ..OWN };
    let case = case_of(&image::read(vec![0xA5; MEMORY], &full_image()), Call::Fault);
    let fails = |case: &Case| case::differ(&OWN, &wrong, case);
    let small = case::shrink(&case, &fails);
    assert!(fails(&case) && fails(&small));
    assert!(small.report.is_empty() && small.memory.iter().all(|byte| *byte == 0));
    assert!(small.image.iter().filter(|byte| **byte != 0).count() <= 2);
    let text = case::describe(&small, &OWN, &wrong);
    assert!(text.starts_with("case fault\n") && text.contains("\nexchanged:\n"), "{text}");
    assert!(matches!(parse(&text), Ok(Replay::Case(back)) if back == small), "{text}");
}

/// Emulators with a wrong look or a wrong IN: the check notices, beside this emulator and beside themselves. The case
/// gets smaller, and its text is read back.
#[test]
fn wrong_looks_are_seen() {
    let wrong = [
        Emulator { name: "exchanged", fault: exchanged, ..OWN },
        Emulator { name: "running only", fault: running_only, ..OWN },
        Emulator { name: "eating", fault: eating, run: eaten, ..OWN },
        Emulator { name: "kept", run: kept, ..OWN },
    ];
    let (mut maker, mut looks) = (Maker::new(), Looks::empty());
    for emulator in wrong {
        for both in [[OWN, emulator], [emulator, emulator]] {
            let found = (0..100).any(|index| {
                maker.looks(&mut Rng::of_case(15, 1, index), &mut looks);
                looks::check(both, &looks).is_err()
            });
            assert!(found, "{}", emulator.name);
            let small = looks::shrink(both, &looks);
            let what = looks::check(both, &small).err().expect("it still fails");
            assert!(small.start.memory.iter().filter(|byte| **byte != 0).count() < 20, "{}", emulator.name);
            let text = looks::describe(both, &small);
            assert!(text.ends_with(&format!("end\n{what}\n")), "{text}");
            assert!(matches!(parse(&text), Ok(Replay::Looks(back)) if back == small), "{text}");
        }
    }
}
