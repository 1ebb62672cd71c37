//! Places that can be read in two ways, one test for each ruling.

use crate::common::*;
use tac_tests::card::{self, bench};
use tac_tests::emulator::*;
use tac_tests::image;
use tac_tests::report::report_bytes;

/// 1: the serving entry's own bits are tested, a later entry does not help.
#[test]
fn ruling_1_serving_entry() {
    let mut m = user(&[0x1000, 0x1400]);
    m.tlb[7] = 0x14_8736;
    assert_eq!(entered(&mut m), 11);
    assert_eq!((m.cause, m.violation), (1, 0x1400));
    assert_eq!((m.tlb[2], m.tlb[7]), (0x14_8436, 0x14_8736));
    // An invalid entry in front is passed over.
    let mut m = user(&[0x1000, 0x1400]);
    m.tlb[2] &= !VALID;
    m.tlb[7] = 0x14_8736;
    assert_eq!(states(&mut m), 6);
    assert_eq!((m.tlb[2], m.tlb[7]), (0x14_0436, 0x14_9F36));
}

/// 2: fetches need execute only, reads read only, writes write only.
#[test]
fn ruling_2_rights() {
    // An immediate in a page with X only.
    let mut m = user(&[0x0A00, 0xABCD]);
    m.tlb[0] = 0x12_8134;
    assert_eq!(states(&mut m), 5);
    assert_eq!((m.regs[0], m.tlb[0]), (0xABCD, 0x12_9134));
    // A second word in a page with R only.
    let mut m = user(&[]);
    m.pc = 0x12FE;
    put(&mut m, 0x34FE, &[0x0A00]);
    m.tlb[4] = 0x13_8635;
    assert_eq!(entered(&mut m), 11);
    assert_eq!((m.cause, m.violation, m.tlb[0], m.tlb[1]), (1, 0x1300, 0x12_9534, 0x13_8635));
    // ST and PUSH into a page with W only.
    let mut m = user(&[0x1000, 0x1500, 0xC000]);
    m.usp = 0x1502;
    m.regs[0] = 0x7788;
    states(&mut m);
    assert_eq!((m.get(0x3700), m.tlb[3]), (0x7788, 0x15_9A37));
    put(&mut m, 0x3700, &[0]);
    states(&mut m);
    assert_eq!((m.get(0x3700), m.usp), (0x7788, 0x1500));
    // POP there has no read right.
    let mut m = user(&[0xC400]);
    m.usp = 0x1500;
    assert_eq!(entered(&mut m), 11);
    assert_eq!((m.cause, m.violation, m.usp, m.tlb[3]), (1, 0x1500, 0x1500, 0x15_8237));
}

/// 2: byte accesses are never odd, and set R and D alike.
#[test]
fn ruling_2_bytes() {
    let mut m = user(&[0x0F01, 0x1701, 0x0F01]);
    m.regs[1] = 0x1301;
    m.memory[0x3501] = 0x9A;
    assert_eq!(states(&mut m), 6);
    assert_eq!((m.regs[0], m.tlb[1]), (0x009A, 0x13_9635));
    m.regs[0] = 0x1122;
    assert_eq!(states(&mut m), 5);
    assert_eq!((m.memory[0x3500], m.memory[0x3501], m.tlb[1]), (0, 0x22, 0x13_9E35));
    m.regs[1] = 0x1501;
    assert_eq!(entered(&mut m), 11);
    assert_eq!((m.cause, m.violation), (1, 0x1501));
    // MMU off, odd byte address.
    let mut m = kernel(&[0x0F01]);
    m.regs[1] = 0xFFFF;
    m.memory[0xFFFF] = 3;
    states(&mut m);
    assert_eq!(m.regs[0], 3);
}

/// 3: a port is the whole 16-bit address.
#[test]
fn ruling_3_ports() {
    for port in [0x0118, 0x0019, 0x0081, 0x00A0, 0x01A4, 0x00A5, 0x00A8, 0x0008, 0x0010, 0xFFA2] {
        let mut m = kernel(&[0xB000, port, 0xB800, port]);
        m.regs[0] = 0x5555;
        m.input = 7;
        m.cause = 3;
        m.violation = 0x1111;
        m.missed = 0x22;
        m.tlb = [0x33_9F44; 8];
        let mut before = m.clone();
        assert_eq!(states(&mut m), 7);
        assert_eq!(m.regs[0], 0);
        m.regs[0] = 0xFFFF;
        assert_eq!(states(&mut m), 6);
        before.regs[0] = 0xFFFF;
        before.pc = 0x0108;
        assert_eq!(m, before);
    }
}

/// The ports that there are, in mode 6.
#[test]
fn ports() {
    let read = |port: u16| {
        let mut m = kernel(&[0xB601]);
        m.regs[1] = port;
        m.input = 0xA1;
        m.cause = 2;
        m.violation = 0x4567;
        m.missed = 0x89;
        m.tlb = std::array::from_fn(|k| 0x10_8120 + 0x01_0001 * k as u32);
        assert_eq!(states(&mut m), 6);
        m.regs[0]
    };
    for k in 0..8 {
        assert_eq!(read(0x80 + 4 * k), 0x10 + k);
        assert_eq!(read(0x82 + 4 * k), 0x8120 + k);
    }
    assert_eq!([0x18, 0xA2, 0xA4, 0xA6].map(read), [0xA1, 0x4567, 2, 0x89]);

    let write = |port: u16| {
        let mut m = kernel(&[0xBE01]);
        m.regs[1] = port;
        m.regs[0] = 0xFEDB;
        m.cause = 2;
        m.violation = 0x4567;
        m.missed = 0x89;
        assert_eq!(states(&mut m), 5);
        assert_eq!((m.cause, m.violation, m.missed), (2, 0x4567, 0x89));
        m
    };
    for k in 0..8 {
        assert_eq!(write(0x80 + 4 * k).tlb[k as usize], 0xDB_0000);
        assert_eq!(write(0x82 + 4 * k).tlb[k as usize], 0x00_9EDB);
    }
    assert_eq!(write(0x18).output, 0xDB);
    assert!(write(0xA2).mmu_on);
    write(0xA4);
    write(0xA6);
}

/// 4: a jump that is not taken fetches its second word, in mode 1 with any register as Rx.
#[test]
fn ruling_4_untaken_jump() {
    let mut m = user(&[]);
    m.pc = 0x12FE;
    put(&mut m, 0x34FE, &[0xA000]);
    assert_eq!(entered(&mut m), 11);
    assert_eq!((m.violation, m.cause), (0x1300, 1));
    let mut m = user(&[]);
    m.pc = 0x12FE;
    put(&mut m, 0x34FE, &[0xA000]);
    m.tlb[1] = 0x13_8135;
    assert_eq!(states(&mut m), 4);
    assert_eq!((m.pc, m.tlb[1]), (0x1302, 0x13_9135));
    for rx in 0..16 {
        let mut m = user(&[0xA100 | rx, 0x0001]);
        assert_eq!((states(&mut m), m.pc), (4, 0x1204));
    }
}

/// 5: CALL's Rd, the last field of PUSH, POP and LD FLAG are not looked at.
#[test]
fn ruling_5_unused_fields() {
    for (word, cost) in [(0xA8FF, 6), (0xC00F, 5), (0xC40F, 6), (0x140F, 4), (0x080F, 7), (0x0A0F, 5)] {
        let mut m = kernel(&[word, 0x2000]);
        assert_eq!(states(&mut m), cost, "{word:04X}");
    }
    for (word, cost) in [(0x00FF, 3), (0xD0FF, 6), (0xD4FF, 9), (0xA0FF, 5), (0xB00F, 7), (0xB80F, 6)] {
        let mut m = kernel(&[word, 0x2000]);
        assert_eq!(states(&mut m), cost, "{word:04X}");
    }
    assert_eq!(entered(&mut kernel(&[0xF0FF])), 15);
    assert_eq!(one(&mut kernel(&[0xFFFF])).ending, Ending::Halted);
    assert_eq!(entered(&mut kernel(&[0xA0D0, 0])), 14);
}

/// 6: marks are set at once, in the order of the accesses.
#[test]
fn ruling_6_marks_at_once() {
    let mut m = user(&[0xB000, 0x0082, 0xB810, 0x0082]);
    m.flag = I;
    m.regs[1] = 0x8534;
    states(&mut m);
    assert_eq!(m.regs[0], 0x9534);
    states(&mut m);
    assert_eq!(m.tlb[0], 0x12_8534);
}

/// 7: a refused access leaves no mark; the address is that of the access.
#[test]
fn ruling_7_refused_access() {
    for (word, address) in [(0xC000, 0x147E), (0xA800, 0x147E)] {
        let mut m = user(&[word, 0x1200]);
        m.usp = 0x1480;
        m.cause = 2;
        let before = m.clone();
        assert_eq!(entered(&mut m), 11);
        assert_eq!((m.cause, m.violation, m.tlb[2]), (3, address, 0x14_8436));
        check_entry(&before, &m, 11, 0x1200);
    }
    // 10 stores the page alone, 12 to 15 store nothing.
    let mut m = user(&[0x0800, 0x9988]);
    m.cause = 1;
    m.violation = 0x1357;
    assert_eq!(entered(&mut m), 10);
    assert_eq!((m.cause, m.violation, m.missed, m.tlb[0]), (1, 0x1357, 0x99, 0x12_9534));
    for (word, number) in [(0x5D00, 12), (0xFF00, 13), (0xF800, 14), (0xF000, 15)] {
        let mut m = user(&[word]);
        (m.cause, m.violation, m.missed) = (1, 0x1357, 0x24);
        let before = m.clone();
        assert_eq!(entered(&mut m), number);
        assert_eq!((m.cause, m.violation, m.missed, m.tlb[0]), (1, 0x1357, 0x24, 0x12_9534));
        check_entry(&before, &m, number, if number == 15 { 0x1202 } else { 0x1200 });
    }
    // A zero divisor in memory: the read was granted and is marked.
    let mut m = user(&[0x5800, 0x1400]);
    assert_eq!(entered(&mut m), 12);
    assert_eq!(m.tlb[2], 0x14_9436);
}

/// 8: bit 0 of OUT to A2h switches the MMU, from the next access on.
#[test]
fn ruling_8_switching() {
    let mut m = user(&[0xB800, 0x00A2, 0xF800]);
    m.flag = I;
    m.regs[0] = 0xFFFE;
    states(&mut m);
    assert!(!m.mmu_on);
    // The next word comes from 1204h itself.
    put(&mut m, 0x1204, &[0x0D07]);
    states(&mut m);
    assert_eq!(m.regs[0], 7);
    let mut m = user(&[]);
    m.flag = I;
    m.mmu_on = false;
    m.regs[0] = 1;
    put(&mut m, 0x1200, &[0xB800, 0x00A2]);
    put(&mut m, 0x3404, &[0x0D03]);
    states(&mut m);
    assert!(m.mmu_on);
    states(&mut m);
    assert_eq!(m.regs[0], 3);
}

/// 9: PC at SSP-2, FLAG at SSP-4, wrapping, untranslated, then the vector.
#[test]
fn ruling_9_entry() {
    let mut m = user(&[0xF000]);
    m.ssp = 2;
    m.flag = I | V;
    put(&mut m, 0xFFFE, &[0x6789]);
    let report = one(&mut m);
    assert_eq!((report.pc, report.flag), (0x1202, I | V));
    // FLAG went to FFFEh, over the vector of 15.
    assert_eq!((m.get(0), m.get(0xFFFE), m.pc, m.ssp), (0x1202, I | V, I | V, 0xFFFE));
    assert_eq!(m.flag, P | I | V);
    // PC over the vector.
    let mut m = user(&[0xF000]);
    m.ssp = 0;
    one(&mut m);
    assert_eq!((m.get(0xFFFE), m.pc, m.ssp), (0x1202, 0x1202, 0xFFFC));
}

/// 10: what a lost machine keeps.
#[test]
fn ruling_10_lost() {
    let lost = |m: &mut Machine| {
        let report = one(m);
        assert_eq!((report.ending, report.steps, report.states), (Ending::Lost, 1, 0));
        assert_eq!((report.pc, report.flag), (m.pc, m.flag));
    };
    let mut m = user(&[0xF000]);
    m.ssp = 0x1001;
    let mut expected = m.clone();
    lost(&mut m);
    expected.condition = LOST;
    expected.tlb[0] |= REFERENCED;
    assert_eq!(m, expected);
    // An interrupt's line stays pending, and nothing is fetched.
    let mut m = user(&[0x0000]);
    m.ssp = 0x1001;
    m.flag = E;
    m.pending = 0x0210;
    let mut expected = m.clone();
    lost(&mut m);
    expected.condition = LOST;
    assert_eq!(m, expected);
    // With P=1 the stack instructions fault by their own access first.
    let cases = [(0xC000, 0x0FFF), (0xC400, 0x1001), (0xA800, 0x0FFF), (0xD000, 0x1001), (0xD400, 0x1001)];
    for (word, address) in cases {
        let mut m = kernel(&[word, 0x0100]);
        m.ssp = 0x1001;
        m.cause = 1;
        let mut expected = m.clone();
        lost(&mut m);
        expected.condition = LOST;
        expected.cause = 3;
        expected.violation = address;
        assert_eq!(m, expected);
    }
    // A faulting access keeps its marks and its page.
    let mut m = user(&[0x0800, 0x7700]);
    m.ssp = 0xFFFF;
    let mut expected = m.clone();
    lost(&mut m);
    expected.condition = LOST;
    expected.missed = 0x77;
    expected.tlb[0] |= REFERENCED;
    assert_eq!(m, expected);
}

/// 11: RETI reads both words untranslated from SSP, other FLAG bits are dropped.
#[test]
fn ruling_11_reti() {
    let mut m = kernel(&[0xD400]);
    m.mmu_on = true;
    put(&mut m, 0x1000, &[0xFFBF, 0x1234]);
    assert_eq!(states(&mut m), 9);
    assert_eq!((m.flag, m.pc, m.ssp, m.usp), (0x00AF, 0x1234, 0x1004, 0));
    assert_eq!(entered(&mut user(&[0xD400])), 13);
    let mut m = kernel(&[0xD400]);
    m.ssp = 0xFFFE;
    put(&mut m, 0xFFFE, &[P]);
    put(&mut m, 0x0000, &[0x4444]);
    states(&mut m);
    assert_eq!((m.pc, m.ssp), (0x4444, 0x0002));
}

/// 12: PUSH and POP of the stack pointers.
#[test]
fn ruling_12_stack_pointers() {
    for rd in [13, 14] {
        let mut m = user(&[0xC000 | rd << 4, 0xC400 | rd << 4]);
        states(&mut m);
        assert_eq!((m.get(0x357E), m.usp), (0x1380, 0x137E));
        put(&mut m, 0x357E, &[0x2468]);
        states(&mut m);
        assert_eq!(m.usp, 0x2468);
    }
    // P=1: 13 is SSP, 14 is USP on SSP's stack.
    let mut m = kernel(&[0xC0D0, 0xC4D0]);
    states(&mut m);
    assert_eq!((m.get(0x0FFE), m.ssp), (0x1000, 0x0FFE));
    put(&mut m, 0x0FFE, &[0x3330]);
    states(&mut m);
    assert_eq!(m.ssp, 0x3330);
    let mut m = kernel(&[0xC0E0, 0xC4E0]);
    m.usp = 0x7776;
    states(&mut m);
    assert_eq!((m.get(0x0FFE), m.ssp, m.usp), (0x7776, 0x0FFE, 0x7776));
    put(&mut m, 0x0FFE, &[0x3331]);
    states(&mut m);
    assert_eq!((m.ssp, m.usp), (0x1000, 0x3331));
}

/// Addresses use the registers as they were before the instruction.
#[test]
fn addresses_before_the_instruction() {
    let mut m = kernel(&[0xA90D, 0x0010]);
    states(&mut m);
    assert_eq!((m.pc, m.ssp, m.get(0x0FFE)), (0x1010, 0x0FFE, 0x0104));
    let mut m = kernel(&[0x0E00]);
    m.regs[0] = 0x2000;
    put(&mut m, 0x2000, &[0x5678]);
    states(&mut m);
    assert_eq!(m.regs[0], 0x5678);
}

/// 13: odd targets are loaded as they are; the next fetch faults.
#[test]
fn ruling_13_odd_targets() {
    for (words, pc) in [([0xA0F0, 0x2001], 0x2001), ([0xA800, 0x2003], 0x2003), ([0xD000, 0], 0x3335)] {
        let mut m = kernel(&words);
        put(&mut m, 0x1000, &[0x3335]);
        states(&mut m);
        assert_eq!((m.pc, m.cause), (pc, 0));
        assert_eq!(entered(&mut m), 11);
        assert_eq!((m.cause, m.violation), (2, pc));
    }
    let mut m = kernel(&[0xD400]);
    put(&mut m, 0x1000, &[P, 0x3335]);
    states(&mut m);
    assert_eq!((m.pc, m.flag), (0x3335, P));
    let mut m = kernel(&[0xF000]);
    put(&mut m, 0xFFFE, &[0x0F0F]);
    assert_eq!(entered(&mut m), 15);
    assert_eq!(m.pc, 0x0F0F);
}

/// 14: causes rank inside the first bad command only.
#[test]
fn ruling_14_first_bad_command() {
    assert_eq!(bench(&[0x06, 0x02, 0xFF]), "refused 7 0\n");
    assert_eq!(bench(&[0x02, 0x10]), "refused 6 0\n");
    assert_eq!(bench(&[0x06, 0x00, 0x05, 0x09, 0x00]), "refused 6 2\n");
}

/// A call on a card; the machine afterwards.
fn after(m: &Machine, bytes: &[u8]) -> Machine {
    let mut memory = m.memory.clone();
    let mut state = image::write(m);
    let mut report = [0; 120];
    let answer = card::card(&mut memory, &mut state, bytes, &mut report);
    assert_eq!(answer >> 32, 0);
    image::read(memory, &state)
}

/// 15: lines are ORed, the input byte is set each time.
#[test]
fn ruling_15_lines() {
    let mut m = kernel(&[]);
    m.pending = 0x0101;
    m.input = 9;
    let m = after(&m, &[0x03, 0x02, 0x01, 0x77, 0x03, 0x00, 0x00, 0x00]);
    assert_eq!((m.pending, m.input), (0x0301, 0));
}

/// 16: command 01 is physical, register 13 is SSP whatever P is.
#[test]
fn ruling_16_physical() {
    let m = user(&[]);
    let m = after(&m, &[0x01, 0x12, 0x00, 0x66, 0x02, 0x0D, 0x77, 0x77]);
    let m = after(&m, &[0x02, 0x0E, 0x11, 0x11, 0x02, 0x0F, 0x22, 0x23]);
    assert_eq!((m.memory[0x1200], m.memory[0x3400]), (0x66, 0));
    assert_eq!((m.ssp, m.usp, m.pc), (0x7777, 0x1111, 0x2223));
}

/// 17: bits 14 and 13 of invalid entries are tested as well.
#[test]
fn ruling_17_invalid_entries() {
    let mut m = kernel(&[]);
    m.tlb[5] = 0x00_2000;
    assert_eq!(image::test(&m.memory, &image::write(&m)).unwrap_err().answer(), 3 << 32);
    assert_eq!(bench(&[0x05, 0x05, 0x00, 0x40, 0x00]), "refused 7 0\n");
}

/// 18, 20: run and view test 8 against 12 bytes; view is a run of allowance 0.
#[test]
fn ruling_18_20_view() {
    let mut m = kernel(&[0xF000]);
    m.flag |= E | Z;
    m.pending = 5;
    for condition in 0..3 {
        m.condition = condition;
        let state = image::write(&m);
        assert_eq!(refusal(card::view(&m.memory, &state, &mut [])), (8, 0));
        let mut seen = [0xEE; 14];
        assert_eq!(card::view(&m.memory, &state, &mut seen), 12);
        let ending = [0, 2, 3][condition as usize];
        assert_eq!(seen, [ending, 0xFF, 0, 0, 0, 0, 0, 0, 0x01, 0x00, 0x00, 0xC1, 0xEE, 0xEE]);
        let (mut memory, mut image, mut report) = (m.memory.clone(), state, [0xEE; 14]);
        assert_eq!(card::run(&mut memory, &mut image, 0, &mut report), 12);
        assert_eq!((memory, image, report), (m.memory.clone(), state, seen));
    }
}

/// 19: the report's numbers stand upper byte first.
#[test]
fn ruling_19_report_bytes() {
    let report = Report { ending: Ending::Entered(9), steps: 0x0102, states: 0x0304_0506, pc: 0x0708, flag: 0x00EF };
    assert_eq!(report_bytes(&report), [1, 9, 1, 2, 3, 4, 5, 6, 7, 8, 0, 0xEF]);
}

/// Interrupts: the lowest line first, as a step of its own, E=1 only.
#[test]
fn interrupts() {
    let mut m = user(&[0x0000]);
    m.flag = E | C;
    m.pending = 0x0208;
    put(&mut m, 0xFFE6, &[0x5550]);
    let before = m.clone();
    let report = one(&mut m);
    assert_eq!(report, Report { ending: Ending::Entered(3), steps: 1, states: 12, pc: 0x1200, flag: E | C });
    assert_eq!((m.pending, m.pc, m.flag, m.tlb), (0x0200, 0x5550, P | C, before.tlb));
    // E=0 now: the other line waits.
    put(&mut m, 0x5550, &[0x0000]);
    assert_eq!(states(&mut m), 3);
    // RETI sets E: the next step is the interrupt.
    put(&mut m, 0x5552, &[0xD400]);
    let report = m.run(5);
    assert_eq!((report.ending, report.steps, report.states), (Ending::Entered(9), 2, 21));
    assert_eq!(report.pc, 0x1200);
}

/// Undefined comes before privilege, privilege before the second word.
#[test]
fn order_of_faults() {
    assert_eq!(entered(&mut user(&[0xB0F0, 0x0018])), 14);
    assert_eq!(entered(&mut user(&[0xB100, 0x0018])), 14);
    let mut m = user(&[]);
    m.pc = 0x12FE;
    put(&mut m, 0x34FE, &[0xB000]);
    assert_eq!(entered(&mut m), 13);
    assert_eq!((m.cause, m.tlb[1]), (0, 0x13_8635));
    // The second word comes before the operand, the operand before the divisor.
    let mut m = user(&[]);
    m.pc = 0x12FE;
    put(&mut m, 0x34FE, &[0x5800]);
    assert_eq!(entered(&mut m), 11);
    assert_eq!(m.violation, 0x1300);
    assert_eq!(entered(&mut user(&[0x5800, 0x1501])), 11);
    assert_eq!(entered(&mut user(&[0x6200, 0x0000])), 12);
}
