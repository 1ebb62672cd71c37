//! Register 15 (document 02, request 4): as Rs and as Rx the address of the following instruction, as Rd undefined.
//! With the feature `library` the library is tried as well.

use crate::common::*;
use crate::decoding::{name, uses_rd, uses_rx};
use tac_tests::assemble::Operand::*;
use tac_tests::assemble::*;
use tac_tests::case::{Case, RunCall};
use tac_tests::emulator::*;
use tac_tests::generate::Maker;
use tac_tests::image;
use tac_tests::isolation::{self, After, Pair, Seen};
use tac_tests::reach::Reached;
use tac_tests::rng::Rng;
use tac_tests::scenarios::REGISTER_15;
use tac_tests::scene::{place, word_at, write};
use tac_tests::timer::Timer;

/// A page of data, and SP in the page behind it.
const DATA: u16 = 0x4000;
const STACK: u16 = 0x4180;

/// Addresses of instructions: some in the middle of memory, the last ones, the first.
const PLACES: [u16; 7] = [0x0100, 0x12FC, 0x12FE, 0xFFFA, 0xFFFC, 0xFFFE, 0x0000];

/// Kernel mode, user mode with the MMU off, and with it on. There the pages around the address and those of the data
/// have other frames, all rights and all marks.
fn starts(at: u16) -> [Machine; 3] {
    let kernel = Machine { flag: P, ssp: STACK, pc: at, ..Machine::new() };
    let bare = Machine { usp: STACK, ssp: 0x1000, pc: at, ..Machine::new() };
    let mut user = Machine { mmu_on: true, ..bare.clone() };
    let around = [0xFFFE, 0, 2, 4].map(|d| (at.wrapping_add(d) >> 8) as u8);
    let mut pages = [&around[..], &[0x40, 0x41]].concat();
    pages.dedup();
    for (k, page) in pages.into_iter().enumerate() {
        user.tlb[k] = (page as u32) << 16 | 0x9F60 | k as u32;
    }
    [kernel, bare, user]
}

/// One step: the machine before and after it, and its report.
struct Done {
    before: Machine,
    after: Machine,
    report: Report,
}

impl Done {
    /// An instruction that was done, with these states.
    fn good(&self, states: u32) -> &Machine {
        let Report { ending, steps, .. } = self.report;
        assert_eq!((ending, steps, self.report.states), (Ending::Spent, 1, states));
        &self.after
    }

    /// A fault of this number: nothing but the entry, and this cause and violation address.
    fn violation(&self, number: u8, cause: u8, address: u16) {
        let Done { before, after, report } = self;
        assert_eq!((report.ending, report.pc), (Ending::Entered(number), before.pc));
        check_entry(before, after, number, before.pc);
        assert_eq!((after.cause, after.violation), (cause, address));
        assert_eq!((after.missed, after.tlb), (before.missed, before.tlb));
    }

    /// A fault of this number: nothing but the entry.
    fn fault(&self, number: u8) {
        self.violation(number, self.before.cause, self.before.violation);
    }
}

/// This code at an address, its first instruction done in kernel and in user mode: by a run's first step, and behind a
/// NO, where the library may have it in its fast loop. Both are the same.
fn done(at: u16, code: &[u16], set: impl Fn(&mut Machine)) -> [Done; 3] {
    starts(at).map(|mut m| {
        write(&mut m, at.wrapping_sub(2), &no());
        write(&mut m, at, code);
        set(&mut m);
        let before = m.clone();
        let mut later = Machine { pc: at.wrapping_sub(2), ..m.clone() };
        let report = run(&mut m, 1);
        let behind = run(&mut later, 2);
        assert_eq!(behind, Report { steps: report.steps + 1, states: report.states + 3, ..report });
        assert!(later == m, "the step and the loop differ");
        Done { before, after: m, report }
    })
}

/// "Load the PC into a register": LD Rd,PC gives the address of the following instruction.
#[test]
fn pc_loaded() {
    for step in done(0x0100, &ld(0, Register(PC)), |_| {}) {
        assert_eq!((step.good(4).regs[0], step.after.pc), (0x0102, 0x0102));
    }
    for at in PLACES {
        for rd in [0, 7, 12, 13, 14] {
            for step in done(at, &ld(rd, Register(PC)), |_| {}) {
                assert_eq!(step.good(4).reg(rd as usize), at.wrapping_add(2), "{at:04X}");
            }
        }
    }
}

/// As Rs of ADD to SHRL: results, flags and states go by the following address, 0102h.
#[test]
fn pc_as_source() {
    let table = [
        (0x1C, 0x1336, 0, 5),
        (0x24, 0x1132, 0, 5),
        (0x2C, 0x1234, 0, 5),
        (0x34, 0x0000, Z, 5),
        (0x3C, 0x1336, 0, 5),
        (0x44, 0x1336, 0, 5),
        (0x4C, 0x1438, 0, 6),
        (0x54, 0x5868, 0, 55),
        (0x5C, 0x0012, 0, 71),
        (0x64, 0x0010, 0, 71),
        (0x84, 0x48D0, 0, 6 + 2),
        (0x8C, 0x48D0, 0, 6 + 2),
        (0x94, 0x048D, 0, 6 + 2),
        (0x9C, 0x048D, 0, 6 + 2),
    ];
    for (first, result, flags, states) in table {
        for step in done(0x0100, &[first << 8 | 0x1F], |m| m.regs[1] = 0x1234) {
            let after = step.good(states);
            assert_eq!((after.regs[1], after.flag & !P), (result, flags), "{first:02X}");
        }
    }
}

/// "Counting the second word": [Dsp+PC] leads to Dsp + PC + 4, wrapping.
#[test]
fn pc_as_index() {
    let table = [
        (0x0100, 0x3F00, 0x4004),
        (0x0100, 0x3EFC, 0x4000),
        (0x8000, 0xC002, 0x4006),
        (0x12FC, 0x2D00, 0x4000),
        (0x12FE, 0x2D00, 0x4002),
        (0xFFFA, 0x4010, 0x400E),
        (0xFFFC, 0x4010, 0x4010),
        (0xFFFE, 0x4010, 0x4012),
    ];
    for (at, dsp, address) in table {
        for step in done(at, &ld(0, Indexed(dsp, PC)), |m| write(m, address, &[0x5AA5])) {
            assert_eq!((step.good(7).regs[0], step.after.pc), (0x5AA5, at.wrapping_add(4)), "{at:04X}");
        }
        for step in done(at, &adds(0, Indexed(dsp, PC)), |m| write(m, address, &[0x0011])) {
            assert_eq!(step.good(8).regs[0], 0x0022, "{at:04X}");
        }
        for step in done(at, &st(3, Indexed(dsp, PC)), |m| m.regs[3] = 0x1357) {
            assert_eq!(word_at(step.good(6), address), 0x1357, "{at:04X}");
        }
    }
}

/// A word at an odd address by [Dsp+PC], in a page that is there for a user and in one that is not: fault 11, cause 2.
#[test]
fn pc_to_an_odd_address() {
    for (dsp, address) in [(0x3F01, 0x4005), (0x7EFF, 0x8003)] {
        for first in [0x08, 0x10, 0x18, 0x28, 0x98] {
            for step in done(0x0100, &moded(first, 0, Indexed(dsp, PC)), |_| {}) {
                step.violation(11, 2, address);
            }
        }
    }
}

/// [PC] in modes 6 and 7: the word behind the instruction, and its upper half.
#[test]
fn pc_as_pointer() {
    for at in PLACES {
        let behind = |code: Words| [code, word(0xBEEF)].concat();
        for step in done(at, &behind(ld(0, Pointer(PC))), |_| {}) {
            assert_eq!(step.good(6).regs[0], 0xBEEF, "{at:04X}");
        }
        for step in done(at, &behind(ld(0, Byte(PC))), |m| m.regs[0] = 0xFFFF) {
            assert_eq!(step.good(6).regs[0], 0x00BE, "{at:04X}");
        }
        for step in done(at, &behind(add(0, Byte(PC))), |m| m.regs[0] = 1) {
            assert_eq!(step.good(6).regs[0], 0x00BF, "{at:04X}");
        }
        for step in done(at, &behind(st(0, Pointer(PC))), |m| m.regs[0] = 0x1234) {
            assert_eq!(word_at(step.good(5), at.wrapping_add(2)), 0x1234, "{at:04X}");
        }
        for step in done(at, &behind(st(0, Byte(PC))), |m| m.regs[0] = 0x1234) {
            assert_eq!(word_at(step.good(5), at.wrapping_add(2)), 0x34EF, "{at:04X}");
        }
    }
}

/// What ST writes by [PC] is the next instruction.
#[test]
fn pc_stores_the_next() {
    for (code, value) in [(st(0, Pointer(PC)), 0x0D25), (st(0, Byte(PC)), 0x990D)] {
        for mut m in starts(0x0100) {
            write(&mut m, 0x0100, &[no(), code.clone(), word(0x0025), jump(ALWAYS, Indexed(0xFFF6, PC))].concat());
            m.regs[0] = value;
            run(&mut m, 3);
            assert_eq!((m.regs[2], m.pc), (5, 0x0106));
            m.regs[2] = 0;
            run(&mut m, 401);
            assert_eq!((m.regs[2], m.pc), (5, 0x0100));
        }
    }
}

/// JMP [Dsp+PC] and a jump that is not taken. Conditions are as they were.
#[test]
fn pc_in_jumps() {
    for (at, target) in [(0x0100, 0x0304), (0x8000, 0x8204), (0xFFFC, 0x0200), (0xFFFE, 0x0202)] {
        for step in done(at, &jump(ALWAYS, Indexed(0x0200, PC)), |_| {}) {
            assert_eq!(step.good(5).pc, target);
        }
        for step in done(at, &jump(ZERO, Indexed(0x0200, PC)), |_| {}) {
            assert_eq!(step.good(4).pc, at.wrapping_add(4));
        }
        for step in done(at, &jump(13, Indexed(0x0200, PC)), |_| {}) {
            step.fault(14);
        }
    }
    // To itself, over and over; to an odd address.
    for mut m in starts(0x0100) {
        write(&mut m, 0x0100, &jump(ALWAYS, Indexed(0xFFFC, PC)));
        assert_eq!((run(&mut m, 1_000).states, m.pc), (5_000, 0x0100));
        write(&mut m, 0x0102, &[0xFFFD]);
        let report = run(&mut m, 9);
        assert_eq!((report.ending, report.steps, m.violation), (Ending::Entered(11), 2, 0x0101));
    }
}

/// CALL [Dsp+PC] pushes the address that it goes by.
#[test]
fn pc_in_calls() {
    for (at, pushed) in [(0x0100, 0x0104), (0x12FE, 0x1302), (0xFFFC, 0x0000), (0xFFFE, 0x0002)] {
        for step in done(at, &call(Indexed(0x0200, PC)), |_| {}) {
            let m = step.good(6);
            assert_eq!((m.pc, word_at(m, STACK - 2)), (pushed + 0x0200, pushed));
            assert_eq!(m.reg(13), STACK - 2);
        }
    }
}

/// A state in which every port has something to show.
fn full(m: &mut Machine) {
    m.flag |= I;
    (m.input, m.output, m.cause, m.violation, m.missed) = (0x5A, 0x11, 3, 0x4567, 0x89);
    m.timers = [(3, 0x1234, 1, true), (4, 0x2345, 0x8000, true)].map(|(count, period, control, fired)| Timer {
        count,
        period,
        control,
        fired,
    });
}

/// IN and OUT by [PC]: at 0016h the port is 18h.
#[test]
fn pc_as_port() {
    for step in done(0x0016, &input(0, Pointer(PC)), full) {
        assert_eq!(step.good(6).regs[0], 0x005A);
    }
    for step in done(0x0016, &output(0, Pointer(PC)), |m| (m.flag, m.regs[0]) = (m.flag | I, 0x12C3)) {
        assert_eq!(step.good(5).output, 0xC3);
    }
    // Each port, by the address before it.
    for port in (0x00..=0xAAu16).step_by(2) {
        for first in [0xB6, 0xBE] {
            same(port.wrapping_sub(2), first, 0, 0);
        }
    }
    // At FFFEh the port is 00h, Timer0's count.
    for step in done(0xFFFE, &input(0, Pointer(PC)), full) {
        assert_eq!(step.good(6).regs[0], 3);
    }
}

/// The instruction with register 15 as its last field does what it does with G1, which holds the following address.
fn same(at: u16, first: u8, rd: u16, dsp: u16) {
    let following = at.wrapping_add(if first & 7 <= 2 { 4 } else { 2 });
    let [by_pc, by_g1] = [15, 1].map(|last| {
        let word = (first as u16) << 8 | rd << 4 | last;
        done(at, &[word, dsp], |m| {
            m.regs = std::array::from_fn(|k| DATA + 0x11 * k as u16);
            m.regs[1] = following;
            full(m);
        })
    });
    for (a, mut b) in by_pc.into_iter().zip(by_g1) {
        let own = place(&a.before, at);
        b.after.memory[own + 1] |= 0x0F;
        if at == 0xFFFC && a.report.ending == Ending::Entered(14) {
            // The instruction is the vector as well.
            b.after.pc = a.after.pc;
        }
        assert_eq!(a.report, b.report, "{first:02X} {rd} at {at:04X}");
        assert!(a.after == b.after, "{first:02X} {rd} at {at:04X}");
    }
}

/// "As Rs or Rx": every instruction and mode that has one, with every condition, and with Rd 0, 1 and 12 to 15.
#[test]
fn pc_as_another_register() {
    let firsts: Vec<u8> = (0..=255).filter(|first| uses_rx(*first)).collect();
    assert_eq!(firsts.len(), 15 * 4 + 3 + 2 + 2);
    for first in firsts {
        let rds = if first == 0xA1 { (0..16).collect() } else { vec![0, 1, 12, 13, 14, 15] };
        for at in [0x0100, 0xFFFC, 0xFFFE] {
            // Mode 1 leads to data.
            rds.iter().for_each(|rd| same(at, first, *rd, DATA.wrapping_sub(at)));
        }
    }
}

/// The other numbers name what they named: G0 to FP, SP and USP.
#[test]
fn other_register_numbers() {
    for first in [0x09, 0x0C, 0x0E, 0x0F, 0x11, 0x16, 0x17, 0x1C, 0x99, 0xA1, 0xA9, 0xB6, 0xBE] {
        for last in 0..15 {
            let set = |m: &mut Machine| {
                m.regs = std::array::from_fn(|k| DATA + 0x12 * k as u16);
                (m.ssp, m.usp) = (STACK, STACK - 0x20);
                full(m);
            };
            let numbered = done(0x0100, &[first << 8 | 0x20 | last, 0x0006], set);
            // The same value in G1 does the same; G1 gets its own back.
            let by_g1 = done(0x0100, &[first << 8 | 0x21, 0x0006], |m| {
                set(m);
                m.regs[1] = m.reg(last as usize);
            });
            for (a, mut b) in numbered.into_iter().zip(by_g1) {
                let own = place(&a.before, 0x0100);
                b.after.memory[own + 1] = 0x20 | last as u8;
                b.after.regs[1] = a.before.regs[1];
                assert_eq!(a.report.states, b.report.states, "{first:02X} {last}");
                assert!(a.after == b.after, "{first:02X} {last}");
            }
        }
    }
}

/// "As Rd, in PUSH and in POP it remains undefined": fault 14, whatever the last field is. Where Rd is not used it is
/// not looked at.
#[test]
fn pc_as_rd() {
    for first in 0..=255u8 {
        let Some(name) = name(first) else { continue };
        for last in [0, 8, 14, 15] {
            for step in done(0x0100, &[(first as u16) << 8 | 0xF0 | last, DATA], |m| m.regs = [DATA; 13]) {
                if uses_rd(name) {
                    step.fault(14);
                } else {
                    assert_ne!(step.report.ending, Ending::Entered(14), "{name} {last}");
                }
            }
        }
    }
}

/// Some of them by name: nothing is stored, sent, pushed or popped.
#[test]
fn pc_as_rd_by_name() {
    let codes = [
        ld(PC, Register(0)),
        ld(PC, Register(PC)),
        st(PC, At(DATA)),
        st(PC, Indexed(0x3F00, PC)),
        st(PC, Frame(1)),
        st(PC, Pointer(PC)),
        st(PC, Byte(PC)),
        ld_flag(PC),
        add(PC, Register(0)),
        cmp(PC, Register(0)),
        shrl(PC, Short(1)),
        input(PC, At(0x18)),
        input(PC, Pointer(PC)),
        output(PC, At(0x18)),
        output(PC, Pointer(PC)),
        push(PC),
        pop(PC),
    ];
    for code in codes {
        for step in done(0x0100, &code, |m| (m.regs[12], m.output) = (DATA, 0x77)) {
            step.fault(14);
        }
    }
}

/// Undefined comes before privilege and the second word; register 15 as the last field is no fault there.
#[test]
fn pc_and_order_of_faults() {
    for flag in [0, I] {
        for (code, number) in [(input(PC, Pointer(0)), 14), (output(PC, Pointer(PC)), 14), (input(0, Pointer(PC)), 13)]
        {
            let mut m = Machine { flag, ..user(&code) };
            let ending = run(&mut m, 1).ending;
            assert_eq!(ending, if number == 13 && flag == I { Ending::Spent } else { Ending::Entered(number) });
        }
    }
    for (code, number) in [(ld(PC, Indexed(0, PC)), 14), (ld(0, Indexed(0, PC)), 11), (jump(ZERO, Indexed(0, PC)), 11)]
    {
        let mut m = user(&[]);
        m.pc = 0x12FE;
        put(&mut m, 0x34FE, &code[..1]);
        assert_eq!(run(&mut m, 1).ending, Ending::Entered(number));
        assert_eq!((m.violation, m.tlb[1]), (if number == 11 { 0x1300 } else { 0 }, 0x13_8635));
    }
    // A zero divisor: the following address is 0000h.
    for code in [div(0, Register(PC)), rem(0, Register(PC))] {
        for step in done(0xFFFE, &code, |m| m.regs[0] = 5) {
            step.fault(12);
        }
    }
}

/// In user mode it is the logical address, whatever the frame is.
#[test]
fn pc_is_logical() {
    let code = [ld(0, Register(PC)), no(), ld(1, Register(PC)), ld(2, Indexed(0x0100 - 10, PC)), svc()].concat();
    for page in [0x12, 0x13, 0x77, 0xFF, 0x00] {
        let base = (page as u16) << 8;
        let mut m = Machine { pc: base, ..user(&code) };
        m.tlb = [0; 8];
        (m.tlb[3], m.tlb[5]) = (page << 16 | 0x8134, ((page + 1) % 256) << 16 | 0x8440);
        put(&mut m, 0x4000, &[0x2468]);
        assert_eq!(run(&mut m, 9).ending, Ending::Entered(15));
        assert_eq!(m.regs[..3], [base + 2, base + 6, 0x2468]);
    }
    // With the MMU off there is one address only.
    let mut m = Machine { mmu_on: false, ..user(&[]) };
    put(&mut m, 0x1200, &code);
    run(&mut m, 3);
    assert_eq!(m.regs[..2], [0x1202, 0x1206]);
}

/// As Rs it is no access: no mark is set, and the page behind need not be there.
#[test]
fn pc_is_no_access() {
    let mut m = user(&[]);
    put(&mut m, 0x34FE, &ld(0, Register(PC)));
    (m.pc, m.tlb[1]) = (0x12FE, 0);
    let before = m.tlb;
    assert_eq!((run(&mut m, 1).ending, m.regs[0]), (Ending::Spent, 0x1300));
    assert_eq!((m.tlb[0], &m.tlb[1..]), (before[0] | REFERENCED, &before[1..]));
}

/// An access by [PC] has the rights and marks of its own page: reads need read, stores write.
#[test]
fn pc_rights_and_marks() {
    for (code, right) in [(ld(0, Pointer(PC)), READ), (ld(0, Byte(PC)), READ), (st(0, Pointer(PC)), WRITE)] {
        let mut m = user(&code);
        m.tlb[0] = 0x12_8134 | (READ | WRITE) & !right;
        let before = m.tlb[0];
        assert_eq!(run(&mut m, 1).ending, Ending::Entered(11));
        assert_eq!((m.cause, m.violation, m.tlb[0]), (1, 0x1202, before | REFERENCED));
        // At the end of a page it is the next one; it needs no other right, and gets its marks.
        for marks in [0, REFERENCED | DIRTY] {
            for before in 0..2 {
                let mut m = user(&[]);
                put(&mut m, 0x34FE, &code);
                m.pc = 0x12FE - 2 * before;
                m.tlb[1] = 0x13_8035 | right | marks;
                assert_eq!(run(&mut m, 1 + before).ending, Ending::Spent);
                let set = if right == WRITE { REFERENCED | DIRTY } else { REFERENCED };
                assert_eq!(m.tlb[1], 0x13_8035 | right | marks | set);
            }
        }
        // A page that is not there.
        let mut m = user(&[]);
        put(&mut m, 0x34FE, &code);
        (m.pc, m.tlb[1]) = (0x12FE, 0);
        assert_eq!(run(&mut m, 1).ending, Ending::Entered(10));
        assert_eq!((m.missed, m.cause), (0x13, 0));
    }
}

/// An image that finds its words by PC, for `user`: it adds up words of page 13h, writes into page 15h, which it can't
/// read, goes back and calls by PC for three turns, and then does this.
fn image_by_pc(last: Words) -> Vec<Words> {
    vec![
        ld(7, Short(3)),
        // 1202h
        ld(1, Register(PC)),
        ld(2, Indexed(0x00FC, 1)),
        add(3, Indexed(0x00F6, PC)),
        st(3, Indexed(0x02F2, PC)),
        st(2, Indexed(0x00FC, PC)),
        call(Indexed(2, PC)),
        no(),
        pop(4),
        xor(5, Byte(PC)),
        sub(7, Short(1)),
        jump(NOT_ZERO, Indexed(0xFFDE, PC)),
        last,
    ]
}

/// "User runs keep their guarantee with such images": two memories that differ in all that the image can't read, by all
/// allowances, to each end.
#[test]
fn pc_guarantee() {
    let ends = [
        (ld(0, Indexed(0x02D8, PC)), 11),
        (ld(0, Indexed(0x6000, PC)), 10),
        (st(0, Pointer(PC)), 11),
        (jump(ALWAYS, Indexed(0x02D8, PC)), 11),
        (add(PC, Register(0)), 14),
        (push(PC), 14),
        (input(0, Pointer(PC)), 13),
        (svc(), 15),
    ];
    for (last, number) in ends {
        let mut m = user(&image_by_pc(last).concat());
        put(&mut m, 0x3500, &[0x0007, 0x0011]);
        let mut pair =
            Pair { first: m.memory.clone(), second: m.memory.clone(), image: image::write(&m), allowance: 0 };
        for frame in (0..256).filter(|frame| ![0x34, 0x35, 0x36].contains(frame)) {
            Rng::new(frame as u64).fill(&mut pair.second[frame * 256..][..256]);
        }
        assert!(isolation::asked(&pair));
        for emulator in EMULATORS {
            let seen = kept(emulator.run, &mut pair, 45);
            assert_eq!(seen.report[..2], [1, number], "{}", emulator.name);
            assert!(seen.overwrote && seen.stored && seen.other_handler, "{}", emulator.name);
        }
    }
}

/// Demand 3 for a pair with each allowance up to this one; what the last showed.
fn kept(run: RunCall, pair: &mut Pair, most: u16) -> Seen {
    let (mut a, mut b) = (After::empty(), After::empty());
    let mut check = |allowance| {
        pair.allowance = allowance;
        isolation::check(run, pair, &mut a, &mut b).expect("demand 3")
    };
    (0..most).for_each(|allowance| _ = check(allowance));
    check(most)
}

/// What `compare` tries holds here, and comes to every use of register 15, in each way, by a run's first step and by
/// later ones that leave the TLB as it is; random runs come, as users' later steps, to those that need no port, no end of
/// memory and no fault.
#[test]
fn pc_random_uses() {
    let scenario = reached(19, 12_000, |rng, case| REGISTER_15.case(rng, case));
    assert_eq!(scenario.lacking(), Vec::<String>::new());
    let mut maker = Maker::new();
    let runs = reached(20, 1_500, |rng, case| maker.run_case(rng, case));
    assert_eq!(runs.lacking_for_users(), Vec::<String>::new());
}

/// What so many cases come to. Each emulator does them alike.
fn reached(seed: u64, cases: u64, mut make: impl FnMut(&mut Rng, &mut Case)) -> Reached {
    let (mut case, mut reached) = (Case::empty(), Reached::default());
    for index in 0..cases {
        make(&mut Rng::of_case(seed, 1, index), &mut case);
        reached.case(&case);
        outcome(&case);
    }
    reached
}
