//! The scenarios of `compare`, tried on this package's emulator, and one worked-out case for each of them. With the feature
//! `library` the worked-out cases go through the library as well.

use crate::common::*;
use tac_tests::assemble::Operand::*;
use tac_tests::assemble::*;
use tac_tests::case::{perform, Case, Outcome, OWN};
use tac_tests::emulator::*;
use tac_tests::report::REPORT;
use tac_tests::rng::Rng;
use tac_tests::scenarios::SCENARIOS;
use tac_tests::timer::{Timer, START};

/// Each scenario runs on for a while and comes to what it is about: entries by these numbers, and steps that are spent.
#[test]
fn scenarios_come_to_their_point() {
    let points: [(&str, &[u8]); 26] = [
        ("first touches", &[11]),
        ("marks without rights", &[11]),
        ("entries changed by OUT", &[10, 11]),
        ("own entry changed by OUT", &[10, 11]),
        ("entries set by the kernel", &[10, 11]),
        ("MMU switched", &[13]),
        ("RETI and lines", &[0, 1, 9, 11]),
        ("store into the next instruction", &[14, 15]),
        ("store into a second word", &[15]),
        ("store into itself", &[14]),
        ("store into a page mapped twice", &[14]),
        ("bytes stored into code", &[13, 14]),
        ("code over a page's end", &[10, 11]),
        ("PC at FFFEh", &[10, 11]),
        ("a page twice", &[11]),
        ("stack at an end", &[10, 11]),
        ("registers 13 and 14", &[10, 11]),
        ("register 15", &[11, 13, 14]),
        ("LD FLAG", &[15]),
        ("zero divisor in a loop", &[12]),
        ("shifts", &[]),
        ("jumps", &[14]),
        ("ports in a loop", &[10, 13]),
        ("a stop in a loop", &[10, 11, 12, 13, 14, 15]),
        ("many pages", &[]),
        ("timers in a loop", &[0, 1, 13]),
    ];
    let mut case = Case::empty();
    for (k, (scenario, (name, numbers))) in SCENARIOS.iter().zip(points).enumerate() {
        assert_eq!(scenario.name, name);
        let (mut entered, mut spent, mut long, mut runs) = ([0; 16], 0, 0, 0);
        for index in 0..150 {
            scenario.case(&mut Rng::of_case(31, k as u64, index), &mut case);
            let mut out = Outcome::default();
            perform(&OWN, &case, &mut out);
            assert_eq!(out.answer >> 32, 0, "{name}");
            for report in out.report[..out.answer as usize].chunks(REPORT) {
                runs += 1;
                long += (u16::from_be_bytes([report[2], report[3]]) >= 10) as u32;
                match report[0] {
                    0 => spent += 1,
                    1 => entered[report[1] as usize] += 1,
                    _ => {}
                }
            }
        }
        assert!(numbers.iter().all(|n| entered[*n as usize] > 0), "{name}: {entered:?}");
        assert!(spent > 20 && 5 * long > runs, "{name}: {spent} spent, {long} of {runs} long");
    }
}

fn spent(m: &mut Machine, allowance: u16) -> u32 {
    let report = run(m, allowance);
    assert_eq!((report.ending, report.steps), (Ending::Spent, allowance), "{report:?}");
    report.states
}

fn ends(m: &mut Machine, ending: Ending, steps: u16) -> Report {
    let report = run(m, 1_000);
    assert_eq!((report.ending, report.steps), (ending, steps), "{report:?}");
    report
}

/// Page 12h of `user` with code, and G1 at the start of its data.
fn program(code: &[Words]) -> Machine {
    let mut m = user(&code.concat());
    m.regs[1] = 0x1300;
    m
}

#[test]
fn first_touches() {
    // A read sets R, a write D; both at their first time only in a page without marks.
    let read = [ld(0, Pointer(1)), ld(0, Pointer(1)), jump(ALWAYS, At(0x1200))];
    let mut m = program(&read);
    assert_eq!(spent(&mut m, 300), 100 * (6 + 6 + 5));
    assert_eq!((m.tlb[0], m.tlb[1]), (0x12_9534, 0x13_9635));
    for word in [st(0, Pointer(1)), st(0, Byte(1)), push(0), call(At(0x1200))] {
        for marks in [0, REFERENCED, DIRTY, REFERENCED | DIRTY] {
            let mut m = program(&[ld(0, Short(1)), word.clone()]);
            m.tlb[1] |= marks;
            spent(&mut m, 2);
            assert_eq!(m.tlb[1], 0x13_9E35);
        }
    }
}

#[test]
fn marks_without_rights() {
    // All marks, but the right for the second access is missing.
    for (right, code) in [(READ, st(0, Pointer(1))), (WRITE, ld(0, Pointer(1))), (EXECUTE, add(0, Byte(1)))] {
        let mut m = program(&[no(), no(), code]);
        m.tlb[1] = 0x13_9835 | right;
        let before = m.tlb[1];
        assert_eq!(ends(&mut m, Ending::Entered(11), 3).pc, 0x1204);
        assert_eq!((m.cause, m.violation, m.tlb[1]), (1, 0x1300, before));
    }
}

#[test]
fn entries_changed() {
    // Two stores, the frame and the marks changed between them.
    let code = [
        st(0, Pointer(1)),
        st(0, Pointer(1)),
        ld(6, Value(0x8640)),
        output(6, At(0x86)),
        st(0, Pointer(1)),
        ld(2, Pointer(1)),
        svc(),
    ];
    let mut m = program(&code);
    m.flag = I;
    m.regs[0] = 0x1234;
    ends(&mut m, Ending::Entered(15), 7);
    assert_eq!((m.get(0x3500), m.get(0x4000), m.regs[2], m.tlb[1]), (0x1234, 0x1234, 0x1234, 0x13_9E40));
    // Not valid, another page, no right: the next access faults.
    for (port, value, number) in [(0x86, 0x0635, 10), (0x84, 0x0077, 10), (0x86, 0x9C35, 11)] {
        let mut m = program(&[st(0, Pointer(1)), ld(6, Value(value)), output(6, At(port)), st(0, Pointer(1))]);
        m.flag = I;
        assert_eq!(ends(&mut m, Ending::Entered(number), 4).pc, 0x120A);
    }
}

#[test]
fn own_entry_changed() {
    // Behind the OUT the other frame's word comes.
    let code = |value| [ld(6, Value(0x8540)), no(), output(6, At(0x82)), ld(0, Short(value)), svc()];
    let mut m = program(&code(1));
    m.flag = I;
    put(&mut m, 0x4000, &code(2).concat());
    ends(&mut m, Ending::Entered(15), 5);
    assert_eq!((m.regs[0], m.tlb[0]), (2, 0x12_9540));
    // Without the execute right the next fetch faults; the OUT's own bits stay.
    let mut m = program(&[ld(6, Value(0x8434)), no(), output(6, At(0x82)), no()]);
    m.flag = I;
    ends(&mut m, Ending::Entered(11), 4);
    assert_eq!((m.tlb[0], m.violation), (0x12_8434, 0x120A));
}

#[test]
fn entries_set_by_the_kernel() {
    // The kernel maps page 12h, switches the MMU on and goes there.
    let code = [
        ld(0, Value(0x12)),
        output(0, At(0x90)),
        ld(0, Value(0x8534)),
        output(0, At(0x92)),
        ld(0, Short(1)),
        output(0, At(0xA2)),
        reti(),
    ];
    let mut m = kernel(&code.concat());
    put(&mut m, 0x1000, &[0x0000, 0x1200]);
    put(&mut m, 0x3400, &[ld(0, Short(5)), ld(1, Short(6)), svc()].concat());
    put(&mut m, 0x1200, &[halt()].concat());
    ends(&mut m, Ending::Entered(15), 10);
    assert_eq!((m.regs[0], m.regs[1], m.tlb[4], m.mmu_on), (5, 6, 0x12_9534, true));
}

#[test]
fn mmu_switched() {
    // Off: the code goes on in frame 12h; on again: in frame 34h.
    let off = [ld(0, Short(0)), no(), output(0, At(0xA2)), ld(2, Short(1)), no(), no(), no(), ld(3, Short(3)), svc()];
    let on = [no(), no(), no(), no(), ld(2, Short(2)), ld(0, Short(1)), output(0, At(0xA2)), halt()];
    let mut m = program(&off);
    m.flag = I;
    put(&mut m, 0x1200, &on.concat());
    // OUT stands at 1204h, so the second program goes on at 1208h; its OUT at 120Ch, so the first at 1210h.
    ends(&mut m, Ending::Entered(15), 8);
    assert_eq!((m.regs[2], m.regs[3], m.mmu_on), (2, 3, true));
}

#[test]
fn reti_and_lines() {
    // E comes with RETI: the line is next, before an instruction of the user.
    let mut m = kernel(&[no(), reti()].concat());
    m.mmu_on = true;
    m.tlb[0] = 0x12_8534;
    m.pending = 0x0208;
    put(&mut m, 0x1000, &[E, 0x1200]);
    let report = ends(&mut m, Ending::Entered(3), 3);
    assert_eq!((report.pc, report.flag, m.pending, m.tlb[0]), (0x1200, E, 0x0200, 0x12_8534));
    // Without E it stays, and the user runs on with his own stack.
    let mut m = kernel(&[no(), reti()].concat());
    m.mmu_on = true;
    m.tlb = user(&[]).tlb;
    m.pending = 0x0208;
    m.usp = 0x1380;
    put(&mut m, 0x1000, &[I | C, 0x1200]);
    put(&mut m, 0x3400, &[ld_flag(0), push(0), svc()].concat());
    ends(&mut m, Ending::Entered(15), 5);
    assert_eq!((m.regs[0], m.get(0x357E), m.usp, m.pending), (I | C, I | C, 0x137E, 0x0208));
}

/// Kernel mode at 0100h, and user mode with page 12h in frame 34h for all rights and page 13h for the same frame.
fn both_modes(code: &[Words]) -> [(Machine, u16, u16); 3] {
    let words = code.concat();
    let mut all = user(&words);
    all.tlb[0] = 0x12_8734;
    let mut twice = user(&words);
    twice.tlb[0] = 0x12_8134;
    twice.tlb[1] = 0x13_8634;
    [(kernel(&words), 0x0100, 0x0100), (all, 0x1200, 0x1200), (twice, 0x1200, 0x1300)]
}

#[test]
fn stores_into_code() {
    // The word of the next instruction, in a loop: LD G2, #2 in place of LD G2, #1.
    let code = [no(), st(0, Pointer(1)), ld(2, Short(1)), add(3, Register(2)), jump(ALWAYS, Indexed(0, 4))];
    for (mut m, base, writable) in both_modes(&code) {
        m.regs[0] = ld(2, Short(2))[0];
        m.regs[1] = writable + 4;
        m.regs[4] = base;
        spent(&mut m, 9);
        assert_eq!((m.regs[2], m.regs[3]), (2, 4));
    }
    // The second word of the next instruction, and that of the store itself: it was fetched before.
    let code = [no(), st(0, Pointer(1)), ld(2, Value(1)), svc()];
    for (mut m, _, writable) in both_modes(&code) {
        m.regs[0] = 0x7777;
        m.regs[1] = writable + 6;
        ends(&mut m, Ending::Entered(15), 4);
        assert_eq!(m.regs[2], 0x7777);
    }
    let code = |own| [no(), st(0, At(own)), jump(ALWAYS, Indexed(0, 4))];
    for (k, own) in [0x0104, 0x1204, 0x1304].into_iter().enumerate() {
        let (mut m, base, _) = both_modes(&code(own))[k].clone();
        m.regs[0] = own + 0x40;
        m.regs[4] = base;
        spent(&mut m, 6);
        let place = if k == 0 { 0x0104 } else { 0x3404 };
        assert_eq!((m.get(place), m.get(place + 0x40)), (own + 0x40, own + 0x40));
    }
    // A byte: LD G2, #1 becomes LD G3, #1 by its lower half, ADD by its upper.
    for (offset, byte, g2, g3) in [(5, 0x31, 0, 1), (4, 0x1D, 8, 0)] {
        for (mut m, _, writable) in both_modes(&[no(), st(0, Byte(1)), ld(2, Short(1)), svc()]) {
            m.regs[0] = 0xAA00 | byte;
            m.regs[1] = writable + offset;
            m.regs[2] = if g2 == 8 { 7 } else { 0 };
            ends(&mut m, Ending::Entered(15), 4);
            assert_eq!((m.regs[2], m.regs[3]), (g2, g3));
        }
    }
}

#[test]
fn code_over_a_page_end() {
    let start = || {
        let mut m = user(&[]);
        m.pc = 0x12FA;
        put(&mut m, 0x34FA, &[0x0000, 0x0000, 0x0A00]);
        put(&mut m, 0x3500, &[0x4321, 0xF000]);
        m
    };
    // The second word comes from page 13h's frame, and marks it.
    let mut m = start();
    m.tlb[1] = 0x13_8140;
    put(&mut m, 0x4000, &[0x1357, 0xF000]);
    ends(&mut m, Ending::Entered(15), 4);
    assert_eq!((m.regs[0], m.tlb[0], m.tlb[1]), (0x1357, 0x12_9534, 0x13_9140));
    let mut m = start();
    m.tlb[1] = 0;
    assert_eq!(ends(&mut m, Ending::Entered(10), 3).pc, 0x12FE);
    assert_eq!((m.missed, m.tlb[0]), (0x13, 0x12_9534));
    let mut m = start();
    assert_eq!(ends(&mut m, Ending::Entered(11), 3).pc, 0x12FE);
    assert_eq!((m.violation, m.tlb[1]), (0x1300, 0x13_8635));
    // A jump that is not taken fetches it too, and nothing else there.
    let mut m = start();
    put(&mut m, 0x34FE, &[jump(ALWAYS, At(0))[0]]);
    m.tlb[1] = 0x13_8140;
    put(&mut m, 0x4000, &[0x12FA]);
    spent(&mut m, 6);
    assert_eq!((m.pc, m.tlb[1]), (0x12FA, 0x13_9140));
}

#[test]
fn pc_at_the_top() {
    for flag in [P, 0] {
        let start = |word: u16| {
            let mut m = Machine { pc: 0xFFFC, ssp: 0x1000, flag, mmu_on: true, ..Machine::new() };
            m.usp = 0x1380;
            m.tlb[0] = 0x13_8635;
            (m.tlb[6], m.tlb[7]) = (0xFF_8540, 0x00_8541);
            let (top, low) = if flag == P { (0xFFFC, 0) } else { (0x40FC, 0x4100) };
            put(&mut m, top, &[0x0000, word]);
            put(&mut m, low, &[0x0D11, 0x0D22]);
            m
        };
        // One word: 0000h is next. Two words: the second from 0000h, 0002h is next.
        let mut m = start(ld(0, Short(3))[0]);
        spent(&mut m, 3);
        assert_eq!((m.pc, m.regs[0], m.regs[1]), (0x0002, 3, 1));
        let mut m = start(ld(0, Value(0))[0]);
        spent(&mut m, 3);
        assert_eq!((m.pc, m.regs[0], m.regs[2]), (0x0004, 0x0D11, 2));
        // CALL pushes 0002h.
        let mut m = start(call(At(0))[0]);
        spent(&mut m, 2);
        let pushed = if flag == P { 0x0FFE } else { 0x357E };
        assert_eq!((m.pc, m.get(pushed)), (0x0D11, 0x0002));
    }
    // Page 00h is missing: the saved PC is 0000h after one word, FFFEh in the middle of two.
    for (word, steps, pc) in [(0x0000, 2, 0x0000), (0x0A00, 1, 0xFFFE)] {
        let mut m = Machine { pc: 0xFFFE, ssp: 0x1000, mmu_on: true, ..Machine::new() };
        m.tlb[6] = 0xFF_8540;
        put(&mut m, 0x40FE, &[word]);
        assert_eq!(ends(&mut m, Ending::Entered(10), steps).pc, pc);
        assert_eq!(m.missed, 0x00);
    }
}

#[test]
fn a_page_twice() {
    // Entry 1 serves page 13h; once it is not valid, entry 5 does.
    let code = [st(0, Pointer(1)), st(0, Pointer(1)), output(6, At(0x86)), st(0, Pointer(1)), ld(2, Pointer(1))];
    let mut m = program(&code);
    m.flag = I;
    m.regs[0] = 0x1234;
    m.tlb[5] = 0x13_8240;
    let report = ends(&mut m, Ending::Entered(11), 5);
    assert_eq!((report.pc, m.tlb[1], m.tlb[5]), (0x120A, 0x13_0000, 0x13_9A40));
    assert_eq!((m.get(0x3500), m.get(0x4000)), (0x1234, 0x1234));
}

#[test]
fn stacks_at_an_end() {
    let both = [ld(0, Short(7)), push(0), pop(1), svc()];
    // SP 0000h: the word goes to FFFEh, and SP comes back to 0000h.
    let mut m = user(&both.concat());
    m.usp = 0x0000;
    m.tlb[4] = 0xFF_8640;
    ends(&mut m, Ending::Entered(15), 4);
    assert_eq!((m.get(0x40FE), m.regs[1], m.usp, m.tlb[4]), (7, 7, 0x0000, 0xFF_9E40));
    let mut m = kernel(&[ld(0, Short(7)), push(0), pop(1)].concat());
    m.ssp = 0x0000;
    spent(&mut m, 3);
    assert_eq!((m.get(0xFFFE), m.regs[1], m.ssp), (7, 7, 0x0000));
    // The page below is missing, or can't be written; an odd SP is tested before.
    for (sp, entry, number, missed, violation) in
        [(0x1300, 0, 10, 0x12, 0), (0x1500, 0x14_8436, 11, 0, 0x14FE), (0x1301, 0, 11, 0, 0x12FF)]
    {
        let mut m = user(&both.concat());
        m.pc = 0x1700;
        (m.tlb[0], m.tlb[2], m.tlb[4]) = (0, entry, 0x17_8534);
        m.usp = sp;
        ends(&mut m, Ending::Entered(number), 2);
        assert_eq!((m.missed, m.violation, m.usp), (missed, violation, sp));
    }
    // CALL and RET over a page's end.
    let code = [call(At(0x1206)), svc(), ret()];
    let mut m = user(&code.concat());
    m.usp = 0x1400;
    let report = ends(&mut m, Ending::Entered(15), 3);
    assert_eq!((report.pc, m.usp, m.get(0x35FE)), (0x1206, 0x1400, 0x1204));
}

#[test]
fn registers_13_and_14() {
    // In user mode both are USP, in kernel mode 14 is USP and 13 is not.
    let code = [ld(14, Value(0x1340)), push(14), add(13, Short(-4)), ld(0, Register(14)), pop(14), svc()];
    let mut m = user(&code.concat());
    put(&mut m, 0x353A, &[0x2468]);
    ends(&mut m, Ending::Entered(15), 6);
    assert_eq!((m.regs[0], m.usp, m.get(0x353E), m.ssp), (0x133A, 0x2468, 0x1340, 0x0FFC));
    let mut m = kernel(&code[..5].concat());
    put(&mut m, 0x0FFA, &[0x2468]);
    spent(&mut m, 5);
    assert_eq!((m.regs[0], m.usp, m.ssp, m.get(0x0FFE)), (0x1340, 0x2468, 0x0FFC, 0x1340));
}

#[test]
fn register_15() {
    // Turns that find a word in page 13h, add it up by PC and go back by PC.
    let code = [
        ld(1, Register(PC)),
        ld(2, Indexed(0x00FE, 1)),
        add(3, Indexed(0x00F6, PC)),
        st(3, Indexed(0x0100, PC)),
        jump(ALWAYS, Indexed(0xFFEE, PC)),
    ];
    let mut m = user(&code.concat());
    put(&mut m, 0x3500, &[0x0007]);
    assert_eq!(spent(&mut m, 500), 100 * (4 + 7 + 7 + 6 + 5));
    assert_eq!(m.regs[1..4], [0x1202, 7, 700]);
    assert_eq!((m.get(0x350E), m.pc, m.tlb[1]), (700, 0x1200, 0x13_9E35));
    // As Rd it ends the run.
    let mut m = user(&[no(), ld(0, Register(PC)), add(PC, Register(0))].concat());
    assert_eq!(ends(&mut m, Ending::Entered(14), 3).pc, 0x1204);
    assert_eq!(m.regs[0], 0x1204);
}

#[test]
fn flag_loaded() {
    let code = [ld(0, Value(0x7FFF)), add(0, Short(1)), ld_flag(2), sub(0, Register(0)), ld_flag(3), cmp(0, Short(1))];
    let mut m = user(&[code.concat(), ld_flag(4), svc()].concat());
    m.flag = E | I | C;
    ends(&mut m, Ending::Entered(15), 8);
    assert_eq!([m.regs[2], m.regs[3], m.regs[4]], [E | I | V | S, E | I | Z, E | I | C | S]);
}

#[test]
fn zero_divisor() {
    // 100 / 3, / 2, / 1, then the fault, which keeps flags and registers.
    let code = [div(0, Register(1)), add(2, Register(0)), sub(1, Short(1)), jump(ALWAYS, At(0x1200))];
    let mut m = program(&code);
    (m.regs[0], m.regs[1]) = (100, 3);
    let report = ends(&mut m, Ending::Entered(12), 13);
    assert_eq!((report.pc, report.flag, report.states), (0x1200, Z, 3 * (71 + 5 + 4 + 5) + 12));
    assert_eq!((m.regs[0], m.regs[2]), (16, 33 + 16 + 16));
}

#[test]
fn shifts() {
    // Every count, and 16 and 17, which are 0 and 1; C is the old end bit.
    for n in 0..18u16 {
        let code = [shrl(0, Register(1)), ld_flag(2), shla(3, Register(1)), ld_flag(4), shra(5, Register(1)), svc()];
        let mut m = program(&code);
        m.regs[1] = n;
        (m.regs[0], m.regs[3], m.regs[5]) = (0x8001, 0x8001, 0x8001);
        let report = ends(&mut m, Ending::Entered(15), 6);
        let n = n % 16;
        assert_eq!(m.regs[0], 0x8001 >> n);
        assert_eq!(m.regs[3], 0x8001 << n);
        assert_eq!(m.regs[5], (0x8001u16 as i16 >> n) as u16);
        assert_eq!((m.regs[2] & (C | V), m.regs[4] & (C | V)), (C, C));
        assert_eq!(report.states, 3 * (6 + n as u32) + 4 + 4 + 12);
    }
}

#[test]
fn marks_shown_by_in() {
    // IN of the entry behind a read and behind a write.
    let code = [ld(0, Pointer(1)), input(2, At(0x86)), st(0, Pointer(1)), input(3, At(0x86)), svc()];
    let mut m = program(&code);
    m.flag = I;
    ends(&mut m, Ending::Entered(15), 5);
    assert_eq!((m.regs[2], m.regs[3]), (0x9635, 0x9E35));
}

#[test]
fn timers_waited_for() {
    // Turns until Timer1 has fired, which only time between the runs lets it do.
    let code =
        [input(2, At(0x06)), cmp(2, Short(0)), jump(ZERO, At(0x1200)), input(3, At(0x04)), input(4, At(0x06)), svc()];
    let mut m = program(&code);
    m.flag = I;
    m.timers[1] = Timer { count: 3, period: 5, control: START, fired: false };
    assert_eq!(spent(&mut m, 300), 100 * (7 + 4 + 5));
    m.pass(1);
    assert_eq!(spent(&mut m, 300), 100 * (7 + 4 + 5));
    m.pass(2);
    ends(&mut m, Ending::Entered(15), 6);
    assert_eq!(m.regs[2..5], [0x8000, 1, 0]);
}

#[test]
fn stops_in_a_loop() {
    // Words from 13F8h on: the fifth is in page 14h, which can't be written.
    let code = [st(0, Pointer(1)), add(1, Short(2)), jump(ALWAYS, At(0x1200))];
    let mut m = program(&code);
    m.regs[1] = 0x13F8;
    assert_eq!(ends(&mut m, Ending::Entered(11), 13).pc, 0x1200);
    assert_eq!((m.violation, m.regs[1], m.tlb[1], m.tlb[2]), (0x1400, 0x1400, 0x13_9E35, 0x14_8436));
    // Every allowance ends where it should.
    for allowance in 0..=12 {
        let mut m = program(&code);
        m.regs[1] = 0x13F8;
        assert_eq!(spent(&mut m, allowance), [0, 5, 9][allowance as usize % 3] + 14 * (allowance as u32 / 3));
    }
}
