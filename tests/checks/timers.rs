//! The two timers and command 08 (document 02, request 2). Bad timers in an image are tried in `refusals`. With the feature
//! `library` the library is tried as well.

use crate::common::*;
use tac_tests::assemble::Operand::*;
use tac_tests::assemble::*;
use tac_tests::card;
use tac_tests::case::{self, Call, Case, Emulator, OWN};
use tac_tests::emulator::*;
use tac_tests::generate::Maker;
use tac_tests::image;
use tac_tests::met;
use tac_tests::report::REPORT;
use tac_tests::rng::Rng;
use tac_tests::timer::{Timer, INTERRUPT, START};

/// Started, with an interrupt.
const LOUD: u16 = START | INTERRUPT;
/// Lines of others.
const OTHERS: u16 = LINES & !3;
/// A timer that is not started, about to fire.
const STOPPED: Timer = timer(3, 4, INTERRUPT, false);

const fn timer(count: u16, period: u16, control: u16, fired: bool) -> Timer {
    Timer { count, period, control, fired }
}

/// The ports of timer `n`: its count and period, and its fired bit and control.
fn ports(n: usize) -> [u16; 2] {
    [4 * n as u16, 4 * n as u16 + 2]
}

/// The start with this timer as number `n`.
fn with(n: usize, timer: Timer, start: Machine) -> Machine {
    let mut timers = [STOPPED; 2];
    timers[n] = timer;
    Machine { timers, ..start }
}

/// A card by each emulator; the machine afterwards, and the report.
fn play(m: &Machine, card: Card) -> (Machine, Vec<u8>) {
    let out = outcome(&Case { report: vec![0xEE; 8 * REPORT], ..case_of(m, Call::Card(card.bytes())) });
    assert_eq!(out.answer >> 32, 0);
    let after = image::read(out.memory, &out.image);
    (after, out.report[..out.answer as usize].to_vec())
}

/// Command 08 by each emulator: nothing is reported, and nothing but timers and pending lines changes.
fn pass(m: &mut Machine, milliseconds: u16) {
    let case = case_of(m, Call::Card(Card::new().time(milliseconds).bytes()));
    let out = outcome(&case);
    assert_eq!((out.answer, &out.report), (0, &case.report));
    let after = image::read(out.memory, &out.image);
    let (timers, pending) = (after.timers, after.pending);
    assert!(after == Machine { timers, pending, ..m.clone() }, "something else changed");
    *m = after;
}

/// The timer after so many milliseconds, and whether its line is raised. The other timer and the other lines stay.
fn later(n: usize, timer: Timer, milliseconds: u16) -> (Timer, bool) {
    let mut m = with(n, timer, Machine { pending: OTHERS, ..kernel(&[]) });
    pass(&mut m, milliseconds);
    assert_eq!((m.timers[1 - n], m.pending & !(1 << n)), (STOPPED, OTHERS));
    (m.timers[n], m.pending >> n & 1 == 1)
}

/// "On reaching its period the count returns to 0, fired is set, and line 0 or 1 is raised if bit 15 is set."
#[test]
fn counts_and_firings() {
    // Count and period, milliseconds; the count afterwards, and whether it fires.
    let table = [
        (7, 10, 5, 2, true),
        (7, 10, 2, 9, false),
        (7, 10, 3, 0, true),
        (7, 10, 4, 1, true),
        (0, 10, 9, 9, false),
        (0, 10, 10, 0, true),
        (9, 10, 1, 0, true),
        (9, 10, 11, 0, true),
        (0, 10, 35, 5, true),
        (5, 10, 1_000, 5, true),
        (7, 10, 0, 7, false),
        (9, 10, 0, 9, false),
        (0, 1, 0, 0, false),
        (0, 1, 1, 0, true),
        (0, 1, 65_535, 0, true),
        (0, 2, 65_535, 1, true),
        (0, 65_535, 65_534, 65_534, false),
        (0, 65_535, 65_535, 0, true),
        (1, 65_535, 65_535, 1, true),
        (65_534, 65_535, 1, 0, true),
        (65_534, 65_535, 65_535, 65_534, true),
        (0, 65_534, 65_535, 1, true),
        (32_767, 32_768, 1, 0, true),
        (0, 32_768, 65_535, 32_767, true),
        (255, 256, 256, 255, true),
    ];
    for (count, period, milliseconds, left, fires) in table {
        for (n, control) in [(0, START), (0, LOUD), (1, START), (1, LOUD)] {
            let expected = (timer(left, period, control, fires), fires && control == LOUD);
            let found = later(n, timer(count, period, control, false), milliseconds);
            assert_eq!(found, expected, "timer {n}, {count} of {period}, {milliseconds} ms");
        }
    }
}

/// Fired set already stays so; "the line is raised at each firing, also where fired is set already".
#[test]
fn fired_already() {
    for n in 0..2 {
        assert_eq!(later(n, timer(7, 10, LOUD, true), 2), (timer(9, 10, LOUD, true), false));
        assert_eq!(later(n, timer(7, 10, LOUD, true), 3), (timer(0, 10, LOUD, true), true));
        assert_eq!(later(n, timer(7, 10, START, true), 3), (timer(0, 10, START, true), false));
        // The line is entered between two firings, and nobody reads fired.
        let mut m = with(n, timer(9, 10, LOUD, false), Machine { flag: P | E, ..kernel(&[]) });
        for _ in 0..3 {
            pass(&mut m, 10);
            assert_eq!((m.pending, m.timers[n]), (1 << n, timer(9, 10, LOUD, true)));
            assert_eq!(run(&mut m, 1).ending, Ending::Entered(n as u8));
            assert_eq!((m.pending, m.timers[n].fired), (0, true));
            m.flag |= E;
        }
    }
}

/// A line that is pending stays so, whether the timer fires or not.
#[test]
fn line_pending_already() {
    for (n, control, milliseconds) in [(0, LOUD, 1), (0, START, 1), (0, 0, 1), (1, LOUD, 1), (1, LOUD, 0)] {
        let mut m = with(n, timer(0, 1, control, false), Machine { pending: LINES, ..kernel(&[]) });
        pass(&mut m, milliseconds);
        assert_eq!(m.pending, LINES);
    }
}

/// "Advances each started timer": a timer that is not keeps all its words.
#[test]
fn stopped_timers() {
    for (n, control) in [(0, 0), (0, INTERRUPT), (1, 0), (1, INTERRUPT)] {
        for still in [timer(9, 10, control, false), timer(0, 1, control, true), timer(0, 0, control, false)] {
            for milliseconds in [0, 1, 10, 65_535] {
                assert_eq!(later(n, still, milliseconds), (still, false));
            }
        }
    }
}

/// "Period 0 never fires and keeps count 0."
#[test]
fn period_zero() {
    for (n, control) in [(0, START), (0, LOUD), (1, START), (1, LOUD)] {
        for still in [timer(0, 0, control, false), timer(0, 0, control, true)] {
            for milliseconds in [0, 1, 2, 65_535] {
                assert_eq!(later(n, still, milliseconds), (still, false));
            }
        }
    }
}

/// Both timers go on by one command, each by its own period.
#[test]
fn both_timers() {
    let both = |control: [u16; 2]| {
        let timers = [timer(4, 5, control[0], false), timer(1, 7, control[1], false)];
        let mut m = Machine { timers, ..kernel(&[]) };
        pass(&mut m, 8);
        (m.timers, m.pending)
    };
    let after = |control: [u16; 2]| [timer(2, 5, control[0], true), timer(2, 7, control[1], true)];
    for (control, pending) in [([LOUD, LOUD], 3), ([LOUD, START], 1), ([START, LOUD], 2), ([START, START], 0)] {
        assert_eq!(both(control), (after(control), pending));
    }
}

/// Milliseconds pass one by one: in one command or in several they do the same.
#[test]
fn one_command_or_several() {
    let start = Machine { timers: [timer(3, 7, LOUD, false), timer(0, 11, START, false)], ..kernel(&[]) };
    let (mut whole, mut parts) = (start.clone(), start);
    for milliseconds in [0, 1, 2, 3, 5, 8, 13, 21, 34, 0, 55] {
        pass(&mut parts, milliseconds);
    }
    pass(&mut whole, 142);
    assert!(whole == parts);
    // The same as one card, with a run in between.
    let (m, report) = play(&kernel(&[]), Card::new().time(5).run(1).time(6));
    assert_eq!((m.timers, report.len()), ([Timer::default(); 2], REPORT));
    let (m, _) = play(&with(1, timer(0, 10, LOUD, false), kernel(&[])), Card::new().time(5).run(1).time(6));
    assert_eq!((m.timers[1], m.pending), (timer(1, 10, LOUD, true), 2));
}

/// Time passes on a halted and on a lost machine, whatever FLAG and the MMU are.
#[test]
fn any_condition() {
    for (n, condition) in [(0, HALTED), (0, LOST), (1, HALTED), (1, LOST), (0, RUNNING), (1, RUNNING)] {
        for (flag, mmu_on) in [(0, true), (P | E, true), (P, false), (E | I, false), (FLAG_BITS, true)] {
            let start = Machine { condition, flag, mmu_on, ssp: 0x1001, ..user(&[]) };
            let mut m = with(n, timer(7, 10, LOUD, false), start);
            pass(&mut m, 5);
            assert_eq!((m.timers[n], m.pending), (timer(2, 10, LOUD, true), 1 << n));
            // No line ends these conditions.
            if condition != RUNNING {
                let report = run(&mut m, 9);
                assert_eq!((report.steps, m.condition, m.pending), (0, condition, 1 << n));
            }
        }
    }
}

/// A raised line is entered by the next run if E=1, the lower one first; else it waits.
#[test]
fn lines_are_entered() {
    for n in 0..2 {
        let mut m = with(n, timer(0, 10, LOUD, false), Machine { flag: E | C, ..user(&no()) });
        put(&mut m, 0xFFE0 + 2 * n, &[0x5550]);
        pass(&mut m, 9);
        assert_eq!(run(&mut m, 1).ending, Ending::Spent);
        pass(&mut m, 1);
        let report = run(&mut m, 9);
        let expected = Report { ending: Ending::Entered(n as u8), steps: 1, states: 12, pc: 0x1202, flag: E | C };
        assert_eq!((report, m.pc, m.pending), (expected, 0x5550, 0));
        // The entry leaves the timer, fired too.
        assert_eq!(m.timers[n], timer(0, 10, LOUD, true));
        let mut m = with(n, timer(0, 1, LOUD, false), kernel(&[]));
        pass(&mut m, 1);
        assert_eq!((run(&mut m, 5).ending, m.pending), (Ending::Spent, 1 << n));
        m.flag |= E;
        assert_eq!((run(&mut m, 5).ending, m.pending), (Ending::Entered(n as u8), 0));
    }
    let mut m = Machine { flag: P | E, timers: [timer(0, 1, LOUD, false); 2], ..kernel(&[]) };
    pass(&mut m, 1);
    assert_eq!((run(&mut m, 5).ending, m.pending), (Ending::Entered(0), 2));
    m.flag |= E;
    assert_eq!((run(&mut m, 5).ending, m.pending), (Ending::Entered(1), 0));
}

/// "Time passes only by this command": not by runs, views, looks and other commands.
#[test]
fn nothing_else_lets_time_pass() {
    let timers = [timer(0, 1, LOUD, false), timer(6, 7, LOUD, false)];
    let mut m = Machine { timers, ..kernel(&jump(ALWAYS, At(0x0100))) };
    for allowance in [0, 1, 65_535] {
        run(&mut m, allowance);
        assert_eq!((m.timers, m.pending), (timers, 0));
    }
    for call in [Call::View, Call::Fault] {
        assert_eq!(outcome(&case_of(&m, call)).image, image::write(&m));
    }
    let others = Card::new().byte(0x0200, 1).register(1, 2).lines(0, 3).run(9).entry(1, 0).mmu(0).flag(P).time(0);
    let (m, _) = play(&m, others);
    assert_eq!((m.timers, m.pending), (timers, 0));
}

/// IN or OUT of G1, by direct mode and by a pointer, each with its states; both do the same to timers and lines. The machine
/// afterwards.
fn at_port(m: &Machine, port: u16, value: u16, ways: [(Words, u32); 2]) -> Machine {
    let [direct, pointed] = ways.map(|(code, states)| {
        let mut m = Machine { pc: 0x0100, ..m.clone() };
        (m.regs[1], m.regs[2]) = (value, port);
        put(&mut m, 0x0100, &code);
        let report = run(&mut m, 1);
        assert_eq!((report.ending, report.states), (Ending::Spent, states));
        m
    });
    assert_eq!((direct.regs, direct.timers, direct.pending), (pointed.regs, pointed.timers, pointed.pending));
    direct
}

/// IN of a port: the word, and the machine afterwards.
fn read(m: &Machine, port: u16) -> (u16, Machine) {
    let after = at_port(m, port, 0x5555, [(input(1, At(port)), 7), (input(1, Pointer(2)), 6)]);
    (after.regs[1], after)
}

/// OUT of a value; the machine afterwards.
fn write(m: &Machine, port: u16, value: u16) -> Machine {
    at_port(m, port, value, [(output(1, At(port)), 6), (output(1, Pointer(2)), 5)])
}

/// "Ports 00h and 04h read the count", and clear nothing.
#[test]
fn count_is_read() {
    for n in 0..2 {
        for (count, period) in [(0, 0), (0, 1), (1, 2), (0x1234, 0x5678), (0x8001, 0x8002), (0xFFFE, 0xFFFF)] {
            for (control, fired) in [(0, true), (START, false), (LOUD, true)] {
                let before = with(n, timer(count, period, control, fired), Machine { pending: LINES, ..kernel(&[]) });
                let (word, after) = read(&before, ports(n)[0]);
                assert_eq!((word, after.timers, after.pending), (count, before.timers, LINES));
            }
        }
    }
}

/// "02h and 06h read fired in bit 15, clearing it"; the rest of the timer, the other one and the line stay.
#[test]
fn fired_is_read_and_cleared() {
    for n in 0..2 {
        for control in [0, START, INTERRUPT, LOUD] {
            let mut before = with(n, timer(7, 10, control, true), Machine { pending: LINES, ..kernel(&[]) });
            before.timers[1 - n].fired = true;
            let (word, after) = read(&before, ports(n)[1]);
            assert_eq!((word, after.timers[n]), (0x8000, timer(7, 10, control, false)));
            assert_eq!((after.timers[1 - n], after.pending), (before.timers[1 - n], LINES));
            let (word, again) = read(&after, ports(n)[1]);
            assert_eq!((word, again.timers, again.pending), (0, after.timers, LINES));
        }
    }
}

/// "Set the period, which zeroes the count": fired and control stay, whether the timer is started or not.
#[test]
fn period_is_set() {
    for (n, control) in [(0, 0), (0, LOUD), (1, INTERRUPT), (1, START)] {
        for (period, fired) in
            [(10, true), (10, false), (0, true), (1, false), (3, true), (0x8001, false), (0xFFFF, true)]
        {
            let before = with(n, timer(7, 10, control, fired), kernel(&[]));
            let after = write(&before, ports(n)[0], period);
            assert_eq!((after.timers[n], after.timers[1 - n]), (timer(0, period, control, fired), STOPPED));
            assert_eq!(after.pending, 0);
        }
    }
}

/// "Set control (bit 15 interrupt, bit 0 start, others stored as 0)": count, period and fired stay.
#[test]
fn control_is_set() {
    for n in 0..2 {
        let values =
            [(0, 0), (1, START), (0x8000, INTERRUPT), (0x8001, LOUD), (0xFFFF, LOUD), (0x7FFE, 0), (0xFFFE, INTERRUPT)];
        for (value, stored) in values.into_iter().chain([(0x7FFF, START), (0x0002, 0), (0x4000, 0), (0x0101, START)]) {
            for (control, fired) in [(0, true), (LOUD, false)] {
                let before = with(n, timer(7, 10, control, fired), kernel(&[]));
                let after = write(&before, ports(n)[1], value);
                assert_eq!((after.timers[n], after.timers[1 - n]), (timer(7, 10, stored, fired), STOPPED));
                assert_eq!(after.pending, 0);
            }
        }
    }
}

/// A port is the whole 16-bit address; those beside the timers' read 0 and drop writes.
#[test]
fn other_ports() {
    let before = Machine { timers: [timer(7, 10, START, true), timer(8, 11, INTERRUPT, true)], ..kernel(&[]) };
    let odd = [0x0001, 0x0003, 0x0005, 0x0007];
    for port in odd.into_iter().chain([0x0008, 0x000A, 0x0100, 0x0102, 0x0104, 0x0106, 0x8000, 0xFF02, 0xFFFE]) {
        let (word, after) = read(&before, port);
        assert_eq!((word, after.timers), (0, before.timers), "{port:04X}");
        assert_eq!(write(&before, port, 0xFFFF).timers, before.timers, "{port:04X}");
    }
}

/// "IN and OUT need P=1 or I=1": a user program without I reaches no timer, with I each of them.
#[test]
fn users_need_io_privilege() {
    for (n, mmu_on) in [(0, true), (0, false), (1, true), (1, false)] {
        for (k, port) in ports(n).into_iter().enumerate() {
            let codes = [input(1, At(port)), input(1, Pointer(2)), output(1, At(port)), output(1, Pointer(2))];
            for (way, code) in codes.into_iter().enumerate() {
                let mut start = Machine { mmu_on, ..user(&code) };
                put(&mut start, 0x1200, &code);
                (start.regs[1], start.regs[2]) = (0x8005, port);
                let before = with(n, timer(7, 10, LOUD, true), start);
                let mut m = before.clone();
                assert_eq!(run(&mut m, 1).ending, Ending::Entered(13));
                assert_eq!((m.timers, m.regs), (before.timers, before.regs));
                let mut m = Machine { flag: I, ..before };
                assert_eq!(run(&mut m, 1).ending, Ending::Spent);
                let (word, left) = match (way < 2, k) {
                    (true, 0) => (7, timer(7, 10, LOUD, true)),
                    (true, _) => (0x8000, timer(7, 10, LOUD, false)),
                    (false, 0) => (0x8005, timer(0, 0x8005, LOUD, true)),
                    (false, _) => (0x8005, timer(7, 10, LOUD, true)),
                };
                assert_eq!((m.regs[1], m.timers[n], m.timers[1 - n]), (word, left, STOPPED));
            }
        }
    }
}

/// A card that ends with 08 is good, up to 4,096 bytes; one byte less is refused, and no time has passed.
#[test]
fn at_the_end_of_a_card() {
    let start = with(0, timer(0, 2_000, LOUD, false), kernel(&[]));
    let long = (0..1_364).fold(Card::new().byte(0x0200, 7), |card, _| card.time(1));
    let (m, report) = play(&start, long.clone());
    assert_eq!((m.timers[0], m.memory[0x0200], report.len()), (timer(1_364, 2_000, LOUD, false), 7, 0));
    let long = long.bytes();
    assert_eq!(long.len(), 4_096);
    for (length, position) in [(4_095, 4_093), (4_094, 4_093), (6, 4), (5, 4)] {
        let case = case_of(&start, Call::Card(long[..length].to_vec()));
        let out = outcome(&case);
        assert_eq!((refusal(out.answer), &out.image), ((6, position), &case.image));
        assert!(out.memory == case.memory);
    }
    // No report is asked for.
    let case = Case { report: Vec::new(), ..case_of(&start, Call::Card(vec![0x08, 0xFF, 0xFF])) };
    assert_eq!(outcome(&case).answer, 0);
}

/// What `compare` tries holds here, and it comes to everything that can happen to a timer; runs and cards come to the
/// timers' ports.
#[test]
fn random_times() {
    let (mut maker, mut case) = (Maker::new(), Case::empty());
    met::take();
    for index in 0..1_500 {
        maker.time_case(&mut Rng::of_case(16, 1, index), &mut case);
        outcome(&case);
    }
    assert_eq!(met::take().lacking(), Vec::<String>::new());
    for make in [Maker::run_case, Maker::card_case] {
        let reached = (0..1_500).filter(|index| {
            make(&mut maker, &mut Rng::of_case(17, 1, *index), &mut case);
            outcome(&case);
            met::take().ports()
        });
        assert!(reached.count() > 30);
    }
}

/// A card in which each time is changed.
fn changed(card: &[u8], change: impl Fn(u16) -> u16) -> Vec<u8> {
    let mut card = card.to_vec();
    let mut at = 0;
    while let Some(operands) = card.get(at).and_then(|first| card::operands(*first)) {
        if card[at] == 0x08 && at + 2 < card.len() {
            let milliseconds = change(u16::from_be_bytes([card[at + 1], card[at + 2]]));
            card[at + 1..at + 3].copy_from_slice(&milliseconds.to_be_bytes());
        }
        at += 1 + operands;
    }
    card
}

/// Each time is one millisecond shorter.
fn shorter(memory: &mut [u8], image: &mut [u8], card: &[u8], report: &mut [u8]) -> u64 {
    card::card(memory, image, &changed(card, |milliseconds| milliseconds.saturating_sub(1)), report)
}

/// Time stands still on a machine that is found halted or lost.
fn standing(memory: &mut [u8], image: &mut [u8], card: &[u8], report: &mut [u8]) -> u64 {
    let stopped = image.get(image::CONDITION).is_some_and(|condition| *condition != RUNNING);
    card::card(memory, image, &changed(card, |milliseconds| if stopped { 0 } else { milliseconds }), report)
}

/// The timers in each other's place.
fn exchanged(memory: &mut [u8], image: &mut [u8], card: &[u8], report: &mut [u8]) -> u64 {
    let exchange = |image: &mut [u8]| {
        if image.len() == image::IMAGE {
            image[image::TIMERS..].rotate_left(image::TIMER);
        }
    };
    exchange(image);
    let answer = card::card(memory, image, card, report);
    exchange(image);
    answer
}

/// Refusal 3 does not look at timers that are not started.
fn lax(memory: &mut [u8], image: &mut [u8], card: &[u8], report: &mut [u8]) -> u64 {
    let kept = image.to_vec();
    for timer in image[image::TIMERS..].chunks_mut(image::TIMER).filter(|timer| timer[image::CONTROL + 1] & 1 == 0) {
        timer.fill(0);
    }
    let answer = card::card(memory, image, card, report);
    if answer >> 32 != 0 {
        image.copy_from_slice(&kept);
    }
    answer
}

/// Emulators with wrong times: the cases notice, and get smaller.
#[test]
fn wrong_times_are_seen() {
    for (name, card) in
        [("shorter", shorter as case::CardCall), ("standing", standing), ("exchanged", exchanged), ("lax", lax)]
    {
        let wrong = Emulator { name, card, ..OWN };
        let mut maker = Maker::new();
        let small = smallest_difference(&wrong, 100, |index, case| {
            maker.time_case(&mut Rng::of_case(18, 1, index), case);
        });
        assert!(small.memory.iter().all(|byte| *byte == 0), "{name}");
    }
}
