//! The winder (document 02, request 5). Refusals 1 to 3 are tried in `refusals` as well, with those of the other calls.
//! With the feature `library` the library is tried as well.

use crate::common::*;
use tac_tests::assemble::Operand::*;
use tac_tests::assemble::*;
use tac_tests::case::{self, Call, Case, Emulator, WindCall, OWN};
use tac_tests::emulator::*;
use tac_tests::generate::Maker;
use tac_tests::image;
use tac_tests::replay::{parse, Replay};
use tac_tests::rng::Rng;
use tac_tests::timer::{Timer, INTERRUPT, START};
use tac_tests::winder::{self, Settings};
use tac_tests::wound::{self, Wound};

/// Turns, notches, rundown, ticks and steps.
type Numbers = [u32; 5];

/// What a simulation left.
struct Left {
    over: u64,
    standing: Vec<u16>,
    machine: Machine,
}

/// A simulation with so many bytes for places.
fn winding(m: &Machine, numbers: Numbers, bytes: usize) -> Case {
    Case { report: vec![0xEE; bytes], ..case_of(m, Call::Wind(Settings::of(numbers))) }
}

/// A simulation by each emulator, with as many places as ticks.
fn wind(m: &Machine, numbers: Numbers) -> Left {
    let out = outcome(&winding(m, numbers, 2 * numbers[3] as usize));
    assert_eq!(out.answer >> 32, 0);
    let standing = out.report.chunks(2).map(|place| u16::from_be_bytes([place[0], place[1]])).collect();
    Left { over: out.answer, standing, machine: image::read(out.memory, &out.image) }
}

fn standing(m: &Machine, numbers: Numbers) -> Vec<u16> {
    wind(m, numbers).standing
}

/// The answer; on a refusal nothing is touched.
fn answer(case: &Case) -> (u64, u64) {
    let out = outcome(case);
    if out.answer >> 32 != 0 {
        assert!(
            (&out.memory, &out.image, &out.report) == (&case.memory, &case.image, &case.report),
            "a buffer changed"
        );
    }
    refusal(out.answer)
}

/// In kernel mode, with G0 = 1 and G1 = 0.
fn program(code: &[Words]) -> Machine {
    let mut m = kernel(&code.concat());
    m.regs[0] = 1;
    m
}

/// A jump to itself: the output byte stays.
fn turning(output: u8) -> Machine {
    Machine { output, ..program(&[jump(ALWAYS, At(0x0100))]) }
}

fn on() -> Words {
    output(0, At(0x18))
}

fn off() -> Words {
    output(1, At(0x18))
}

/// Four steps: the motor is on where input bit 0 is clear.
fn obeying(start: u16) -> Words {
    [input(0, At(0x18)), xor(0, Short(1)), output(0, At(0x18)), jump(ALWAYS, At(start))].concat()
}

/// What stands then with a label of one turn of 3 notches and a run-down of 4: the label is reached in tick 3, the train
/// takes one in ticks 4, 8 and 12, and the next tick winds it again.
const OBEYED: [u16; 12] = [1, 2, 3, 2, 3, 3, 3, 2, 3, 3, 3, 2];

/// "The barrel starts with no notch standing."
#[test]
fn nothing_stands_at_first() {
    let left = wind(&turning(0), [1, 1, 64, 5, 1]);
    assert_eq!((left.over, left.standing), (0, vec![0; 5]));
}

/// "Bit 0 of the output byte, if set, winds one notch", and no other bit does. The byte stays.
#[test]
fn output_bit_0_winds() {
    for output in 0..=255 {
        let left = wind(&turning(output), [999, 64, 64, 3, 1]);
        assert_eq!(left.standing, if output % 2 == 1 { [1, 2, 3] } else { [0, 0, 0] });
        assert_eq!(left.machine.output, output);
    }
}

/// "Per tick, the machine gets a set number of steps": NO, from 0100h on, past FFFEh to 00FEh where they are 65,535.
#[test]
fn steps_of_a_tick() {
    for (ticks, steps, pc) in [(1, 1, 0x0102), (4, 3, 0x0118), (3, 4, 0x0118), (1, 65_535, 0x00FE), (65_535, 1, 0x00FE)]
    {
        let left = wind(&program(&[]), [1, 1, 1, ticks, steps]);
        assert_eq!((left.machine.pc, left.over), (pc, 0));
        assert!(left.standing.iter().all(|standing| *standing == 0));
    }
}

/// What the steps do to memory and registers is there afterwards.
#[test]
fn memory_and_image_are_those_after_the_steps() {
    let code = [add(2, Short(1)), st(2, At(0x2000)), jump(ALWAYS, At(0x0100))];
    let left = wind(&program(&code), [1, 1, 1, 7, 3]);
    assert_eq!((left.machine.get(0x2000), left.machine.regs[2], left.machine.pc), (7, 7, 0x0100));
}

/// The output byte counts as the tick's last step left it.
#[test]
fn output_as_the_steps_left_it() {
    let code = [ld(2, Short(1)), output(2, At(0x18)), ld(2, Short(0)), output(2, At(0x18)), jump(ALWAYS, At(0x0100))];
    // On and off again in each tick.
    assert_eq!(standing(&program(&code), [1, 1, 64, 4, 5]), [0; 4]);
    // By two steps: on, off, still off, on, off, on.
    assert_eq!(standing(&program(&code), [9, 1, 64, 6, 2]), [1, 1, 1, 2, 2, 3]);
    // By four: off, on, on, off, off.
    assert_eq!(standing(&program(&code), [9, 1, 64, 5, 4]), [0, 1, 2, 2, 2]);
}

/// Winding comes before taking: a notch just wound can be taken. "Every r-th tick, counted from 1."
#[test]
fn winding_before_taking() {
    let m = turning(1);
    assert_eq!(standing(&m, [1, 1, 1, 6, 1]), [0; 6]);
    assert_eq!(standing(&m, [9, 1, 2, 6, 1]), [1, 1, 2, 2, 3, 3]);
    assert_eq!(standing(&m, [9, 1, 3, 9, 1]), [1, 2, 2, 3, 4, 4, 5, 6, 6]);
    assert_eq!(standing(&m, [9, 1, 9, 9, 1]), [1, 2, 3, 4, 5, 6, 7, 8, 8]);
    assert_eq!(standing(&m, [9, 1, 10, 9, 1]), [1, 2, 3, 4, 5, 6, 7, 8, 9]);
    // Of 64: ticks 63 to 65 and 127 to 129.
    let long = standing(&m, [999, 1, 64, 130, 1]);
    assert_eq!((&long[62..65], &long[126..129]), (&[63, 63, 64][..], &[126, 126, 127][..]));
    let long = standing(&m, [999, 1, 63, 130, 1]);
    assert_eq!((&long[61..64], &long[124..127]), (&[62, 62, 63][..], &[124, 124, 125][..]));
}

/// "If any is left": a tick that finds none takes none, and owes none.
#[test]
fn taking_if_any_is_left() {
    assert_eq!(standing(&turning(0), [1, 1, 1, 4, 1]), [0; 4]);
    // On in ticks 1 and 2, off in 3 to 6, on again.
    let m = program(&[on(), no(), off(), no(), no(), no(), on()]);
    assert_eq!(standing(&m, [9, 1, 2, 8, 1]), [1, 1, 1, 0, 0, 0, 1, 1]);
    assert_eq!(standing(&m, [9, 1, 1, 8, 1]), [0; 8]);
    assert_eq!(standing(&m, [9, 1, 3, 8, 1]), [1, 2, 1, 1, 1, 0, 1, 2]);
}

/// IN of the input byte into G0 to G11, one in each tick, with the motor on.
fn reading(input_byte: u8) -> Machine {
    let code: Vec<Words> = (0..12).map(|n| input(n, At(0x18))).collect();
    Machine { input: input_byte, output: 1, ..kernel(&code.concat()) }
}

/// "Input bit 0 is set for the next tick exactly when the whole turns standing have reached the label; for the first tick
/// it is clear." Turns, notches, and the tick that finds it set first.
#[test]
fn input_bit_at_the_label() {
    for (turns, notches, first) in [(1, 1, 2), (2, 1, 3), (1, 2, 3), (2, 3, 7), (3, 2, 7), (1, 10, 11), (3, 3, 10)] {
        let left = wind(&reading(0xF5), [turns, notches, 64, 12, 1]);
        let expected: Vec<u16> = (1..=12).map(|tick| if tick < first { 0xF4 } else { 0xF5 }).collect();
        assert_eq!((&left.machine.regs[..12], left.machine.input), (&expected[..], 0xF5), "{turns} × {notches}");
        assert_eq!(left.standing, [1, 2, 3, 4, 5, 6, 7, 8, 9, 10, 11, 12]);
    }
    // Two turns of 6 are reached in tick 12 only, two of 7 not at all.
    let left = wind(&reading(0xF5), [2, 6, 64, 12, 1]);
    assert_eq!((&left.machine.regs[..12], left.machine.input), (&[0xF4; 12][..], 0xF5));
    let left = wind(&reading(0xF5), [2, 7, 64, 12, 1]);
    assert_eq!((&left.machine.regs[..12], left.machine.input), (&[0xF4; 12][..], 0xF4));
}

/// It goes by what stands after taking.
#[test]
fn input_bit_behind_taking() {
    // Standing 1, 1, 2, 2, 3, 3, 4, 4, 5, 5, 6, 6.
    let left = wind(&reading(0x00), [3, 1, 2, 12, 1]);
    assert_eq!(left.machine.regs[..12], [0, 0, 0, 0, 0, 1, 1, 1, 1, 1, 1, 1]);
    let left = wind(&reading(0x01), [1, 1, 1, 12, 1]);
    assert_eq!((&left.machine.regs[..12], left.machine.input), (&[0; 12][..], 0));
}

/// It is cleared where the turns fall below the label again: two notches stand after tick 3, one after tick 4.
#[test]
fn input_bit_cleared_again() {
    let m = program(&[on(), no(), off(), input(2, At(0x18)), input(3, At(0x18))]);
    let left = wind(&m, [1, 2, 4, 5, 1]);
    assert_eq!((left.over, left.standing), (0, vec![1, 2, 2, 1, 1]));
    assert_eq!((left.machine.regs[2], left.machine.regs[3], left.machine.input), (1, 0, 0));
}

/// "For the first tick it is clear", though the image has it set; "input bits 1-7 are kept".
#[test]
fn input_byte() {
    for byte in 0..=255u8 {
        let m = Machine { input: byte, ..program(&[input(2, At(0x18))]) };
        let left = wind(&m, [1, 1, 64, 1, 1]);
        assert_eq!((left.machine.regs[2], left.machine.input), (byte as u16 & 0xFE, byte & 0xFE));
        let left = wind(&Machine { output: 1, ..m }, [1, 1, 64, 1, 1]);
        assert_eq!((left.machine.regs[2], left.machine.input), (byte as u16 & 0xFE, byte | 1));
    }
}

/// "The image after the last tick has the bit by the same rule", whatever number of ticks that is.
#[test]
fn input_bit_in_the_image() {
    for ticks in 1..=9 {
        let left = wind(&Machine { input: 0xA7, ..turning(1) }, [2, 3, 64, ticks, 2]);
        assert_eq!(left.machine.input, if ticks < 6 { 0xA6 } else { 0xA7 }, "{ticks}");
    }
}

/// The bit does not change inside a tick.
#[test]
fn input_bit_inside_a_tick() {
    let left = wind(&reading(0x21), [1, 1, 64, 4, 3]);
    assert_eq!(left.machine.regs[..3], [0x20; 3]);
    assert_eq!(left.machine.regs[3..12], [0x21; 9]);
}

/// A program that obeys holds the label and is never over it, in the kernel and as a user with I/O privilege. The R-bit
/// of its page is the steps' work.
#[test]
fn obeying_program() {
    let in_kernel = Machine { input: 0x81, ..kernel(&obeying(0x0100)) };
    let by_user = Machine { input: 0x81, flag: I, ..user(&obeying(0x1200)) };
    for m in [in_kernel, by_user] {
        let left = wind(&m, [1, 3, 4, 12, 4]);
        assert_eq!((left.over, &left.standing[..]), (0, &OBEYED[..]));
        assert_eq!((left.machine.input, left.machine.output, left.machine.pc), (0x80, 0x80, m.pc));
        assert_eq!(left.machine.tlb[0], if m.flag == I { 0x12_9534 } else { 0 });
    }
}

/// Over any number of ticks: fewer ticks give the front of what more give.
#[test]
fn fewer_ticks() {
    for ticks in 1..=12 {
        let left = wind(&kernel(&obeying(0x0100)), [1, 3, 4, ticks as u32, 4]);
        assert_eq!(left.standing, OBEYED[..ticks]);
        assert_eq!(left.machine.input, if OBEYED[ticks - 1] == 3 { 1 } else { 0 });
    }
}

/// "The first tick, counted from 1, with more standing than the label times the notches per turn, or 0 for none": turns,
/// notches, rundown, ticks and that tick.
#[test]
fn first_tick_over() {
    let expected = [
        (1, 1, 64, 1, 0),
        (1, 1, 64, 2, 2),
        (1, 1, 64, 9, 2),
        (2, 3, 64, 6, 0),
        (2, 3, 64, 7, 7),
        (2, 3, 64, 60, 7),
        (3, 2, 64, 60, 7),
        // Standing 1, 1, 2, 2, 3, 3.
        (1, 1, 2, 2, 0),
        (1, 1, 2, 9, 3),
        (1, 2, 2, 4, 0),
        (1, 2, 2, 9, 5),
        // Standing 1, 2, 2, 3, 4, 4.
        (1, 2, 3, 9, 4),
        (1, 3, 3, 9, 5),
        (1, 1, 1, 200, 0),
        // Standing 63 in ticks 63 and 64, then 64.
        (63, 1, 64, 64, 0),
        (63, 1, 64, 65, 65),
        (1, 63, 64, 65, 65),
    ];
    for (turns, notches, rundown, ticks, over) in expected {
        assert_eq!(wind(&turning(1), [turns, notches, rundown, ticks, 1]).over, over, "{turns} × {notches}, {ticks}");
    }
}

/// The first one, though the notches fall again and rise again.
#[test]
fn first_of_several() {
    let m = program(&[on(), no(), no(), no(), no(), off(), no(), no(), no(), on()]);
    let left = wind(&m, [1, 1, 2, 14, 1]);
    assert_eq!(left.standing, [1, 1, 2, 2, 3, 2, 2, 1, 1, 1, 2, 2, 3, 3]);
    assert_eq!((left.over, left.machine.input), (3, 1));
}

/// The largest label, 999 × 64 = 63,936. Of 64 ticks 63 leave one more: after 1,014 × 64 + 54 ticks 1,014 × 63 + 54 =
/// 63,936 stand, and after 65,535 = 1,023 × 64 + 63 ticks 64,512.
#[test]
fn as_many_ticks_as_there_can_be() {
    let left = wind(&turning(1), [999, 64, 64, 65_535, 1]);
    assert_eq!((left.over, left.machine.input, left.standing.len()), (64_951, 1, 65_535));
    assert!((1..=65_535u32).zip(&left.standing).all(|(tick, standing)| tick - tick / 64 == *standing as u32));
    assert_eq!(left.standing[65_534], 64_512);
    let left = wind(&turning(1), [999, 64, 64, 64_950, 1]);
    assert_eq!((left.over, left.machine.input), (0, 1));
    let left = wind(&turning(1), [999, 64, 64, 64_949, 1]);
    assert_eq!((left.over, left.machine.input, left.standing[64_948]), (0, 0, 63_935));
}

/// "Two bytes a place", upper byte first: ticks 259 to 261 leave 255, 256 and 257.
#[test]
fn both_bytes_of_a_place() {
    let out = outcome(&winding(&turning(1), [999, 64, 64, 300, 1], 600));
    assert_eq!(out.report[516..522], [0x00, 0xFF, 0x01, 0x00, 0x01, 0x01]);
    assert_eq!(out.report[..4], [0x00, 0x01, 0x00, 0x02]);
}

/// "Result places behind the ticks" are kept, and an odd last byte.
#[test]
fn places_behind_the_ticks() {
    for more in 0..=7 {
        let out = outcome(&winding(&turning(1), [1, 1, 64, 3, 1], 6 + more));
        assert_eq!((out.answer, &out.report[..6]), (2, &[0, 1, 0, 2, 0, 3][..]));
        assert_eq!(out.report[6..], vec![0xEE; more]);
    }
}

/// Nothing is written behind the places that are lent, nor behind memory and image.
#[test]
fn bytes_behind_the_buffers() {
    for (ticks, bytes) in [(3, 6), (3, 7), (3, 5), (1, 2), (1, 0), (65_535, 131_070), (65_535, 131_069)] {
        let case = winding(&turning(1), [1, 1, 64, ticks, 1], bytes);
        assert!(EMULATORS.iter().all(|emulator| !wound::writes_behind(emulator, &case)), "{ticks}, {bytes}");
    }
}

/// Entered at its first step, by each number, as a user: the handler switches the motor on in its second.
fn entering() -> Vec<Machine> {
    let faults = [ld(0, At(0x9980)), ld(0, At(0x1381)), div(0, Short(0)), halt(), word(0xF800), svc()];
    let by_fault = faults.into_iter().map(|code| user(&code));
    let by_line = (0..10).map(|line| Machine { flag: E, pending: 1 << line, ..user(&no()) });
    let mut list: Vec<Machine> = by_line.chain(by_fault).collect();
    for (number, m) in list.iter_mut().enumerate() {
        put(m, 0xFFE0 + 2 * number, &[0x0300]);
        put(m, 0x0300, &[ld(0, Short(1)), output(0, At(0x18)), jump(ALWAYS, At(0x0300))].concat());
    }
    list
}

/// "Carrying on through kernel entries", which are steps: the tick goes on with the handler.
#[test]
fn on_through_each_entry() {
    for (number, m) in entering().into_iter().enumerate() {
        for (ticks, steps, places) in
            [(1, 3, &[1][..]), (1, 2, &[0]), (1, 1, &[0]), (2, 2, &[0, 1]), (3, 1, &[0, 0, 1]), (2, 300, &[1, 2])]
        {
            assert_eq!(standing(&m, [9, 9, 64, ticks, steps]), places, "number {number}, {steps} steps");
        }
        let after = wind(&m, [9, 9, 64, 1, 3]).machine;
        assert_eq!((after.pc, after.ssp, after.flag & (E | P), after.pending), (0x0306, 0x0FFC, P, 0));
    }
}

/// Many entries in a tick: SVC, RETI and a jump; and a handler that is SVC itself.
#[test]
fn many_entries_in_a_tick() {
    let mut m = program(&[svc(), jump(ALWAYS, At(0x0100))]);
    put(&mut m, 0xFFFE, &[0x0200]);
    put(&mut m, 0x0200, &reti());
    let after = wind(&m, [1, 1, 1, 10, 300]).machine;
    assert_eq!((after.pc, after.ssp, after.flag), (0x0100, 0x1000, P));
    let after = wind(&m, [1, 1, 1, 1, 302]).machine;
    assert_eq!((after.pc, after.ssp), (0x0102, 0x1000));
    put(&mut m, 0x0200, &svc());
    let after = wind(&m, [1, 1, 1, 2, 5]).machine;
    assert_eq!((after.pc, after.ssp), (0x0200, 0x1000 - 40));
}

/// Lines that are pending are entered one after the other, in one tick or in several.
#[test]
fn lines_in_ticks() {
    let mut m = Machine { flag: E | P, pending: 0x0203, ..program(&[]) };
    for line in [0, 1, 9] {
        put(&mut m, 0xFFE0 + 2 * line, &[0x0200]);
    }
    put(&mut m, 0x0200, &reti());
    for (ticks, steps) in [(1, 6), (6, 1), (2, 3), (3, 2)] {
        let after = wind(&m, [1, 1, 1, ticks, steps]).machine;
        assert_eq!((after.pending, after.pc, after.ssp, after.flag), (0, 0x0100, 0x1000, E | P));
    }
    let after = wind(&m, [1, 1, 1, 1, 3]).machine;
    assert_eq!((after.pending, after.pc, after.ssp), (0x0200, 0x0200, 0x0FFC));
}

/// "Until halted": no further step, and the ticks go on, winding by the output byte.
#[test]
fn halted_in_a_tick() {
    let m = program(&[on(), no(), halt(), off(), off()]);
    let left = wind(&m, [1, 2, 64, 5, 2]);
    assert_eq!((left.over, left.standing), (3, vec![1, 2, 3, 4, 5]));
    assert_eq!((left.machine.condition, left.machine.pc, left.machine.output), (HALTED, 0x0108, 1));
    assert_eq!(standing(&m, [9, 9, 3, 5, 9]), [1, 2, 2, 3, 4]);
    // Off when it halts.
    let m = program(&[on(), off(), halt(), on()]);
    assert_eq!(standing(&m, [1, 1, 3, 6, 1]), [1, 1, 0, 0, 0, 0]);
    assert_eq!(standing(&m, [1, 1, 3, 3, 9]), [0, 0, 0]);
}

/// "Or lost": the step that loses the machine counts, and there is no other.
#[test]
fn lost_in_a_tick() {
    let m = Machine { ssp: 0x1001, ..program(&[on(), svc(), off()]) };
    let left = wind(&m, [1, 2, 64, 5, 1]);
    assert_eq!((left.over, left.standing), (3, vec![1, 2, 3, 4, 5]));
    assert_eq!((left.machine.condition, left.machine.pc, left.machine.ssp), (LOST, 0x0104, 0x1001));
    assert_eq!(standing(&m, [9, 9, 2, 5, 9]), [1, 1, 2, 2, 3]);
}

/// A machine found halted or lost: only the input bit changes, in the image and in memory.
#[test]
fn found_halted_or_lost() {
    for (condition, output) in [(HALTED, 1), (HALTED, 0xFE), (LOST, 1), (LOST, 0xFE)] {
        let mut m = image::read(vec![0xA5; MEMORY], &full_image());
        (m.condition, m.output, m.input) = (condition, output, 0xB5);
        let left = wind(&m, [1, 3, 64, 4, 65_535]);
        let on = output == 1;
        assert_eq!((left.over, left.standing), if on { (4, vec![1, 2, 3, 4]) } else { (0, vec![0; 4]) });
        m.input = if on { 0xB5 } else { 0xB4 };
        assert!(left.machine == m, "condition {condition}");
    }
}

/// Time passes only by command 08: the timers stay, whatever number of ticks there is.
#[test]
fn timers_stand() {
    let timers = [(3, 4, false), (0, 1, true)].map(|(count, period, fired)| Timer {
        count,
        period,
        control: START | INTERRUPT,
        fired,
    });
    let m = Machine { timers, flag: E | P, ..turning(1) };
    let left = wind(&m, [1, 1, 1, 1_000, 10]);
    assert_eq!((left.machine.timers, left.machine.pending, left.machine.pc), (timers, 0, 0x0100));
    // What the steps set is set: a period of 1.
    let left = wind(&Machine { timers, ..program(&[output(0, At(0x00))]) }, [1, 1, 1, 9, 9]);
    assert_eq!(left.machine.timers, [Timer { count: 0, period: 1, ..timers[0] }, timers[1]]);
}

/// A good simulation but for one number, on a halted machine, with enough places for 65,536 ticks.
fn with(k: usize, number: u32) -> Case {
    let mut numbers = [2, 3, 4, 5, 6];
    numbers[k] = number;
    winding(&Machine { condition: HALTED, ..program(&[]) }, numbers, 131_072)
}

/// "Maximum turns outside 1-999, notches per turn or r outside 1-64, ticks or steps outside 1-65,535."
#[test]
fn settings_outside_their_values() {
    let good: [&[u32]; 5] = [&[1, 2, 998, 999], &[1, 63, 64], &[1, 63, 64], &[1, 65_534, 65_535], &[1, 65_534, 65_535]];
    let bad: [&[u32]; 5] = [&[1_000, 1_024, 65_535], &[65, 128, 257, 65_535], &[65, 128, 257, 65_535], &[], &[]];
    let far = [0, 65_536, 65_537, 65_538, 0x0100_0001, 0x7FFF_FFFF, 0x8000_0000, 0x8000_0001, 0xFFFF_FFFE, 0xFFFF_FFFF];
    for k in 0..5 {
        good[k].iter().for_each(|number| assert_eq!(answer(&with(k, *number)), (0, 0), "{k}: {number}"));
        bad[k].iter().chain(&far).for_each(|number| assert_eq!(answer(&with(k, *number)), (9, 0), "{k}: {number}"));
    }
}

/// All at their least and all at their most.
#[test]
fn all_settings_at_an_end() {
    assert_eq!(standing(&turning(1), [1, 1, 1, 1, 1]), [0]);
    let left = wind(&Machine { condition: HALTED, ..turning(1) }, [999, 64, 64, 65_535, 65_535]);
    assert_eq!((left.over, left.standing[65_534]), (64_951, 64_512));
}

/// "A result buffer with fewer places than ticks"; an odd last byte is no place.
#[test]
fn fewer_places_than_ticks() {
    let refused = |ticks, bytes| answer(&winding(&turning(0), [1, 1, 1, ticks, 1], bytes)) == (9, 0);
    for bytes in 0..=12 {
        assert_eq!(refused(5, bytes), bytes < 10, "{bytes}");
    }
    assert_eq!([0, 1, 2].map(|bytes| refused(1, bytes)), [true, true, false]);
    assert_eq!([131_068, 131_069, 131_070].map(|bytes| refused(65_535, bytes)), [true, true, false]);
    // Twice the ticks would be 0 in 32 bits.
    assert!(refused(0x8000_0000, 0) && refused(0, 0));
}

/// "Refused with 9 before anything runs and after the old checks": 1, 2, 3, then 9, whatever else is bad.
#[test]
fn refusals_in_order() {
    let running = program(&[st(0, At(0x2000)), on()]);
    let bad = [([0, 1, 1, 1, 1], 2), ([1, 65, 1, 1, 1], 2), ([1, 1, 0, 1, 1], 2), ([1, 1, 1, 0, 1], 0)];
    for (numbers, bytes) in bad.into_iter().chain([([1, 1, 1, 1, 0], 2), ([1, 1, 1, 2, 9], 3), ([1, 1, 1, 2, 9], 0)]) {
        let mut case = winding(&running, numbers, bytes);
        assert_eq!(answer(&case), (9, 0));
        case.image[image::CAUSE] = 4;
        assert_eq!(answer(&case), (3, 0));
        case.image.push(0);
        assert_eq!(answer(&case), (2, 0));
        case.memory.pop();
        assert_eq!(answer(&case), (1, 0));
    }
    let mut case = winding(&running, [1, 1, 1, 1, 2], 2);
    assert_eq!(answer(&case), (0, 0));
    case.memory.push(0);
    assert_eq!(answer(&case), (1, 0));
}

/// The cases of `compare`: the simulation is like its runs, and the cases come to most of what is counted.
#[test]
fn random_simulations() {
    let (mut maker, mut case, mut wound) = (Maker::new(), Case::empty(), Wound::default());
    for index in 0..1_500 {
        maker.wind_case(&mut Rng::of_case(19, 1, index), &mut case);
        wound.case(&case);
        outcome(&case);
        for emulator in EMULATORS.iter().filter(|_| index % 10 == 0) {
            let unlike = if wound::asked(&case) { wound::unlike_runs(emulator, &case) } else { None };
            assert_eq!(unlike, None, "{}, case {index}", emulator.name);
            assert!(!wound::writes_behind(emulator, &case), "{}, case {index}", emulator.name);
        }
    }
    // So many ticks and steps, and places for them, are drawn seldom.
    let seldom = ["ticks the most", "ticks one more", "steps the most"];
    let lacking: Vec<String> = wound.lacking().into_iter().filter(|what| !seldom.contains(&what.as_str())).collect();
    assert_eq!(lacking, Vec::<String>::new());
}

/// Places with their lower byte first.
fn low_first(memory: &mut [u8], image: &mut [u8], settings: &Settings, places: &mut [u8]) -> u64 {
    let answer = winder::wind(memory, image, settings, places);
    if answer >> 32 == 0 {
        places.chunks_exact_mut(2).take(settings.ticks as usize).for_each(|place| place.reverse());
    }
    answer
}

/// Input bits 1-7 are cleared.
fn bare_input(memory: &mut [u8], image: &mut [u8], settings: &Settings, places: &mut [u8]) -> u64 {
    let answer = winder::wind(memory, image, settings, places);
    if answer >> 32 == 0 {
        image[image::INPUT] &= 1;
    }
    answer
}

/// Refusal 9 comes first.
fn settings_first(memory: &mut [u8], image: &mut [u8], settings: &Settings, places: &mut [u8]) -> u64 {
    match settings.test(places.len()) {
        Ok(()) => winder::wind(memory, image, settings, places),
        Err(refusal) => refusal.answer(),
    }
}

/// Ticks are counted from 0.
fn from_zero(memory: &mut [u8], image: &mut [u8], settings: &Settings, places: &mut [u8]) -> u64 {
    let answer = winder::wind(memory, image, settings, places);
    if answer >> 32 == 0 {
        answer.saturating_sub(1)
    } else {
        answer
    }
}

/// Emulators with a wrong winder: the cases notice, get smaller, and their text is read back.
#[test]
fn wrong_winders_are_seen() {
    let wrong: [(&str, WindCall); 4] = [
        ("low first", low_first),
        ("bare input", bare_input),
        ("settings first", settings_first),
        ("from zero", from_zero),
    ];
    for (name, wind) in wrong {
        let wrong = Emulator { name, wind, ..OWN };
        let mut maker = Maker::new();
        let small = smallest_difference(&wrong, 1_000, |index, case| {
            maker.wind_case(&mut Rng::of_case(20, 1, index), case);
        });
        assert!(small.memory.iter().filter(|byte| **byte != 0).count() < 20, "{name}");
        // What is not refused is unlike the runs, too.
        assert_eq!(wound::asked(&small), name != "settings first");
        assert!(!wound::asked(&small) || wound::unlike_runs(&wrong, &small).is_some(), "{name}");
        let text = case::describe(&small, &OWN, &wrong);
        assert!(text.starts_with("case wind ") && text.contains(&format!("\n{name}:\n")), "{text}");
        assert!(matches!(parse(&text), Ok(Replay::Case(back)) if back == small), "{text}");
    }
}
