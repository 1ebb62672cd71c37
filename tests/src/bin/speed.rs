//! Time per step of libtac.a beside the emulator of this package, in one process.
//!
//! speed [--rounds N]
//!
//! Each row gives nanoseconds a step of the library and of this emulator, and the library's time as a multiple of this
//! emulator's. The two take turns for N short rounds, 200 if nothing is said, each of them first in every second round; each
//! number is the median over the rounds, the ratio that of the ratios of each round, since a machine's speed may change from one
//! moment to the next. What is counted is this thread's own time. Both have to end in the same bytes of memory, image and report.
//!
//! The loads, each in kernel mode and in user mode with the MMU on, by runs of 65,535 steps:
//!
//! | load | what is timed |
//! |---|---|
//! | sum | a sum over 100 words: loads, sums, jumps, a store at times |
//! | memory | words and bytes read and written through four pages, PUSH and POP |
//! | arithmetic | MUL, DIV, MOD, shifts and sums in registers |
//! | scattered | pieces of three instructions and a jump, over six pages of code and one of data |
//!
//! In user mode the last TLB entries serve. Short calls in user mode:
//!
//! | load | what is timed |
//! |---|---|
//! | faults | runs of 4 steps, the last a store to a page that is missing; each call begins with the same image |
//! | card | a card of 1,300 runs of 4 steps a call, in the sum |
//! | one step a call | the sum by calls with allowance 1, each on the image that the last one left |

use std::hint::black_box;
use std::process::exit;
use tac_tests::assemble::Operand::*;
use tac_tests::assemble::*;
use tac_tests::card::{card_in, run_in};
use tac_tests::emulator::{Machine, P};
use tac_tests::ffi;
use tac_tests::image::{self, IMAGE};
use tac_tests::report::REPORT;

/// Runs in a card.
const RUNS: usize = 1_300;

type RunCall = fn(&mut Vec<u8>, &mut [u8], u16, &mut [u8]) -> u64;
type CardCall = fn(&mut Vec<u8>, &mut [u8], &[u8], &mut [u8]) -> u64;

/// An emulator by its calls. Memory is a vector, so that it can be moved and not copied.
struct Side {
    run: RunCall,
    card: CardCall,
}

const LIBRARY: Side = Side {
    run: |memory, image, allowance, report| ffi::run(memory, image, allowance, report),
    card: |memory, image, card, report| ffi::card(memory, image, card, report),
};

const OWN: Side = Side { run: run_in, card: card_in };

enum What {
    /// Runs of this allowance.
    Run(u16),
    Card(Vec<u8>),
}

#[repr(C)]
struct Timespec {
    seconds: i64,
    nanoseconds: i64,
}

unsafe extern "C" {
    fn clock_gettime(clock: i32, time: *mut Timespec) -> i32;
}

/// Seconds that this thread has run: what others do on the machine does not count.
fn thread_seconds() -> f64 {
    const CLOCK_THREAD_CPUTIME_ID: i32 = 3; // on Linux
    let mut time = Timespec { seconds: 0, nanoseconds: 0 };
    let failed = unsafe { clock_gettime(CLOCK_THREAD_CPUTIME_ID, &mut time) };
    assert_eq!(failed, 0, "there is no clock of the thread's time");
    time.seconds as f64 + time.nanoseconds as f64 * 1e-9
}

/// A start, and what is called how often.
struct Load {
    name: &'static str,
    memory: Vec<u8>,
    image: [u8; IMAGE],
    what: What,
    calls: u64,
    /// Each call goes on with the image that the last one left.
    goes_on: bool,
}

/// The buffers after a round, its time and its steps.
struct Round {
    seconds: f64,
    steps: u64,
    memory: Vec<u8>,
    image: [u8; IMAGE],
    report: Vec<u8>,
}

/// Code and where it lies.
type Piece = (u16, Vec<Words>);

/// Sum of 100 words, over and over: 2 + 4 × 100 + 2 steps.
fn sum() -> Vec<Piece> {
    let code = vec![
        ld(8, Value(0x2000)),
        ld(7, Value(100)),
        add(0, Pointer(8)), // 0008h
        add(8, Short(2)),
        sub(7, Short(1)),
        jump(NOT_ZERO, At(0x0008)),
        st(0, At(0x2000)),
        jump(ALWAYS, At(0x0000)),
    ];
    vec![(0, code)]
}

/// 100 turns over words of two pages and bytes of two more, the stack in the last.
fn memory() -> Vec<Piece> {
    let code = vec![
        ld(8, Value(0x2000)),
        ld(9, Value(0x2100)),
        ld(10, Value(0x2200)),
        ld(11, Value(0x2300)),
        ld(12, Value(0x2280)),
        ld(7, Value(100)),
        ld(0, Pointer(8)), // 0018h
        add(0, Pointer(9)),
        st(0, Pointer(9)),
        ld(1, Byte(10)),
        add(1, Byte(8)),
        st(1, Byte(11)),
        xor(2, Indexed(0x2000, 7)),
        st(2, Frame(-3)),
        push(2),
        add(8, Short(2)),
        add(9, Short(2)),
        add(10, Short(1)),
        add(11, Short(1)),
        pop(3),
        sub(7, Short(2)),
        jump(NOT_ZERO, At(0x0018)),
        jump(ALWAYS, At(0x0000)),
    ];
    vec![(0, code)]
}

/// Numbers that are multiplied, divided and shifted, in registers alone.
fn arithmetic() -> Vec<Piece> {
    let code = vec![
        ld(3, Value(37)),
        mul(0, Value(0x6487)), // 0004h
        add(0, Short(7)),
        ld(1, Register(0)),
        div(1, Register(3)),
        ld(2, Register(0)),
        rem(2, Register(3)),
        shla(1, Register(2)),
        shra(2, Short(3)),
        shrl(1, Short(1)),
        add(4, Register(1)),
        sub(4, Register(2)),
        adds(5, Register(4)),
        jump(ALWAYS, At(0x0004)),
    ];
    vec![(0, code)]
}

/// Twelve pieces over six pages, each in another page than the one before.
fn scattered() -> Vec<Piece> {
    let starts: Vec<u16> = (0..12).map(|k| (5 * k % 6) << 8 | (k * 40 % 200) & 0xFE).collect();
    let piece = |k: usize| {
        let next = starts[(k + 1) % starts.len()];
        let code = vec![
            add(k as u8 % 6, At(0x2000 + 2 * k as u16)),
            xor(6, Register(k as u8 % 6)),
            st(6, At(0x2080 + 2 * k as u16)),
            jump(ALWAYS, At(next)),
        ];
        (starts[k], code)
    };
    (0..starts.len()).map(piece).collect()
}

fn kernel(pieces: &[Piece]) -> Machine {
    let mut machine = Machine { ssp: 0x2380, flag: P, ..Machine::new() };
    for (start, code) in pieces {
        put_words(&mut machine.memory, *start as usize, &code.concat());
    }
    machine
}

/// User mode: the pages of the code and so many data pages from 20h on have the last TLB entries and the frames from 30h on;
/// other entries stand before them.
fn user(pieces: &[Piece], data: u8) -> Machine {
    let mut machine = Machine { ssp: 0xF000, usp: 0x2380, mmu_on: true, ..Machine::new() };
    let mut code: Vec<u8> = pieces.iter().map(|(start, _)| (start >> 8) as u8).collect();
    code.sort();
    code.dedup();
    let pages = code.iter().map(|page| (*page, 0x8500)).chain((0x20..0x20 + data).map(|page| (page, 0x8600)));
    let entries: Vec<u32> = pages.zip(0x30..).map(|((page, bits), frame)| (page as u32) << 16 | bits | frame).collect();
    let others = 8 - entries.len();
    for k in 0..others {
        machine.tlb[k] = 0x40_8760 + 0x01_0001 * k as u32;
    }
    machine.tlb[others..].copy_from_slice(&entries);
    for (start, words) in pieces {
        let frame = 0x30 + code.iter().position(|page| *page as u16 == start >> 8).unwrap_or(0);
        put_words(&mut machine.memory, frame << 8 | (start & 0xFF) as usize, &words.concat());
    }
    machine
}

fn load(name: &'static str, machine: Machine, what: What, calls: u64, goes_on: bool) -> Load {
    let image = image::write(&machine);
    Load { name, memory: machine.memory, image, what, calls, goes_on }
}

fn loads() -> [Load; 11] {
    let fault = [(0, vec![ld(0, Value(1)), add(0, Short(2)), st(0, At(0x2000)), st(0, At(0x7000))])];
    let runs = (0..RUNS).fold(Card::new(), |card, _| card.run(4)).bytes();
    let long = |name, machine| load(name, machine, What::Run(65_535), 1, true);
    [
        long("kernel, sum", kernel(&sum())),
        long("kernel, memory", kernel(&memory())),
        long("kernel, arithmetic", kernel(&arithmetic())),
        long("kernel, scattered", kernel(&scattered())),
        long("user, sum", user(&sum(), 1)),
        long("user, memory", user(&memory(), 4)),
        long("user, arithmetic", user(&arithmetic(), 1)),
        long("user, scattered", user(&scattered(), 1)),
        load("faults", user(&fault, 1), What::Run(100), 5_000, false),
        load("card", user(&sum(), 1), What::Card(runs), 10, true),
        load("one step a call", user(&sum(), 1), What::Run(1), 10_000, true),
    ]
}

/// The steps in the reports of some runs.
fn steps_in(report: &[u8]) -> u64 {
    report.chunks(REPORT).map(|run| u16::from_be_bytes([run[2], run[3]]) as u64).sum()
}

fn round(side: &Side, s: &Load) -> Round {
    let runs = if let What::Card(_) = s.what { RUNS } else { 1 };
    let (mut memory, mut image, mut report) = (s.memory.clone(), s.image, vec![0; REPORT * runs]);
    let start = thread_seconds();
    for _ in 0..s.calls {
        if !s.goes_on {
            image = s.image;
        }
        let answer = match &s.what {
            What::Run(allowance) => (side.run)(&mut memory, black_box(&mut image), *allowance, &mut report),
            What::Card(card) => (side.card)(&mut memory, black_box(&mut image), card, &mut report),
        };
        assert_eq!(answer as usize, report.len());
    }
    let seconds = thread_seconds() - start;
    // Every call of a load does as many steps as the last.
    Round { seconds, steps: s.calls * steps_in(&report), memory, image, report }
}

/// The middle one of some numbers.
fn median(mut numbers: Vec<f64>) -> f64 {
    numbers.sort_by(f64::total_cmp);
    numbers[numbers.len() / 2]
}

fn measure(s: &Load, rounds: u32) {
    let (mut library, mut own, mut ratios) = (Vec::new(), Vec::new(), Vec::new());
    for k in 0..rounds {
        let [a, b] = if k % 2 == 0 {
            [&LIBRARY, &OWN].map(|side| round(side, s))
        } else {
            let [b, a] = [&OWN, &LIBRARY].map(|side| round(side, s));
            [a, b]
        };
        assert!(a.memory == b.memory && a.image == b.image && a.report == b.report, "{}: the bytes differ", s.name);
        library.push(a.seconds * 1e9 / a.steps as f64);
        own.push(b.seconds * 1e9 / b.steps as f64);
        ratios.push(a.seconds / b.seconds);
    }
    let [library, own, ratio] = [library, own, ratios].map(median);
    println!("| {:<18} | {library:>6.2} | {own:>14.2} | {ratio:>5.2} |", s.name);
}

fn main() {
    let list: Vec<String> = std::env::args().skip(1).collect();
    let rounds = match list.as_slice() {
        [] => Some(200),
        [name, value] if name == "--rounds" => value.parse().ok().filter(|rounds| *rounds > 0),
        _ => None,
    };
    let Some(rounds) = rounds else {
        eprintln!("usage: speed [--rounds N]");
        exit(2);
    };
    println!("| ns a step          | libtac | plain emulator | ratio |");
    println!("|--------------------|-------:|---------------:|------:|");
    for s in &loads() {
        measure(s, rounds);
    }
}
