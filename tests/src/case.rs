//! A call on buffers, done by two emulators; what differs, and the smallest
//! call that still shows it.

use crate::card;
use crate::load;
use crate::replay;
use crate::winder::{self, Settings};
use std::fmt::Write;
use std::hint::black_box;
use std::ops::Range;

pub type RunCall = fn(&mut [u8], &mut [u8], u16, &mut [u8]) -> u64;
pub type CardCall = fn(&mut [u8], &mut [u8], &[u8], &mut [u8]) -> u64;
pub type ViewCall = fn(&[u8], &[u8], &mut [u8]) -> u64;
pub type FaultCall = fn(&[u8]) -> u64;
pub type WindCall = fn(&mut [u8], &mut [u8], &Settings, &mut [u8]) -> u64;
pub type BusiestCall = fn(&[u8], u32) -> u64;

/// An emulator by its six calls.
#[derive(Clone, Copy)]
pub struct Emulator {
    pub name: &'static str,
    pub run: RunCall,
    pub card: CardCall,
    pub view: ViewCall,
    pub fault: FaultCall,
    pub wind: WindCall,
    pub busiest: BusiestCall,
}

/// The emulator of this package.
pub const OWN: Emulator = Emulator {
    name: "this emulator",
    run: card::run,
    card: card::card,
    view: card::view,
    fault: card::fault,
    wind: winder::wind,
    busiest: load::busiest,
};

#[derive(Clone, Debug, PartialEq, Eq)]
pub enum Call {
    Run(u16),
    View,
    Card(Vec<u8>),
    /// A look at the fault record. It takes the image alone; memory and report are there to stay as they are.
    Fault,
    /// A simulation of a winder. Its places stand in the report.
    Wind(Settings),
    /// The busiest window of this width. The records stand in the report, and stay; memory and image, too.
    Busiest(u32),
}

/// The buffers as they are before the call.
#[derive(Clone, Debug, PartialEq, Eq)]
pub struct Case {
    pub memory: Vec<u8>,
    pub image: Vec<u8>,
    pub report: Vec<u8>,
    pub call: Call,
}

impl Case {
    pub fn empty() -> Case {
        Case { memory: Vec::new(), image: Vec::new(), report: Vec::new(), call: Call::View }
    }
}

/// The answer, and the buffers as they are after the call.
#[derive(Clone, Debug, Default, PartialEq, Eq)]
pub struct Outcome {
    pub answer: u64,
    pub memory: Vec<u8>,
    pub image: Vec<u8>,
    pub report: Vec<u8>,
}

/// Does the call on copies of the case's buffers.
pub fn perform(emulator: &Emulator, case: &Case, out: &mut Outcome) {
    out.memory.clear();
    out.memory.extend_from_slice(&case.memory);
    out.image.clear();
    out.image.extend_from_slice(&case.image);
    out.report.clear();
    out.report.extend_from_slice(&case.report);
    go_on(emulator, &case.call, out);
}

/// Does a call on the buffers that the last one left.
pub fn go_on(emulator: &Emulator, call: &Call, out: &mut Outcome) {
    let (memory, image, report) = (&mut out.memory, &mut out.image, &mut out.report);
    out.answer = match call {
        Call::Run(allowance) => (emulator.run)(memory, image, *allowance, report),
        Call::View => (emulator.view)(memory, image, report),
        Call::Card(card) => (emulator.card)(memory, image, card, report),
        Call::Fault => (emulator.fault)(image),
        Call::Wind(settings) => (emulator.wind)(memory, image, settings, report),
        Call::Busiest(width) => (emulator.busiest)(report, *width),
    };
    // The compiler must not take for granted that C leaves what it is lent for reading.
    black_box(out);
}

/// The first thing in which two outcomes differ.
pub fn difference(a: &Outcome, b: &Outcome) -> Option<String> {
    if a.answer != b.answer {
        return Some(format!("answers differ: {:#x} and {:#x}", a.answer, b.answer));
    }
    let buffers = [("report", &a.report, &b.report), ("image", &a.image, &b.image), ("memory", &a.memory, &b.memory)];
    for (name, x, y) in buffers {
        if x != y {
            let at = (0..x.len()).find(|&k| x[k] != y[k]).unwrap_or(0);
            let (p, q) = (x[at], y[at]);
            return Some(format!("{name} differs first at offset {at} ({at:04X}h): {p:02X} and {q:02X}"));
        }
    }
    None
}

/// Do the two emulators differ on this case?
pub fn differ(first: &Emulator, second: &Emulator, case: &Case) -> bool {
    let (mut a, mut b) = (Outcome::default(), Outcome::default());
    perform(first, case, &mut a);
    perform(second, case, &mut b);
    a != b
}

/// The smallest number up to `high` that fails, if failing goes on upwards.
pub fn smallest(high: u16, mut fails: impl FnMut(u16) -> bool) -> u16 {
    let (mut low, mut high) = (0, high);
    while low < high {
        let middle = low + (high - low) / 2;
        if fails(middle) {
            high = middle;
        } else {
            low = middle + 1;
        }
    }
    high
}

/// Offers ever smaller parts of a buffer to `attempt`, which zeroes a part and
/// puts it back if the case then no longer fails.
pub fn shrink_parts(length: usize, mut attempt: impl FnMut(Range<usize>)) {
    let mut size = length.next_power_of_two().max(2);
    while size >= 2 {
        for start in (0..length).step_by(size) {
            attempt(start..(start + size).min(length));
        }
        size /= 2;
    }
}

fn zero_parts(case: &mut Case, buffer: fn(&mut Case) -> &mut Vec<u8>, fails: &dyn Fn(&Case) -> bool) {
    shrink_parts(buffer(case).len(), |part| {
        let bytes = &mut buffer(case)[part.clone()];
        let old = bytes.to_vec();
        bytes.fill(0);
        if old.iter().any(|b| *b != 0) && !fails(case) {
            buffer(case)[part].copy_from_slice(&old);
        }
    });
}

/// What can be cut from a case: a card or records.
fn bytes_to_cut(case: &mut Case) -> Option<&mut Vec<u8>> {
    match &mut case.call {
        Call::Card(card) => Some(card),
        Call::Busiest(_) => Some(&mut case.report),
        _ => None,
    }
}

/// Leaves out parts of a card or of records while the case fails.
fn cut(case: &mut Case, fails: &dyn Fn(&Case) -> bool) {
    for size in [1024, 256, 64, 16, 5, 4, 3, 2, 1] {
        let mut at = 0;
        loop {
            let old = case.clone();
            let Some(bytes) = bytes_to_cut(case).filter(|bytes| at < bytes.len()) else { break };
            bytes.drain(at..(at + size).min(bytes.len()));
            if !fails(case) {
                *case = old;
                at += size;
            }
        }
    }
}

/// Zeroes bytes of a card while the case fails.
fn zero_card(case: &mut Case, fails: &dyn Fn(&Case) -> bool) {
    let Call::Card(card) = &case.call else { return };
    let mut card = card.clone();
    for at in 0..card.len() {
        let old = std::mem::take(&mut card[at]);
        if old != 0 && !fails(&Case { call: Call::Card(card.clone()), ..case.clone() }) {
            card[at] = old;
        }
    }
    case.call = Call::Card(card);
}

/// Makes the settings of a simulation smaller, one after the other, while the case fails.
fn lower_settings(case: &mut Case, fails: &dyn Fn(&Case) -> bool) {
    let Call::Wind(settings) = case.call else { return };
    let mut numbers = settings.numbers();
    // Ticks and steps first: the others then cost less time.
    for k in [3, 4, 0, 1, 2] {
        let with = |number: u16| {
            let mut lower = numbers;
            lower[k] = number as u32;
            Case { call: Call::Wind(Settings::of(lower)), ..case.clone() }
        };
        let Ok(high) = u16::try_from(numbers[k]) else { continue };
        let least = smallest(high, |number| fails(&with(number)));
        if fails(&with(least)) {
            numbers[k] = least as u32;
        }
    }
    case.call = Call::Wind(Settings::of(numbers));
}

/// Makes the allowance of a run or the width of a window smaller while the case fails.
fn lower_number(case: &mut Case, fails: &dyn Fn(&Case) -> bool) {
    let (high, call): (u32, fn(u16) -> Call) = match case.call {
        Call::Run(allowance) => (allowance as u32, Call::Run),
        Call::Busiest(width) => (width, |width| Call::Busiest(width as u32)),
        _ => return,
    };
    let with = |number: u16| Case { call: call(number), ..case.clone() };
    let least = with(smallest(u16::try_from(high).unwrap_or(u16::MAX), |number| fails(&with(number))));
    if fails(&least) {
        *case = least;
    }
}

/// A smaller case that still fails: fewer steps, smaller settings or width, a shorter card and report, then zero bytes.
pub fn shrink(case: &Case, fails: &dyn Fn(&Case) -> bool) -> Case {
    let mut case = case.clone();
    lower_settings(&mut case, fails);
    // Twice, since leaving out one part moves the others, and fewer records may do with a smaller width.
    for _ in 0..2 {
        lower_number(&mut case, fails);
        cut(&mut case, fails);
    }
    let shorter = |length: u16| Case { report: case.report[..length as usize].to_vec(), ..case.clone() };
    let most = u16::try_from(case.report.len()).unwrap_or(u16::MAX);
    let least = shorter(smallest(most, |length| fails(&shorter(length))));
    if fails(&least) {
        case = least;
    }
    zero_card(&mut case, fails);
    zero_parts(&mut case, |c| &mut c.memory, fails);
    zero_parts(&mut case, |c| &mut c.image, fails);
    zero_parts(&mut case, |c| &mut c.report, fails);
    case
}

pub fn hex(bytes: &[u8]) -> String {
    bytes.iter().fold(String::new(), |mut text, byte| {
        let _ = write!(text, "{byte:02X}");
        text
    })
}

/// The case, both answers and the first difference, for a reader.
pub fn describe(case: &Case, own: &Emulator, library: &Emulator) -> String {
    let (mut a, mut b) = (Outcome::default(), Outcome::default());
    perform(own, case, &mut a);
    perform(library, case, &mut b);
    let mut text = replay::case_text(case);
    for (name, outcome) in [(own.name, &a), (library.name, &b)] {
        let _ = writeln!(text, "{name}:");
        let _ = writeln!(text, "  answer {:#x} (refusal {})", outcome.answer, outcome.answer >> 32);
        let _ = writeln!(text, "  image  {}", hex(&outcome.image));
        let _ = writeln!(text, "  report {}", hex(&outcome.report[..outcome.report.len().min(120)]));
    }
    let _ = writeln!(text, "{}", difference(&a, &b).unwrap_or_else(|| "no difference".to_string()));
    if let Some(card) = replay::as_card(case) {
        let _ = write!(text, "the case as a card for bench:\n{}", replay::card_lines(&card));
    }
    text
}
