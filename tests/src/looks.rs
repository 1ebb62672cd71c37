//! Looks at the fault record between runs: "a look between two steps changes nothing a later step gives", and the
//! kernel's IN of A4h still reads and clears the cause (document 02, request 1).

use crate::assemble::Operand::At;
use crate::assemble::{input, put_words};
use crate::case::{self, difference, go_on, smallest, Call, Case, Emulator, Outcome};
use crate::emulator::{Machine, P, RUNNING};
use crate::image;
use crate::replay;
use crate::report::REPORT;
use std::fmt::Debug;

/// A run, two looks, another run. The start's call is the first run.
#[derive(Clone, Debug, PartialEq, Eq)]
pub struct Looks {
    pub start: Case,
    pub more: u16,
}

impl Looks {
    pub fn empty() -> Looks {
        Looks { start: Case::empty(), more: 0 }
    }
}

/// What a check showed: the first run's report, and the look behind it.
pub struct Seen {
    pub report: [u8; REPORT],
    pub look: u64,
}

fn same(what: &str, a: &Outcome, b: &Outcome) -> Result<(), String> {
    difference(a, b).map_or(Ok(()), |found| Err(format!("{what}: {found}")))
}

/// Two emulators that do the same calls, each on its own buffers.
struct Both {
    emulators: [Emulator; 2],
    at: [Outcome; 2],
}

impl Both {
    fn on(emulators: [Emulator; 2], buffers: Outcome) -> Both {
        Both { emulators, at: [buffers.clone(), buffers] }
    }

    /// The next call, with the same answer and buffers for both.
    fn call(&mut self, what: &str, call: &Call) -> Result<(), String> {
        for (emulator, at) in self.emulators.iter().zip(&mut self.at) {
            go_on(emulator, call, at);
        }
        same(what, &self.at[0], &self.at[1])
    }

    /// A look; its number. It leaves every buffer as it was, and its parts are those of the image.
    fn look(&mut self, what: &str) -> Result<u64, String> {
        let before = self.at[0].clone();
        self.call(what, &Call::Fault)?;
        let [number, _] = self.at.each_mut().map(|at| std::mem::replace(&mut at.answer, before.answer));
        same(&format!("before and after {what}"), &before, &self.at[0])?;
        let m = self.machine();
        expect(what, parts(number), [m.cause as u64, m.missed as u64, m.violation as u64])?;
        Ok(number)
    }

    fn machine(&self) -> Machine {
        image::read(Vec::new(), &self.at[0].image)
    }
}

/// Cause, missed page and violation address in a look's number.
fn parts(number: u64) -> [u64; 3] {
    [number >> 24, number >> 16 & 0xFF, number & 0xFFFF]
}

fn expect<T: PartialEq + Debug>(what: &str, found: T, expected: T) -> Result<(), String> {
    if found != expected {
        return Err(format!("{what}: {found:04X?} in place of {expected:04X?}"));
    }
    Ok(())
}

/// The runs with looks between them and without, and the kernel's IN behind a look, by both emulators.
pub fn check(emulators: [Emulator; 2], looks: &Looks) -> Result<Seen, String> {
    let Case { memory, image, report, call } = looks.start.clone();
    let mut looked = Both::on(emulators, Outcome { answer: 0, memory, image, report });
    let mut plain = Both::on(emulators, looked.at[0].clone());
    let more = Call::Run(looks.more);
    looked.call("the first run", &call)?;
    let left = looked.at[0].clone();
    let look = looked.look("the first look")?;
    expect("two looks", looked.look("the second look")?, look)?;
    looked.call("the run behind the looks", &more)?;
    plain.call("the first run, without looks", &call)?;
    plain.call("the second run, without looks", &more)?;
    same("with looks and without", &looked.at[0], &plain.at[0])?;
    let report = left.report[..REPORT].try_into().expect("12 bytes");
    kernel_reads(emulators, left, look)?;
    Ok(Seen { report, look })
}

/// Where a run ended, the kernel's IN reads what a look showed; the look behind it has cause 0 and the rest as it was.
fn kernel_reads(emulators: [Emulator; 2], left: Outcome, look: u64) -> Result<(), String> {
    let mut kernel = Both::on(emulators, reading(left));
    expect("the look in the kernel", kernel.look("the look before IN")?, look)?;
    kernel.call("IN", &Call::Run(4))?;
    let [cause, missed, violation] = parts(look).map(|part| part as u16);
    expect("what IN read", &kernel.machine().regs[..4], &[cause, missed, violation, 0])?;
    expect("the cause cleared", kernel.look("the look behind IN")?, look & 0xFF_FFFF)
}

/// The machine in kernel mode, running, with four IN at PC: the cause, the missed page, the violation address and the
/// cause again, into G0 to G3.
fn reading(left: Outcome) -> Outcome {
    let mut m = image::read(left.memory, &left.image);
    (m.condition, m.flag, m.pc) = (RUNNING, P, m.pc & 0xFFF0);
    let code = [input(0, At(0xA4)), input(1, At(0xA6)), input(2, At(0xA2)), input(3, At(0xA4))].concat();
    put_words(&mut m.memory, m.pc as usize, &code);
    Outcome { image: image::write(&m).to_vec(), memory: m.memory, ..left }
}

/// What is asked of a start: a run on good buffers.
pub fn asked(looks: &Looks) -> bool {
    let Case { memory, image, report, call } = &looks.start;
    matches!(call, Call::Run(_)) && image::test(memory, image).is_ok() && report.len() >= REPORT
}

/// Smaller runs with looks that still fail.
pub fn shrink(emulators: [Emulator; 2], looks: &Looks) -> Looks {
    let fails = |start: &Case, more: u16| {
        let looks = Looks { start: start.clone(), more };
        asked(&looks) && check(emulators, &looks).is_err()
    };
    let least = smallest(looks.more, |more| fails(&looks.start, more));
    let more = if fails(&looks.start, least) { least } else { looks.more };
    Looks { start: case::shrink(&looks.start, &|start| fails(start, more)), more }
}

/// The runs, and what fails, for a reader.
pub fn describe(emulators: [Emulator; 2], looks: &Looks) -> String {
    let what = check(emulators, looks).err().unwrap_or_else(|| "the looks change nothing".to_string());
    format!("{}{what}\n", replay::looks_text(looks))
}
