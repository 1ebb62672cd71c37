//! Where runs come to register 15 (document 02, request 4), counted, so that a test can say how far its cases reach.

use crate::case::{Call, Case};
use crate::emulator::{Machine, Step, RUNNING};
use crate::image;
use crate::isolation::Pair;
use crate::sample;
use crate::scene::{word_at, Way};

// The ways to use register 15.
named! {
    Use USES:
    Source "as Rs"
    ReadIndexed "read by [Dsp+PC]"
    ReadWord "read by [PC]"
    ReadByte "byte read by [PC]"
    StoreIndexed "stored by [Dsp+PC]"
    StoreWord "stored by [PC]"
    StoreByte "byte stored by [PC]"
    Jump "jump"
    NoJump "jump not taken"
    Call "CALL"
    In "IN"
    Out "OUT"
    OneWord "one word, wrapped"
    TwoWords "two words, wrapped"
    Rd "as Rd, undefined"
}

/// So many of them come without I/O privilege, anywhere in memory and without a fault.
const PLAIN: usize = Use::Call as usize + 1;

const WAYS: [(Way, &str); 3] = [(Way::Kernel, "kernel"), (Way::User, "user"), (Way::Bare, "user, MMU off")];

/// A run's first step, which the library does by the machine's own step, and later ones that leave the TLB as it is,
/// which it may do in its fast loop. Others are not counted.
const STEPS: [&str; 2] = ["the first step", "later"];

/// How often each use was met, by way and step.
#[derive(Clone, Debug, Default)]
pub struct Reached([[[u64; USES.len()]; STEPS.len()]; WAYS.len()]);

/// What an instruction with this first word did with register 15.
fn use_of(word: u16, step: Step) -> Option<Use> {
    let [first, fields] = word.to_be_bytes();
    let states = match step {
        Step::Entered { number: 14, .. } if fields >> 4 == 15 && sample::valid_first_bytes().contains(&first) => {
            return Some(Use::Rd)
        }
        Step::Done(states) if fields & 15 == 15 => states,
        _ => return None,
    };
    match (first & 0xF8, first & 7) {
        (0x08 | 0x18..=0x98, 4) => Some(Use::Source),
        (0x08 | 0x18..=0x98, 1) => Some(Use::ReadIndexed),
        (0x08 | 0x18..=0x98, 6) => Some(Use::ReadWord),
        (0x08 | 0x18..=0x98, 7) => Some(Use::ReadByte),
        (0x10, 1) => Some(Use::StoreIndexed),
        (0x10, 6) => Some(Use::StoreWord),
        (0x10, 7) => Some(Use::StoreByte),
        (0xA0, 1) => Some(if states == 5 { Use::Jump } else { Use::NoJump }),
        (0xA8, 1) => Some(Use::Call),
        (0xB0, 6) => Some(Use::In),
        (0xB8, 6) => Some(Use::Out),
        _ => None,
    }
}

/// Counts what a step did by an instruction with this first word at PC.
fn count(counts: &mut [u64; USES.len()], word: u16, pc: u16, step: Step) {
    let Some(found) = use_of(word, step) else { return };
    counts[found as usize] += 1;
    let two = word >> 8 & 7 == 1;
    if found != Use::Rd && pc >= if two { 0xFFFC } else { 0xFFFE } {
        counts[if two { Use::TwoWords } else { Use::OneWord } as usize] += 1;
    }
}

impl Reached {
    /// A run, step by step.
    pub fn run(&mut self, m: &mut Machine, allowance: u16) {
        for number in 0..allowance {
            // A fetch from an odd PC is refused.
            let (word, pc, way, tlb) = (word_at(m, m.pc & 0xFFFE), m.pc, Way::of(m), m.tlb);
            let step = m.step();
            if number == 0 || m.tlb == tlb {
                let counts = &mut self.0[way as usize][(number > 0) as usize];
                count(counts, word, pc, step);
            }
            if m.condition != RUNNING || !matches!(step, Step::Done(_)) {
                return;
            }
        }
    }

    /// The run of a case on good buffers; other cases are passed over.
    pub fn case(&mut self, case: &Case) {
        let Call::Run(allowance) = case.call else { return };
        if image::test(&case.memory, &case.image).is_ok() {
            let mut m = image::read(case.memory.clone(), &case.image);
            if m.condition == RUNNING {
                self.run(&mut m, allowance);
            }
        }
    }

    /// The run of a pair on its first memory.
    pub fn pair(&mut self, pair: &Pair) {
        self.run(&mut image::read(pair.first.clone(), &pair.image), pair.allowance);
    }

    /// A line for each way and step in which something was met.
    pub fn text(&self) -> String {
        let mut text = String::new();
        for (way, name) in WAYS {
            let steps = self.0[way as usize].iter().zip(STEPS);
            for (counts, step) in steps.filter(|(counts, _)| counts.iter().any(|n| *n != 0)) {
                let named: Vec<String> = USES.iter().zip(counts).map(|(name, n)| format!("{name} {n}")).collect();
                text += &format!("  register 15, {name}, {step}: {}\n", named.join(", "));
            }
        }
        text
    }

    /// The first so many uses that this way never met in such steps.
    fn missing(&self, way: Way, step: usize, uses: usize) -> impl Iterator<Item = &'static str> + '_ {
        let counts = self.0[way as usize][step].iter().zip(USES).take(uses);
        counts.filter(|(n, _)| **n == 0).map(|(_, name)| *name)
    }

    /// What was never met.
    pub fn lacking(&self) -> Vec<String> {
        let mut list = Vec::new();
        for (way, name) in WAYS {
            for (step, which) in STEPS.iter().enumerate() {
                list.extend(self.missing(way, step, USES.len()).map(|what| format!("{name}, {which}: {what}")));
            }
        }
        list
    }

    /// What users never met in later steps, of all but ports, ends of memory and Rd.
    pub fn lacking_for_users(&self) -> Vec<String> {
        self.missing(Way::User, 1, PLAIN).map(String::from).collect()
    }
}
