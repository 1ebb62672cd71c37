//! Runs of tick records for the load of the motor (document 02, request 6): random ones; what they come to, counted, so
//! that a test can say how far its cases reach; and the call beside windows counted one by one.

use crate::case::{Call, Case, Emulator};
use crate::load::{self, ON, WIDEST};
use crate::rng::Rng;
use std::hint::black_box;

/// A width: mostly small, some at the ends of its values, some beyond them or such that their lower bits are good.
fn width(rng: &mut Rng) -> u32 {
    let good = rng.between(1, WIDEST as u64) as u32;
    match rng.below(100) {
        0..=2 => 0,
        3..=7 => 1,
        8..=54 => rng.between(2, 12) as u32,
        55..=79 => rng.between(13, 300) as u32,
        80..=85 => good,
        86..=87 => WIDEST - 1,
        88..=92 => WIDEST,
        93..=95 => WIDEST + 1,
        96 => good + 0x1_0000,
        97 => good | 1 << rng.between(13, 31),
        98 => rng.pick(&[2 * WIDEST, 0xFFFF, 0x1_0000, 0x8000_0000, 0xFFFF_FFFF]),
        _ => rng.draw() as u32,
    }
}

/// So many records: around the width, or some windows, or many.
fn length(rng: &mut Rng, width: u32) -> usize {
    let width = width.clamp(1, WIDEST) as u64;
    let length = match rng.below(100) {
        0..=3 => 0,
        4..=5 => 1,
        6..=11 => width - 1,
        12..=19 => width,
        20..=25 => width + 1,
        26..=37 => rng.below(width),
        38..=47 => 2 * width,
        48..=49 => rng.between(4_000, 9_000),
        _ => width + rng.below(2 * width + 20),
    };
    length as usize
}

/// Any value but that of a record on.
fn off(rng: &mut Rng) -> u8 {
    match rng.byte() {
        ON => 0,
        other => other,
    }
}

/// Records on in so many of a hundred ticks; then stretches of all on or all off, some of them at an end of the run.
fn fill(rng: &mut Rng, records: &mut [u8], width: u32) {
    let percent = rng.pick(&[0, 0, 1, 5, 20, 50, 80, 95, 99, 100]);
    let plain = rng.chance(30);
    let record = |rng: &mut Rng, percent| match rng.chance(percent) {
        true => ON,
        false if plain => 0,
        false => off(rng),
    };
    records.fill_with(|| record(rng, percent));
    for _ in 0..rng.pick(&[0, 0, 1, 1, 2, 7]) {
        let few = rng.between(1, 40);
        let length = rng.pick(&[width as u64, few]).min(records.len() as u64);
        let last = records.len() as u64 - length;
        let anywhere = rng.between(0, last);
        let start = rng.pick(&[0, last, anywhere]);
        let percent = rng.pick(&[0, 100, 100]);
        records[start as usize..][..length as usize].fill_with(|| record(rng, percent));
    }
}

/// A random run and width.
pub fn draw(rng: &mut Rng, case: &mut Case) {
    let width = width(rng);
    case.call = Call::Busiest(width);
    case.report.resize(length(rng, width), 0);
    fill(rng, &mut case.report, width);
}

// What a run and a width can be, and its windows.
named! {
    Event EVENTS:
    Zero "width 0"
    Narrowest "1"
    Widest "4,096"
    OneMore "4,097"
    FarBeyond "far beyond"
    BadEmpty "an empty run of a bad width"
    Empty "empty runs"
    Shorter "shorter than the width"
    OneShorter "by one record"
    Exact "as long as the width"
    OneLonger "one record longer"
    Apart "twice as long or longer"
    WidestOfMore "windows of 4,096 in more records"
    NoneOn "none on"
    WholeOn "a whole window on"
    WidestOn "4,096 on"
    OtherValue "a busiest window with a value above 1"
    First "the first window alone the busiest"
    Last "the last"
    Inside "one inside"
    Several "several"
    AllAlike "all of several"
}

/// How often each was met; and which values a record had where the width was good.
#[derive(Clone, Debug)]
pub struct Stretches {
    events: [u64; EVENTS.len()],
    values: [bool; 256],
}

impl Default for Stretches {
    fn default() -> Self {
        Stretches { events: [0; EVENTS.len()], values: [false; 256] }
    }
}

impl Stretches {
    fn note_if(&mut self, holds: bool, event: Event) {
        self.events[event as usize] += holds as u64;
    }

    /// A run of records; other cases are passed over.
    pub fn case(&mut self, case: &Case) {
        let Call::Busiest(width) = case.call else { return };
        let records = &case.report[..];
        self.note_if(width == 0, Event::Zero);
        self.note_if(width == 1, Event::Narrowest);
        self.note_if(width == WIDEST, Event::Widest);
        self.note_if(width == WIDEST + 1, Event::OneMore);
        self.note_if(width > WIDEST + 1, Event::FarBeyond);
        if load::test(width).is_err() {
            self.note_if(records.is_empty(), Event::BadEmpty);
            return;
        }
        records.iter().for_each(|record| self.values[*record as usize] = true);
        self.lengths(records.len(), width as usize);
        self.windows(records, width);
    }

    fn lengths(&mut self, length: usize, width: usize) {
        self.note_if(length == 0, Event::Empty);
        self.note_if(0 < length && length < width, Event::Shorter);
        self.note_if(0 < length && length + 1 == width, Event::OneShorter);
        self.note_if(length == width, Event::Exact);
        self.note_if(length == width + 1, Event::OneLonger);
        self.note_if(length >= 2 * width, Event::Apart);
        self.note_if(width == WIDEST as usize && length > width, Event::WidestOfMore);
    }

    fn windows(&mut self, records: &[u8], width: u32) {
        let loads = load::loads(records, width);
        let most = loads.iter().fold(0, |most, load| most.max(*load));
        self.note_if(!records.is_empty() && most == 0, Event::NoneOn);
        self.note_if(most == width, Event::WholeOn);
        self.note_if(most == WIDEST, Event::WidestOn);
        let busiest: Vec<usize> = (0..loads.len()).filter(|start| loads[*start] == most).collect();
        let window = &records[busiest[0]..records.len().min(busiest[0] + width as usize)];
        self.note_if(most > 0 && window.iter().any(|record| *record > ON), Event::OtherValue);
        match busiest[..] {
            // Of several windows.
            [0] => self.note_if(loads.len() > 1, Event::First),
            [start] => self.note_if(true, if start + 1 == loads.len() { Event::Last } else { Event::Inside }),
            _ => self.note_if(true, if busiest.len() < loads.len() { Event::Several } else { Event::AllAlike }),
        }
    }

    /// What was met, in a line.
    pub fn text(&self) -> String {
        let named = EVENTS.iter().zip(&self.events).map(|(name, n)| format!("{name} {n}")).collect::<Vec<_>>();
        format!("  {}\n", named.join(", "))
    }

    /// What was never met.
    pub fn lacking(&self) -> Vec<String> {
        let events = EVENTS.iter().zip(&self.events).filter(|(_, n)| **n == 0).map(|(name, _)| name.to_string());
        let values =
            self.values.iter().enumerate().filter(|(_, met)| !**met).map(|(value, _)| format!("value {value}"));
        events.chain(values).collect()
    }
}

/// Is the emulator's figure one that the request allows, by windows counted one by one? A refusal is passed over.
pub fn allowed(emulator: &Emulator, case: &Case) -> bool {
    let Call::Busiest(width) = case.call else { return true };
    let figure = (emulator.busiest)(&case.report, width);
    load::test(width).is_err() || load::allowed(&load::counted(&case.report, width), figure)
}

/// Does the emulator's call change a byte, or answer in another way where the bytes around the records are on?
pub fn looks_around(emulator: &Emulator, case: &Case) -> bool {
    let Call::Busiest(width) = case.call else { return false };
    let [bare, among] = [0, ON].map(|other| {
        let around = [other; 17];
        let before = [&around, &case.report[..], &around].concat();
        let mut bytes = before.clone();
        let records = &mut bytes[around.len()..][..case.report.len()];
        let answer = (emulator.busiest)(black_box(records), width);
        (*black_box(&mut bytes) == before).then_some(answer)
    });
    bare.is_none() || bare != among
}
