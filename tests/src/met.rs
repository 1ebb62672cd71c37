//! What timers meet on this thread, counted, so that a test can say how far its cases reach. It is no part of a machine. Times
//! are counted by command 08, not by millisecond.

use crate::emulator::{HALTED, LOST};
use crate::timer::{Timer, CONTROL_BITS, INTERRUPT, START};
use std::cell::Cell;
use std::ops::AddAssign;

// The events of a timer.
named! {
    Event NAMES:
    CountRead "count read"
    FiredRead "fired read"
    ClearRead "clear read"
    PeriodSet "period set"
    ControlSet "control set"
    OddPort "odd port"
    CountZeroed "count zeroed by OUT"
    CountKept "count kept by OUT"
    FiredKept "fired kept by OUT"
    BitsDropped "control bits dropped"
    Fired "fired"
    FiredAgain "fired again"
    Several "fired several times"
    Raised "line raised"
    RaisedAgain "line pending already"
    NoLine "no line"
    OnHalted "fired on a halted machine"
    OnLost "fired on a lost machine"
    Counting "not yet fired"
    Stopped "stopped"
    NoPeriod "period 0"
}

const EVENTS: usize = NAMES.len();

thread_local!(static MET: [[Cell<u64>; EVENTS]; 2] = const { [const { [const { Cell::new(0) }; EVENTS] }; 2] });

fn note(timer: usize, event: Event) {
    MET.with(|met| {
        let count = &met[timer][event as usize];
        count.set(count.get() + 1);
    });
}

fn note_if(holds: bool, timer: usize, event: Event) {
    if holds {
        note(timer, event);
    }
}

/// IN of a port 00h to 07h, before it acts.
pub fn read(port: u16, timer: &Timer) {
    let event = match (port % 4, timer.fired) {
        (0, _) => Event::CountRead,
        (2, true) => Event::FiredRead,
        (2, false) => Event::ClearRead,
        _ => Event::OddPort,
    };
    note(port as usize / 4, event);
}

/// OUT to a port 00h to 07h, before it acts.
pub fn written(port: u16, timer: &Timer, value: u16) {
    let number = port as usize / 4;
    match port % 4 {
        0 => {
            note(number, Event::PeriodSet);
            note_if(timer.count != 0, number, Event::CountZeroed);
            note_if(timer.fired, number, Event::FiredKept);
        }
        2 => {
            note(number, Event::ControlSet);
            note_if(timer.count != 0, number, Event::CountKept);
            note_if(timer.fired, number, Event::FiredKept);
            note_if(value & !CONTROL_BITS != 0, number, Event::BitsDropped);
        }
        _ => note(number, Event::OddPort),
    }
}

/// Some time has passed for a timer, on a machine with these lines and this condition before it: so many firings.
pub fn passed(number: usize, before: &Timer, pending: u16, condition: u8, firings: u16) {
    if firings == 0 {
        let started = before.control & START != 0;
        note_if(!started, number, Event::Stopped);
        note_if(started && before.period == 0, number, Event::NoPeriod);
        note_if(started && before.period != 0, number, Event::Counting);
        return;
    }
    note(number, if before.fired { Event::FiredAgain } else { Event::Fired });
    let line = match (before.control & INTERRUPT != 0, pending >> number & 1) {
        (false, _) => Event::NoLine,
        (true, 0) => Event::Raised,
        _ => Event::RaisedAgain,
    };
    note(number, line);
    note_if(firings > 1, number, Event::Several);
    note_if(condition == HALTED, number, Event::OnHalted);
    note_if(condition == LOST, number, Event::OnLost);
}

/// How often each event was met, for each timer.
#[derive(Clone, Copy, Debug, Default, PartialEq, Eq)]
pub struct Met([[u64; EVENTS]; 2]);

/// What was met since the last time; the counts begin again at 0.
pub fn take() -> Met {
    MET.with(|met| Met(std::array::from_fn(|n| std::array::from_fn(|k| met[n][k].take()))))
}

impl AddAssign for Met {
    fn add_assign(&mut self, other: Met) {
        for (count, more) in self.0.iter_mut().flatten().zip(other.0.into_iter().flatten()) {
            *count += more;
        }
    }
}

impl Met {
    /// Was one of these met, from the first to the last in the list of events?
    fn any(&self, first: Event, last: Event) -> bool {
        self.0.iter().any(|counts| counts[first as usize..=last as usize].iter().any(|count| *count != 0))
    }

    /// IN or OUT of a port 00h to 07h.
    pub fn ports(&self) -> bool {
        self.any(Event::CountRead, Event::OddPort)
    }

    pub fn fired(&self) -> bool {
        self.any(Event::Fired, Event::FiredAgain)
    }

    pub fn raised(&self) -> bool {
        self.any(Event::Raised, Event::Raised)
    }

    /// One line for each timer.
    pub fn text(&self) -> String {
        let named = |counts: &[u64; EVENTS]| -> Vec<String> {
            NAMES.iter().zip(counts).map(|(name, count)| format!("{name} {count}")).collect()
        };
        let lines = self.0.iter().enumerate();
        lines.map(|(n, counts)| format!("  timer {n}: {}\n", named(counts).join(", "))).collect()
    }

    /// What was never met.
    pub fn lacking(&self) -> Vec<String> {
        let of =
            |n: usize| (0..EVENTS).filter(move |k| self.0[n][*k] == 0).map(move |k| format!("timer {n}: {}", NAMES[k]));
        (0..2).flat_map(of).collect()
    }
}
