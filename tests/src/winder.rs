//! The winder (document 02, request 5): its settings with refusal 9, the simulation, and the call on byte buffers.

use crate::card::{answered, on_copy};
use crate::emulator::{Machine, Step, RUNNING};
use crate::image::{self, Refusal};

/// Bytes of a result place.
pub const PLACE: usize = 2;
/// Bit 0 of the output byte winds.
pub const MOTOR: u8 = 1;
/// Bit 0 of the input byte: the label is reached.
pub const LABEL: u8 = 1;

/// What is set before a simulation.
#[derive(Clone, Copy, Debug, PartialEq, Eq)]
pub struct Settings {
    /// The label's maximum turns.
    pub turns: u32,
    /// Notches per turn.
    pub notches: u32,
    /// The run-down r: the train takes a notch on every r-th tick.
    pub rundown: u32,
    pub ticks: u32,
    /// Steps in a tick.
    pub steps: u32,
}

/// The settings' names, in the order of the call.
pub const NAMES: [&str; 5] = ["turns", "notches", "rundown", "ticks", "steps"];
/// The most that each of them may be. The least is 1.
pub const MOST: [u32; 5] = [999, 64, 64, 65_535, 65_535];

impl Settings {
    pub fn of([turns, notches, rundown, ticks, steps]: [u32; 5]) -> Settings {
        Settings { turns, notches, rundown, ticks, steps }
    }

    pub fn numbers(&self) -> [u32; 5] {
        [self.turns, self.notches, self.rundown, self.ticks, self.steps]
    }

    /// Refusal 9: a setting outside its values, or "a result buffer with fewer places than ticks", this many bytes long.
    pub fn test(&self, bytes: usize) -> Result<(), Refusal> {
        let good = self.numbers().iter().zip(MOST).all(|(number, most)| (1..=most).contains(number));
        if !good || bytes / PLACE < self.ticks as usize {
            return Err(Refusal::plain(9));
        }
        Ok(())
    }

    /// "The label times the notches per turn."
    pub fn full(&self) -> u32 {
        self.turns * self.notches
    }

    /// "The whole turns standing have reached the label."
    pub fn reached(&self, standing: u32) -> bool {
        standing / self.notches >= self.turns
    }
}

/// A simulation between two ticks.
pub struct Winder {
    pub machine: Machine,
    settings: Settings,
    ticks: u32,
    standing: u32,
}

/// What a tick did.
#[derive(Clone, Copy, Debug, PartialEq, Eq)]
pub struct Tick {
    /// Bit n: the steps went on behind an entry with number n.
    pub through: u16,
    pub motor: bool,
    /// It was an r-th tick.
    pub due: bool,
    /// The notches standing after it.
    pub standing: u32,
}

impl Winder {
    /// "The barrel starts with no notch standing"; input bit 0 "for the first tick is clear".
    pub fn new(mut machine: Machine, settings: Settings) -> Winder {
        machine.input &= !LABEL;
        Winder { machine, settings, ticks: 0, standing: 0 }
    }

    /// The steps; then winding; then taking; then the input bit for the next tick.
    pub fn tick(&mut self) -> Tick {
        self.ticks += 1;
        let through = self.steps();
        let motor = self.machine.output & MOTOR != 0;
        if motor {
            self.standing += 1;
        }
        // "Every r-th tick, counted from 1, the train takes one notch if any is left."
        let due = self.ticks.is_multiple_of(self.settings.rundown);
        if due && self.standing > 0 {
            self.standing -= 1;
        }
        self.machine.input &= !LABEL;
        if self.settings.reached(self.standing) {
            self.machine.input |= LABEL;
        }
        Tick { through, motor, due, standing: self.standing }
    }

    /// "A set number of steps, carrying on through kernel entries, until halted or lost."
    fn steps(&mut self) -> u16 {
        let (mut through, mut entered) = (0, 0);
        for _ in 0..self.settings.steps {
            if self.machine.condition != RUNNING {
                break;
            }
            through |= entered;
            entered = match self.machine.step() {
                Step::Entered { number, .. } => 1 << number,
                _ => 0,
            };
        }
        through
    }
}

/// A simulation, as `tac_wind` answers it.
pub fn wind(memory: &mut [u8], image: &mut [u8], settings: &Settings, places: &mut [u8]) -> u64 {
    on_copy(memory, |memory| wind_in(memory, image, settings, places))
}

/// The same, with memory moved into the machine and back. Gives the first tick, counted from 1, with more standing than
/// the label times the notches per turn, or 0.
fn wind_in(memory: &mut Vec<u8>, image: &mut [u8], settings: &Settings, places: &mut [u8]) -> u64 {
    let mut go = || {
        image::test(memory, image)?;
        settings.test(places.len())?;
        let mut winder = Winder::new(image::read(std::mem::take(memory), image), *settings);
        let mut over = 0;
        for (number, place) in (1..=settings.ticks).zip(places.chunks_exact_mut(PLACE)) {
            let standing = winder.tick().standing;
            place.copy_from_slice(&(standing as u16).to_be_bytes());
            if over == 0 && standing > settings.full() {
                over = number;
            }
        }
        image.copy_from_slice(&image::write(&winder.machine));
        *memory = winder.machine.memory;
        Ok(over as usize)
    };
    answered(go())
}
