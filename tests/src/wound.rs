//! What simulations of a winder (document 02, request 5) come to, counted, so that a test can say how far its cases
//! reach; and the same simulation made of runs.

use crate::case::{difference, go_on, perform, Call, Case, Emulator, Outcome};
use crate::emulator::{HALTED, LOST};
use crate::image;
use crate::report::{ENDING, REPORT, STEPS};
use crate::scene::Way;
use crate::winder::{self, Settings, Tick, Winder, LABEL, MOST, MOTOR, PLACE};

// What can happen in a simulation, or to its places.
named! {
    Event EVENTS:
    Kernel "ticks begun in the kernel"
    User "by a user"
    Bare "by a user, MMU off"
    Motor "motor on"
    NoMotor "motor off"
    SwitchedOn "switched on"
    SwitchedOff "switched off"
    Taken "taken"
    NoneLeft "none left to take"
    PartTurn "less than a turn below the label"
    Reached "input bit set"
    Cleared "input bit cleared again"
    Obeyed "motor off with the input bit set"
    Ignored "motor on with the input bit set"
    Halts "halted in a tick"
    Loses "lost in a tick"
    HaltedMotor "wound by a halted machine"
    HaltedStill "halted, motor off"
    LostMotor "wound by a lost machine"
    LostStill "lost, motor off"
    BothBytes "over 255 standing"
    Held "simulations that reached the label and held it"
    Over "over the label"
    NotReached "below it"
    FirstBit "input bit set before the first tick"
    OtherBits "other input bits"
    Exact "as many places as ticks"
    Behind "places behind the ticks"
    HalfBehind "an odd last byte"
    HalfShort "half a place too few"
    OneShort "a place too few"
    NoPlaces "no places"
}

/// Where a setting can stand.
const BOUNDS: [&str; 5] = ["0", "1", "the most", "one more", "far beyond"];

/// How often each was met. A bad setting, or too few places, counts where it is the only cause of a refusal.
#[derive(Clone, Debug, Default)]
pub struct Wound {
    events: [u64; EVENTS.len()],
    /// Ticks that went on behind an entry, by its number.
    through: [u64; 16],
    bounds: [[u64; BOUNDS.len()]; 5],
}

/// The place of a number among the bounds.
fn bound(number: u32, most: u32) -> Option<usize> {
    match number {
        0 => Some(0),
        1 => Some(1),
        _ if number == most => Some(2),
        _ if number == most + 1 => Some(3),
        _ => (number > most).then_some(4),
    }
}

/// The machine before a tick.
struct Before {
    way: Way,
    condition: u8,
    motor: bool,
    reached: bool,
}

impl Before {
    fn of(winder: &Winder) -> Before {
        let m = &winder.machine;
        Before { way: Way::of(m), condition: m.condition, motor: m.output & MOTOR != 0, reached: m.input & LABEL != 0 }
    }
}

impl Wound {
    fn note_if(&mut self, holds: bool, event: Event) {
        self.events[event as usize] += holds as u64;
    }

    /// A simulation on good memory and image; other cases are passed over.
    pub fn case(&mut self, case: &Case) {
        let Call::Wind(settings) = case.call else { return };
        if image::test(&case.memory, &case.image).is_err() || !self.settings(&settings, case.report.len()) {
            return;
        }
        let input = case.image[image::INPUT];
        self.note_if(input & LABEL != 0, Event::FirstBit);
        self.note_if(input & !LABEL != 0, Event::OtherBits);
        self.simulation(Winder::new(image::read(case.memory.clone(), &case.image), settings), &settings);
    }

    /// The settings and the places; says whether they are good.
    fn settings(&mut self, settings: &Settings, bytes: usize) -> bool {
        let bad: Vec<usize> = (0..5).filter(|k| !(1..=MOST[*k]).contains(&settings.numbers()[*k])).collect();
        let needed = PLACE * settings.ticks as usize;
        match bad[..] {
            [] => {
                self.places(bytes, needed);
                for (k, number) in settings.numbers().into_iter().enumerate().filter(|_| bytes >= needed) {
                    self.bound(k, number);
                }
                bytes >= needed
            }
            // There can be no places for so many ticks.
            [k] if bytes >= needed || settings.ticks > MOST[3] + 1 => {
                self.bound(k, settings.numbers()[k]);
                false
            }
            _ => false,
        }
    }

    fn bound(&mut self, k: usize, number: u32) {
        if let Some(place) = bound(number, MOST[k]) {
            self.bounds[k][place] += 1;
        }
    }

    fn places(&mut self, bytes: usize, needed: usize) {
        self.note_if(bytes == needed, Event::Exact);
        self.note_if(bytes >= needed + PLACE, Event::Behind);
        self.note_if(bytes > needed && bytes % PLACE == 1, Event::HalfBehind);
        self.note_if(bytes + 1 == needed, Event::HalfShort);
        self.note_if(bytes + PLACE == needed, Event::OneShort);
        self.note_if(bytes == 0, Event::NoPlaces);
    }

    fn simulation(&mut self, mut winder: Winder, settings: &Settings) {
        let mut most = 0;
        let mut standing = 0;
        for number in 1..=settings.ticks {
            let before = Before::of(&winder);
            let tick = winder.tick();
            self.tick(&before, &tick, standing, number > 1);
            let after = winder.machine.condition;
            self.note_if(before.condition != after && after == HALTED, Event::Halts);
            self.note_if(before.condition != after && after == LOST, Event::Loses);
            let missing = settings.full().saturating_sub(tick.standing);
            self.note_if((1..settings.notches).contains(&missing), Event::PartTurn);
            let reached = settings.reached(tick.standing);
            self.note_if(reached, Event::Reached);
            self.note_if(before.reached && !reached, Event::Cleared);
            standing = tick.standing;
            most = most.max(standing);
        }
        let full = settings.full();
        self.note_if(most > full, Event::Over);
        self.note_if(most == full, Event::Held);
        self.note_if(most < full, Event::NotReached);
    }

    /// A tick, with so many standing before it; the first one switches nothing.
    fn tick(&mut self, before: &Before, tick: &Tick, standing: u32, switches: bool) {
        let stopped = before.condition;
        let way = [Event::Kernel, Event::User, Event::Bare][before.way as usize];
        self.note_if(true, way);
        self.note_if(true, if tick.motor { Event::Motor } else { Event::NoMotor });
        self.note_if(switches && tick.motor && !before.motor, Event::SwitchedOn);
        self.note_if(switches && !tick.motor && before.motor, Event::SwitchedOff);
        let had = standing + tick.motor as u32;
        self.note_if(tick.due, if had > 0 { Event::Taken } else { Event::NoneLeft });
        self.note_if(before.reached, if tick.motor { Event::Ignored } else { Event::Obeyed });
        self.note_if(stopped == HALTED, if tick.motor { Event::HaltedMotor } else { Event::HaltedStill });
        self.note_if(stopped == LOST, if tick.motor { Event::LostMotor } else { Event::LostStill });
        self.note_if(tick.standing > 255, Event::BothBytes);
        for (number, count) in self.through.iter_mut().enumerate() {
            *count += (tick.through >> number & 1) as u64;
        }
    }

    /// What was met, in some lines.
    pub fn text(&self) -> String {
        let named = |names: &[&str], counts: &[u64]| -> String {
            names.iter().zip(counts).map(|(name, n)| format!("{name} {n}")).collect::<Vec<_>>().join(", ")
        };
        let through = self.through.iter().enumerate().map(|(number, n)| format!("{number}:{n}")).collect::<Vec<_>>();
        let mut text =
            format!("  {}\n  ticks on behind an entry: {}\n", named(EVENTS, &self.events), through.join(" "));
        for (name, counts) in winder::NAMES.iter().zip(&self.bounds) {
            text += &format!("  {name}: {}\n", named(&BOUNDS, counts));
        }
        text
    }

    /// What was never met.
    pub fn lacking(&self) -> Vec<String> {
        let events = EVENTS.iter().zip(&self.events).filter(|(_, n)| **n == 0).map(|(name, _)| name.to_string());
        let through = self.through.iter().enumerate().filter(|(_, n)| **n == 0).map(|(k, _)| format!("on behind {k}"));
        let bounds = winder::NAMES.iter().zip(&self.bounds).flat_map(|(name, counts)| {
            BOUNDS.iter().zip(counts).filter(|(_, n)| **n == 0).map(move |(bound, _)| format!("{name} {bound}"))
        });
        events.chain(through).chain(bounds).collect()
    }
}

/// Is this a simulation that is not refused?
pub fn asked(case: &Case) -> bool {
    let Call::Wind(settings) = &case.call else { return false };
    image::test(&case.memory, &case.image).is_ok() && settings.test(case.report.len()).is_ok()
}

/// Runs one after the other until so many steps are done or the machine stands.
fn steps_by_runs(emulator: &Emulator, at: &mut Outcome, steps: u32) {
    let mut left = steps as u16;
    loop {
        go_on(emulator, &Call::Run(left), at);
        left -= u16::from_be_bytes([at.report[STEPS], at.report[STEPS + 1]]);
        // Only behind an entry is there more to do.
        if at.report[ENDING] != 1 {
            return;
        }
    }
}

/// What a simulation that is asked for leaves, made of the emulator's runs: what stands is what was wound less what was
/// taken.
pub fn by_runs(emulator: &Emulator, case: &Case) -> Outcome {
    let Case { memory, image, report: mut places, call: Call::Wind(settings) } = case.clone() else {
        unreachable!("only simulations are asked for")
    };
    let mut at = Outcome { answer: 0, memory, image, report: vec![0; REPORT] };
    let (mut wound, mut taken, mut over) = (0u32, 0, 0);
    at.image[image::INPUT] &= !LABEL;
    for tick in 1..=settings.ticks {
        steps_by_runs(emulator, &mut at, settings.steps);
        wound += (at.image[image::OUTPUT] & MOTOR) as u32;
        taken += (tick % settings.rundown == 0 && wound > taken) as u32;
        let standing = wound - taken;
        let place = PLACE * (tick as usize - 1);
        (places[place], places[place + 1]) = ((standing >> 8) as u8, standing as u8);
        let full = settings.turns * settings.notches;
        at.image[image::INPUT] = at.image[image::INPUT] & !LABEL | (standing >= full) as u8;
        if standing > full && over == 0 {
            over = tick as u64;
        }
    }
    Outcome { answer: over, report: places, ..at }
}

/// Does the emulator's simulation differ from its runs?
pub fn unlike_runs(emulator: &Emulator, case: &Case) -> Option<String> {
    let mut out = Outcome::default();
    perform(emulator, case, &mut out);
    difference(&out, &by_runs(emulator, case))
}

/// Bytes behind each lent buffer, which are to stay.
const GUARD: [u8; 16] = [0xC7; 16];

/// Does the emulator's call write behind a buffer that it is lent?
pub fn writes_behind(emulator: &Emulator, case: &Case) -> bool {
    let Call::Wind(settings) = &case.call else { return false };
    let lengths = [&case.memory, &case.image, &case.report].map(|bytes| bytes.len());
    let mut buffers = [&case.memory, &case.image, &case.report].map(|bytes| [&bytes[..], &GUARD].concat());
    let [memory, image, places] = &mut buffers;
    (emulator.wind)(&mut memory[..lengths[0]], &mut image[..lengths[1]], settings, &mut places[..lengths[2]]);
    buffers.iter().zip(lengths).any(|(bytes, length)| bytes[length..] != GUARD)
}
