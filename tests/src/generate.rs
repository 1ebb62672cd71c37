//! Random cases: runs, cards, times, runs with looks between them, simulations of a winder, and pairs of memories for
//! demand 3.

use crate::assemble::{put_words, Card};
use crate::card::{self, LONGEST};
use crate::case::{Call, Case};
use crate::emulator::{Machine, E, EXECUTE, FLAG_BITS, HALTED, I, LINES, LOST, MEMORY, P, READ, RUNNING, VALID};
use crate::image;
use crate::isolation::Pair;
use crate::looks::Looks;
use crate::program::{self, Ground, Ports, Style};
use crate::report::REPORT;
use crate::rng::Rng;
use crate::sample::{self, edge, instruction_word, value};
use crate::scenarios::{MOTOR, SCENARIOS};
use crate::timer::Timer;
use crate::winder::{Settings, MOST, PLACE};

/// Scratch space for making cases, and the first bytes that are valid.
pub struct Maker {
    machine: Machine,
    first_bytes: Vec<u8>,
}

impl Default for Maker {
    fn default() -> Self {
        Maker::new()
    }
}

impl Maker {
    pub fn new() -> Maker {
        Maker { machine: Machine::new(), first_bytes: sample::valid_first_bytes() }
    }

    /// A random start of a run.
    fn scene(&mut self, rng: &mut Rng) {
        match rng.below(100) {
            0..=54 => self.user(rng),
            55..=74 => self.untranslated(rng, Ports::ANY),
            75..=91 => self.wild(rng),
            _ => self.ends(rng),
        }
    }

    /// Everything outside the program: ports, pending lines, MMU registers.
    fn surroundings(&mut self, rng: &mut Rng) {
        let m = &mut self.machine;
        m.memory.fill(0);
        rng.fill(&mut m.memory[0xFFE0..]);
        m.ssp = match rng.below(10) {
            0..=6 => rng.word() & 0xFFFE,
            7 => edge(rng) & 0xFFFE,
            8 => 0xFFE0 + 2 * rng.below(16) as u16,
            _ => rng.word() | 1,
        };
        m.flag = rng.word() & FLAG_BITS & !(P | I | E);
        m.pending = 0;
        if rng.chance(12) {
            m.flag |= E;
            if rng.chance(50) {
                m.pending = 1 << rng.below(10);
                m.pending |= if rng.chance(50) { rng.word() & LINES } else { 0 };
            }
        } else if rng.chance(30) {
            m.pending = rng.word() & LINES;
        }
        m.input = rng.byte();
        m.output = rng.byte();
        m.violation = rng.word();
        m.cause = rng.below(4) as u8;
        m.missed = rng.byte();
        m.condition = if rng.chance(3) { 1 + rng.below(2) as u8 } else { 0 };
        m.tlb = sample::tlb(rng);
        m.timers = sample::timers(rng);
    }

    /// Random bytes in the frames of the ground's data pages.
    fn fill_data(&mut self, rng: &mut Rng, ground: &Ground) {
        for &page in ground.read.iter().chain(&ground.write) {
            let place = ground.frame(&self.machine.tlb, page);
            rng.fill(&mut self.machine.memory[place..place + 256]);
        }
    }

    /// A program in user mode with the MMU on.
    fn user(&mut self, rng: &mut Rng) {
        let nasty = rng.pick(&[0, 0, 1, 3, 20, 60]);
        let ports = if rng.chance(20) { Ports::ANY } else { Ports::NONE };
        self.user_program(rng, nasty, ports);
    }

    fn user_program(&mut self, rng: &mut Rng, nasty: u64, ports: Ports) {
        self.surroundings(rng);
        if rng.chance(90) {
            sample::make_useful(rng, &mut self.machine.tlb);
        }
        self.machine.mmu_on = true;
        self.machine.flag |= if ports.allowed() { I } else { 0 };
        let ground = Ground::of_tlb(&self.machine.tlb);
        self.program(rng, &ground, Style { nasty, ports, kernel: false });
    }

    /// A program in kernel mode, or in user mode with the MMU off.
    fn untranslated(&mut self, rng: &mut Rng, ports: Ports) {
        self.surroundings(rng);
        let kernel = rng.chance(75);
        let io = rng.chance(40);
        self.machine.flag |= if kernel { P } else { 0 } | if io { I } else { 0 };
        self.machine.mmu_on = kernel && rng.chance(50);
        let ground = Ground::untranslated(rng);
        let nasty = rng.pick(&[0, 0, 2, 10, 50]);
        let ports = if kernel || io { ports } else { Ports::NONE };
        self.program(rng, &ground, Style { nasty, ports, kernel });
        if kernel && rng.chance(85) {
            let both = ground.both(rng).unwrap_or(0);
            self.machine.ssp = u16::from_be_bytes([both, 0x80]);
        }
    }

    fn program(&mut self, rng: &mut Rng, ground: &Ground, style: Style) {
        program::set_pointers(rng, &mut self.machine, ground);
        self.fill_data(rng, ground);
        let starts = program::write(rng, &mut self.machine, ground, style);
        self.machine.pc = if starts.is_empty() { rng.word() } else { rng.pick(&starts) };
        if rng.chance(3) {
            self.machine.pc = value(rng, &ground.code);
        }
    }

    /// Random instruction words in mapped frames, any state.
    fn wild(&mut self, rng: &mut Rng) {
        self.surroundings(rng);
        self.machine.flag |= rng.word() & (P | I) & if rng.chance(70) { !P } else { P | I };
        self.machine.mmu_on = rng.chance(80);
        let tlb = self.machine.tlb;
        let pages: Vec<u8> = tlb.iter().map(|e| (e >> 16) as u8).collect();
        for page in &pages {
            let frames = [sample::serving(&tlb, *page).unwrap_or(0) as u8, *page];
            for frame in frames {
                self.instructions(rng, frame as usize * 256, 128);
            }
        }
        for n in 0..13 {
            self.machine.regs[n] = value(rng, &pages);
        }
        self.machine.usp = value(rng, &pages);
        let executable = Ground::of_tlb(&tlb).code;
        let code = if rng.chance(80) { &executable } else { &pages };
        self.machine.pc = sample::inside(rng, code) & if rng.chance(97) { 0xFFFE } else { 0xFFFF };
    }

    fn instructions(&mut self, rng: &mut Rng, place: usize, words: usize) {
        for at in (place..place + 2 * words).step_by(2) {
            let word = instruction_word(rng, &self.first_bytes);
            put_words(&mut self.machine.memory, at, &[word]);
        }
    }

    /// Programs and pointers at both ends of memory.
    fn ends(&mut self, rng: &mut Rng) {
        self.surroundings(rng);
        self.machine.flag |= rng.word() & (P | I);
        self.machine.mmu_on = rng.chance(50);
        let full = 0x8700;
        for (k, page) in [0x00, 0xFF, 0x01, 0xFE].into_iter().enumerate() {
            if rng.chance(70) {
                self.machine.tlb[2 * k] = page << 16 | full | rng.byte() as u32;
                self.instructions(rng, (self.machine.tlb[2 * k] as usize & 0xFF) * 256, 128);
            }
            self.instructions(rng, page as usize * 256, 128);
        }
        for n in 0..13 {
            self.machine.regs[n] = edge(rng);
        }
        self.machine.usp = edge(rng);
        self.machine.ssp = edge(rng);
        self.machine.pc = rng.pick(&[0xFFFE, 0xFFFC, 0xFFFA, 0xFFF0, 0x0000, 0x0002, 0xFFFF, 0xFEFE]);
    }

    /// A run, a view or a look of a random start, now and then with a bad buffer.
    pub fn run_case(&mut self, rng: &mut Rng, case: &mut Case) {
        self.scene(rng);
        let allowance = allowance(rng);
        case.call = match rng.below(100) {
            0..=4 => Call::View,
            5..=9 => Call::Fault,
            _ => Call::Run(allowance),
        };
        let length = if rng.chance(80) { REPORT } else { rng.between(12, 40) as usize };
        self.fill_case(rng, case, length);
        if rng.chance(if case.call == Call::Fault { 40 } else { 4 }) {
            spoil_buffers(rng, case);
        }
    }

    /// A run of a random start, and another one behind the looks. Half of the starts have no cause, so that what the look
    /// shows is the run's.
    pub fn looks(&mut self, rng: &mut Rng, looks: &mut Looks) {
        self.scene(rng);
        if rng.chance(50) {
            self.machine.cause = 0;
        }
        if rng.chance(50) {
            let frame = rng.below(255) as u8;
            handlers(rng, &mut self.machine, frame);
        }
        looks.start.call = Call::Run(allowance(rng));
        looks.more = allowance(rng);
        self.fill_case(rng, &mut looks.start, REPORT);
    }

    fn fill_case(&mut self, rng: &mut Rng, case: &mut Case, report_length: usize) {
        case.memory.clear();
        case.memory.extend_from_slice(&self.machine.memory);
        case.image.clear();
        case.image.extend_from_slice(&image::write(&self.machine));
        case.report.resize(report_length, 0);
        rng.fill(&mut case.report);
    }

    /// A card on a random start.
    pub fn card_case(&mut self, rng: &mut Rng, case: &mut Case) {
        self.scene(rng);
        if rng.chance(75) {
            let frame = rng.below(255) as u8;
            handlers(rng, &mut self.machine, frame);
        }
        let bytes = random_card(rng, &self.machine);
        let runs = match card::commands(&bytes) {
            Ok(list) => card::count_runs(&list),
            Err(_) => rng.below(4) as usize,
        };
        let exact = REPORT * runs;
        let length = match rng.below(20) {
            0..=9 => exact,
            10..=14 => exact + rng.between(1, 40) as usize,
            15..=16 => exact.saturating_sub(rng.between(1, 12) as usize),
            17 => exact / 2,
            18 => 0,
            _ => REPORT * (LONGEST / 3),
        };
        case.call = Call::Card(bytes);
        self.fill_case(rng, case, length);
        if rng.chance(6) {
            spoil_buffers(rng, case);
        }
    }

    /// Times and runs on a random start, mostly with a program that reads and sets the timers, halted or lost at times; now
    /// and then with a bad timer.
    pub fn time_case(&mut self, rng: &mut Rng, case: &mut Case) {
        match rng.below(10) {
            0..=3 => self.user_program(rng, 1, Ports::TIMERS),
            4..=7 => self.untranslated(rng, Ports::TIMERS),
            _ => self.scene(rng),
        }
        let frame = rng.below(255) as u8;
        handlers(rng, &mut self.machine, frame);
        self.machine.flag |= rng.word() & E;
        self.machine.condition = rng.pick(&[RUNNING, RUNNING, RUNNING, RUNNING, HALTED, LOST]);
        case.call = Call::Card(time_card(rng, self.machine.timers));
        self.fill_case(rng, case, 12 * REPORT);
        if rng.chance(10) {
            spoil_timer(rng, &mut case.image);
        }
    }

    /// A simulation of a winder, with settings that are beyond their values at times, too few places, or a bad buffer.
    pub fn wind_case(&mut self, rng: &mut Rng, case: &mut Case) {
        match rng.below(20) {
            0..=9 => MOTOR.case(rng, case),
            10..=14 => SCENARIOS[rng.below(SCENARIOS.len() as u64) as usize].case(rng, case),
            kind => {
                match kind {
                    15..=16 => self.user_program(rng, 1, Ports::BYTES),
                    17..=18 => self.untranslated(rng, Ports::BYTES),
                    _ => self.scene(rng),
                }
                let frame = rng.below(255) as u8;
                handlers(rng, &mut self.machine, frame);
                self.fill_case(rng, case, 0);
            }
        }
        if rng.chance(6) {
            case.image[image::CONDITION] = rng.pick(&[HALTED, LOST]);
        }
        let mut settings = settings(rng);
        let good = settings.ticks;
        if rng.chance(15) {
            spoil_settings(rng, &mut settings);
        }
        let length = places(rng, if settings.ticks <= MOST[3] + 1 { settings.ticks } else { good });
        case.call = Call::Wind(settings);
        case.report.resize(length, 0);
        rng.fill(&mut case.report);
        if rng.chance(4) {
            spoil_buffers(rng, case);
        }
    }

    /// Two memories that differ only in frames without read and execute right.
    pub fn pair(&mut self, rng: &mut Rng, pair: &mut Pair) {
        let nasty = rng.pick(&[0, 0, 0, 1, 2, 30]);
        self.user_program(rng, nasty, Ports::NONE);
        self.machine.condition = 0;
        pair.allowance = if rng.chance(2) { rng.between(1_500, 65_535) } else { rng.between(1, 1_500) } as u16;
        pair.image = image::write(&self.machine);
        if rng.chance(30) {
            // Secrets everywhere, under the program's data as well.
            let open = open_frames(&self.machine.tlb);
            for frame in (0..256).filter(|f| !open[*f]) {
                rng.fill(&mut self.machine.memory[frame * 256..frame * 256 + 256]);
            }
        }
        pair.first.clear();
        pair.first.extend_from_slice(&self.machine.memory);
        pair.second.clear();
        pair.second.extend_from_slice(&self.machine.memory);
        let open = open_frames(&self.machine.tlb);
        let density = rng.pick(&[100, 100, 50, 5]);
        for frame in (0..256).filter(|f| !open[*f]) {
            if rng.chance(density) {
                rng.fill(&mut pair.second[frame * 256..frame * 256 + 256]);
            }
        }
    }
}

/// Good settings: mostly small, so that the label is reached, some at the ends of their values.
fn settings(rng: &mut Rng) -> Settings {
    let few = rng.between(2, 5) as u32;
    let turns = rng.pick(&[1, 1, 1, 1, few, few, few, 998, 999]);
    let notches = rng.pick(&[1, 1, 1, few, few, few, 6, 63, 64]);
    let rundown = rng.pick(&[1, 1, 2, 3, 4, 5, 6, 9, 20, 63, 64, 64]);
    let (ticks, steps) = match rng.below(1_000) {
        0 => (MOST[3] - rng.chance(25) as u32, 1),
        1 => (rng.between(1, 2) as u32, MOST[4] - rng.chance(25) as u32),
        2..=49 => (rng.between(60, 1_200) as u32, rng.between(1, 6) as u32),
        50..=149 => (1, rng.between(1, 60) as u32),
        150..=249 => (rng.between(1, 60) as u32, 1),
        250..=299 => (rng.between(1, 8) as u32, rng.between(100, 600) as u32),
        _ => (rng.between(2, 50) as u32, rng.between(2, 50) as u32),
    };
    Settings { turns, notches, rundown, ticks, steps }
}

/// One or two settings beyond their values: near them, or such that their lower bits are good.
fn spoil_settings(rng: &mut Rng, settings: &mut Settings) {
    let mut numbers = settings.numbers();
    for _ in 0..if rng.chance(80) { 1 } else { 2 } {
        let k = rng.below(5) as usize;
        let (good, most) = (numbers[k], MOST[k]);
        numbers[k] = match rng.below(8) {
            0..=1 => 0,
            2..=3 => most + 1,
            4 => good.wrapping_add(0x1_0000),
            5 => good | 1 << rng.between(16, 31),
            6 => rng.pick(&[most + 2, 0x1_0000, 0x8000_0000, 0xFFFF_FFFF]),
            _ if k == 1 || k == 2 => good.wrapping_add(256),
            _ => 0xFFFF_FFFF - rng.below(4) as u32,
        };
    }
    *settings = Settings::of(numbers);
}

/// Bytes of places for so many ticks: just enough mostly, more, or too few.
fn places(rng: &mut Rng, ticks: u32) -> usize {
    let exact = PLACE * ticks as usize;
    match rng.below(40) {
        0..=21 => exact,
        22..=27 => exact + 1,
        28..=35 => exact + rng.between(2, 40) as usize,
        36 => exact.saturating_sub(1),
        37 => exact.saturating_sub(PLACE),
        38 => rng.below(exact as u64 + 1) as usize,
        _ => 0,
    }
}

/// Steps that a run may do: some hundreds mostly, now and then none or all.
fn allowance(rng: &mut Rng) -> u16 {
    match rng.below(100) {
        0..=4 => 0,
        5..=24 => rng.between(1, 8) as u16,
        25..=97 => rng.between(9, 600) as u16,
        98 => rng.between(600, 65_535) as u16,
        _ => rng.pick(&[65_534, 65_535]),
    }
}

/// Handlers in one frame, an even SSP: a card's later runs go on from an entry.
pub fn handlers(rng: &mut Rng, machine: &mut Machine, frame: u8) {
    const HANDLERS: [&[u16]; 5] = [
        &[0xD400],                                         // RETI
        &[0xB000, 0x00A4, 0xB010, 0x00A2, 0xD400],         // IN cause, IN address, RETI
        &[0xB000, 0x0002, 0xB010, 0x0006, 0xD400],         // IN fired of both timers, RETI
        &[0xC400, 0xC410, 0x1D12, 0xC010, 0xC000, 0xD400], // go on behind the faulting word
        &[0xFF00],                                         // HALT
    ];
    for number in 0..16 {
        let place = frame as usize * 256 + 16 * number;
        let kinds = if rng.chance(95) { 4 } else { 5 };
        put_words(&mut machine.memory, place, rng.pick(&HANDLERS[..kinds]));
        put_words(&mut machine.memory, 0xFFE0 + 2 * number, &[place as u16]);
    }
    machine.ssp &= 0xFFFE;
}

/// Frames to which some valid entry gives the read or the execute right.
pub fn open_frames(tlb: &[u32; 8]) -> [bool; 256] {
    let mut open = [false; 256];
    for entry in tlb.iter().filter(|e| *e & VALID != 0 && *e & (READ | EXECUTE) != 0) {
        open[*entry as u8 as usize] = true;
    }
    open
}

/// Wrong lengths, or a field beyond its values.
fn spoil_buffers(rng: &mut Rng, case: &mut Case) {
    for _ in 0..rng.between(1, 2) {
        match rng.below(6) {
            0 => {
                let length = rng.pick(&[0, 1, image::IMAGE, MEMORY - 1, MEMORY + 1, MEMORY + 256]);
                case.memory.resize(length, 0x5A);
            }
            1 => {
                let length = rng.pick(&[0, 1, 12, 68, 83, 85, 168]);
                case.image.resize(length, 0);
            }
            2 => {
                let length = rng.pick(&[0, 1, 11]);
                case.report.resize(length, 0);
            }
            _ if case.image.len() == image::IMAGE => spoil_field(rng, &mut case.image),
            _ => {}
        }
    }
}

/// One bit that refusal 3 is about, or one that it is not.
fn spoil_field(rng: &mut Rng, image: &mut [u8]) {
    let bit = 1u8 << rng.below(8);
    let entry = image::TLB + 3 * rng.below(8) as usize;
    match rng.below(12) {
        0 => image[image::FLAG] |= bit,
        1 => image[image::FLAG + 1] |= 0x10,
        2 => image[image::PENDING] |= bit,
        3 => image[image::MMU] |= bit,
        4 => image[image::CONDITION] |= bit,
        5 => image[image::CAUSE] |= bit,
        6 => image[entry + 1] |= rng.pick(&[0x20, 0x40, 0x60]),
        7 => image[image::CONDITION] = 3,
        8..=10 => spoil_timer(rng, image),
        _ => image[rng.below(image::IMAGE as u64) as usize] ^= bit,
    }
}

/// One word of a timer: beyond its values mostly, or just inside them.
fn spoil_timer(rng: &mut Rng, image: &mut [u8]) {
    let timer = image::TIMERS + image::TIMER * rng.below(2) as usize;
    let period = u16::from_be_bytes([image[timer + image::PERIOD], image[timer + image::PERIOD + 1]]);
    let (offset, value) = match rng.below(8) {
        0 => (image::CONTROL, 1 << rng.below(16)),
        1 => (image::CONTROL, rng.word()),
        2 => (image::FIRED, rng.pick(&[1, 2, 3, 0x0100, 0x8000])),
        3 => (image::FIRED, rng.word()),
        4 => (image::PERIOD, rng.pick(&[0, 1, 2])),
        5 => (image::COUNT, period),
        6 => (image::COUNT, period.wrapping_add(1)),
        _ => (image::COUNT, rng.word()),
    };
    image[timer + offset..timer + offset + 2].copy_from_slice(&u16::to_be_bytes(value));
}

/// One good command.
fn good_command(rng: &mut Rng, machine: &Machine, card: &mut Vec<u8>) {
    let pages: Vec<u8> = machine.tlb.iter().map(|e| (e >> 16) as u8).collect();
    let even = if rng.chance(95) { 0xFFFE } else { 0xFFFF };
    let [high, low] = (value(rng, &pages) & even).to_be_bytes();
    match rng.below(18) {
        0..=2 => {
            let [a, b] = machine.pc.wrapping_add(rng.below(16) as u16).to_be_bytes();
            card.extend([0x01, a, b, rng.byte()]);
        }
        3..=5 => card.extend([0x02, rng.below(16) as u8, high, low]),
        6 => {
            let [a, b] = (rng.word() & LINES).to_be_bytes();
            card.extend([0x03, a, b, rng.byte()]);
        }
        7 => card.extend([0x03, 0, 0, low]),
        8 => {
            let tlb = sample::tlb(rng);
            let [_, page, middle, frame] = rng.pick(&tlb).to_be_bytes();
            card.extend([0x05, rng.below(8) as u8, page, middle, frame]);
        }
        9 => card.extend([0x06, rng.below(2) as u8]),
        10 => {
            let [a, b] = (rng.word() & FLAG_BITS & !E).to_be_bytes();
            card.extend([0x07, a, b]);
        }
        11 => {
            let [a, b] = machine.pc.to_be_bytes();
            card.extend([0x02, 15, a, b]);
            card.extend([0x07, 0, machine.flag as u8]);
        }
        12..=13 => {
            let [a, b] = sample::milliseconds(rng, &machine.timers).to_be_bytes();
            card.extend([0x08, a, b]);
        }
        _ => {
            let allowance = if rng.chance(95) { rng.below(60) } else { rng.below(3000) };
            let [a, b] = (allowance as u16).to_be_bytes();
            card.extend([0x04, a, b]);
        }
    }
}

/// A command that is bad: unknown, beyond its values, or (at the end) cut.
fn bad_command(rng: &mut Rng, card: &mut Vec<u8>) {
    let at = card.len();
    let any = [rng.byte(), rng.byte(), rng.byte(), rng.byte()];
    card.push(rng.pick(&[0x00, 0x02, 0x03, 0x05, 0x05, 0x06, 0x07, 0x07, 0x08, 0x09, 0xFF, 0x80]));
    match card[at] {
        0x02 => card.extend([rng.between(16, 255) as u8, any[0], any[1]]),
        0x03 => card.extend([any[0] | 1 << rng.between(2, 7), any[1], any[2]]),
        0x05 if rng.chance(50) => card.extend([rng.between(8, 255) as u8, any[0], any[1], any[2]]),
        0x05 => card.extend([any[0] % 8, any[1], any[2] | rng.pick(&[0x20, 0x40]), any[3]]),
        0x06 => card.push(rng.between(2, 255) as u8),
        0x07 if rng.chance(50) => card.extend([0, any[0] | 0x10]),
        0x07 => card.extend([1 << rng.below(8), any[0]]),
        0x08 => card.extend(&any[..rng.below(2) as usize]),
        _ => {}
    }
}

/// A good card of times mostly, with up to 12 runs. Times go by the timers as they are then, if no program sets them.
fn time_card(rng: &mut Rng, mut timers: [Timer; 2]) -> Vec<u8> {
    let mut card = Card::new();
    for _ in 0..rng.between(1, 12) {
        card = match rng.below(12) {
            0 => card.flag(rng.word() & FLAG_BITS),
            1 => card.lines(rng.word() & LINES & rng.word(), rng.byte()),
            2 => card.mmu(rng.below(2) as u8),
            3..=6 => card.run(rng.below(120) as u16),
            _ => {
                let milliseconds = sample::milliseconds(rng, &timers);
                for timer in &mut timers {
                    (0..milliseconds).for_each(|_| _ = timer.millisecond());
                }
                card.time(milliseconds)
            }
        };
    }
    card.bytes()
}

/// A card: good, cut, damaged, random, empty, near the greatest length or over it.
fn random_card(rng: &mut Rng, machine: &Machine) -> Vec<u8> {
    let mut card = Vec::new();
    let kind = rng.below(100);
    let length = match kind {
        0..=2 => 0,
        3..=5 => rng.between(4_060, 4_096) as usize,
        6..=7 => rng.between(4_097, 4_200) as usize,
        _ => rng.below(120) as usize,
    };
    while card.len() < length {
        good_command(rng, machine, &mut card);
    }
    match kind {
        // Often exactly at the limit: a command is not left cut.
        3..=7 => fit(rng, &mut card, kind < 6),
        40..=59 => bad_command(rng, &mut card),
        _ => {}
    }
    match kind {
        50..=59 => good_command(rng, machine, &mut card),
        60..=74 => card.truncate(rng.below(card.len() as u64 + 1) as usize),
        75..=86 if !card.is_empty() => {
            for _ in 0..rng.between(1, 3) {
                let at = rng.below(card.len() as u64) as usize;
                card[at] = if rng.chance(50) { rng.byte() } else { card[at] ^ 1 << rng.below(8) };
            }
        }
        87..=91 => {
            card.resize(rng.below(40) as usize, 0);
            rng.fill(&mut card);
        }
        _ => {}
    }
    card
}

/// Cuts a long card at 4,096 bytes between commands and fills it up with
/// commands 06 and 04; or makes it one or more bytes too long.
fn fit(rng: &mut Rng, card: &mut Vec<u8>, good: bool) {
    let mut end = 0;
    let mut at = 0;
    while at < card.len() {
        at += 1 + card::operands(card[at]).expect("a good command");
        if at <= LONGEST && at != LONGEST - 1 {
            end = at;
        }
    }
    card.truncate(end);
    while card.len() < LONGEST {
        match LONGEST - card.len() {
            3 => card.extend([0x04, 0, rng.below(4) as u8]),
            _ => card.extend([0x06, rng.below(2) as u8]),
        }
    }
    if !good {
        let over = rng.pick(&[1, 1, 2, 500]);
        card.resize(LONGEST + over, 0x06);
    }
}
