//! Programs that mostly run on without a fault, with nasty words mixed in.

use crate::assemble::{self, put_words};
use crate::emulator::{Machine, EXECUTE, READ, WRITE};
use crate::rng::Rng;
use crate::sample::{self, edge, number, ALU, PORTS, TIMER_PORTS};

/// The pages that a program may use, and whether they are translated.
#[derive(Clone, Debug, Default)]
pub struct Ground {
    pub code: Vec<u8>,
    pub read: Vec<u8>,
    pub write: Vec<u8>,
    pub translated: bool,
}

impl Ground {
    /// The pages that this TLB serves, by right.
    pub fn of_tlb(tlb: &[u32; 8]) -> Ground {
        let mut ground = Ground { translated: true, ..Ground::default() };
        for entry in tlb {
            let page = (entry >> 16) as u8;
            let Some(serving) = sample::serving(tlb, page) else { continue };
            let lists = [(EXECUTE, &mut ground.code), (READ, &mut ground.read), (WRITE, &mut ground.write)];
            for (right, list) in lists {
                if serving & right != 0 && !list.contains(&page) {
                    list.push(page);
                }
            }
        }
        ground
    }

    /// Some pages of untranslated memory.
    pub fn untranslated(rng: &mut Rng) -> Ground {
        let code = vec![rng.byte(), rng.byte()];
        let data = vec![rng.byte(), rng.byte(), rng.byte()];
        Ground { code, read: data.clone(), write: data, translated: false }
    }

    /// Where the page lies in memory.
    pub fn frame(&self, tlb: &[u32; 8], page: u8) -> usize {
        sample::frame(tlb, page, self.translated) as usize * 256
    }

    /// A page that can be both read and written, if there is one.
    pub fn both(&self, rng: &mut Rng) -> Option<u8> {
        let both: Vec<u8> = self.read.iter().copied().filter(|p| self.write.contains(p)).collect();
        (!both.is_empty()).then(|| rng.pick(&both))
    }
}

/// The ports that a program's IN and OUT take, in so many percent of its instructions.
#[derive(Clone, Copy, Debug)]
pub struct Ports {
    list: &'static [u16],
    percent: u64,
}

impl Ports {
    /// IN and OUT are not allowed.
    pub const NONE: Ports = Ports { list: &PORTS, percent: 0 };
    pub const ANY: Ports = Ports { list: &PORTS, percent: 5 };
    pub const TIMERS: Ports = Ports { list: &TIMER_PORTS, percent: 20 };
    /// The input and the output byte mostly.
    pub const BYTES: Ports = Ports { list: &[0x18, 0x18, 0x18, 0x18, 0x18, 0x18, 0x18, 0x02, 0x04, 0xA4], percent: 20 };

    pub fn allowed(self) -> bool {
        self.percent != 0
    }
}

/// What a program is made of.
#[derive(Clone, Copy, Debug)]
pub struct Style {
    /// Percent of nasty instructions.
    pub nasty: u64,
    pub ports: Ports,
    /// P=1: RETI and HALT are allowed.
    pub kernel: bool,
}

// Registers that a tame program keeps: G8 and G10 point to what can be read,
// G9 and G11 to what can be written, G8 and G9 at even addresses.
const READ_WORD: u16 = 8;
const WRITE_WORD: u16 = 9;
const READ_BYTE: u16 = 10;
const WRITE_BYTE: u16 = 11;
// Register 15, the address of the following instruction.
const PC: u16 = assemble::PC as u16;

/// Sets pointers, FP and SP for the ground.
pub fn set_pointers(rng: &mut Rng, machine: &mut Machine, ground: &Ground) {
    for n in 0..8 {
        machine.regs[n] = number(rng);
    }
    machine.regs[8] = sample::inside(rng, &ground.read) & 0xFFFE;
    machine.regs[9] = sample::inside(rng, &ground.write) & 0xFFFE;
    machine.regs[10] = sample::inside(rng, &ground.read);
    machine.regs[11] = sample::inside(rng, &ground.write);
    let both = ground.both(rng).map_or_else(Vec::new, |page| vec![page]);
    let middle = 0x40 + 2 * rng.below(64) as u16;
    machine.regs[12] = sample::inside(rng, &both) & 0xFF00 | middle;
    // At times the stack is where only writing, or only reading, is allowed.
    let stack = match rng.below(20) {
        0 => &ground.write,
        1 => &ground.read,
        _ => &both,
    };
    machine.usp = sample::inside(rng, stack) & 0xFF00 | (0x20 + 2 * rng.below(104) as u16);
}

/// Writes a program into every code page; gives the addresses where it may begin.
pub fn write(rng: &mut Rng, machine: &mut Machine, ground: &Ground, style: Style) -> Vec<u16> {
    let mut starts = Vec::new();
    let mut pages = Vec::new();
    for &page in &ground.code {
        let mut writer = Writer::new(rng, machine, ground, style, page);
        writer.page();
        let Writer { words, starts: more, targets, .. } = writer;
        starts.extend(more);
        pages.push((page, words, targets));
    }
    for (page, mut words, targets) in pages {
        for (at, from) in targets {
            words[at] = rng.pick(&starts).wrapping_sub(from);
        }
        let place = ground.frame(&machine.tlb, page);
        put_words(&mut machine.memory, place, &words);
    }
    starts
}

struct Writer<'a> {
    rng: &'a mut Rng,
    regs: [u16; 13],
    ground: &'a Ground,
    style: Style,
    base: u16,
    words: Vec<u16>,
    /// Addresses at which an instruction begins that jumps may take.
    starts: Vec<u16>,
    /// Words that become one of the starts, less what is added to each.
    targets: Vec<(usize, u16)>,
}

impl<'a> Writer<'a> {
    fn new(rng: &'a mut Rng, machine: &Machine, ground: &'a Ground, style: Style, page: u8) -> Self {
        let base = (page as u16) << 8;
        let (regs, words) = (machine.regs, Vec::with_capacity(128));
        Writer { rng, regs, ground, style, base, words, starts: Vec::new(), targets: Vec::new() }
    }

    /// A subroutine, a body, and a jump at the end: 128 words.
    fn page(&mut self) {
        self.alu();
        self.word(0xD0, 0, 0);
        while self.words.len() < 120 {
            self.starts.push(self.base + 2 * self.words.len() as u16);
            if self.rng.chance(self.style.nasty) {
                self.nasty();
            } else if self.rng.chance(self.style.ports.percent) {
                self.port();
            } else {
                self.tame();
            }
        }
        // At times the last jump has its second word in the next page.
        let last = if self.rng.chance(10) { 127 } else { 126 };
        while self.words.len() < last {
            self.word(0x00, 0, 0);
        }
        self.jump_if(15);
        self.words.truncate(128);
        self.targets.retain(|&(at, _)| at < 128);
    }

    fn word(&mut self, first: u8, rd: u16, rx: u16) {
        self.words.push((first as u16) << 8 | rd << 4 | rx);
    }

    /// The address behind so many more words.
    fn behind(&self, words: usize) -> u16 {
        self.base.wrapping_add(2 * (self.words.len() + words) as u16)
    }

    /// A word that becomes one of the starts, less what is added to it.
    fn target(&mut self, from: u16) {
        self.targets.push((self.words.len(), from));
        self.words.push(0);
    }

    /// An instruction in mode 1 that leads to an address, by a pointer or by PC.
    fn indexed(&mut self, first: u8, rd: u16, address: u16) {
        let rx = self.rng.pick(&[8, 9, 10, 11, 12, PC, PC]);
        let index = if rx == PC { self.behind(2) } else { self.regs[rx as usize] };
        self.word(first, rd, rx);
        self.words.push(address.wrapping_sub(index));
    }

    /// Can the word behind the next one be read, or written, by this list of pages?
    fn open(&self, pages: &[u8]) -> bool {
        !self.ground.translated || pages.contains(&((self.behind(1) >> 8) as u8))
    }

    /// Rx of a read in modes 6 and 7: this pointer, or PC.
    fn pointer(&mut self, register: u16) -> u16 {
        if self.open(&self.ground.read) && self.rng.chance(30) {
            PC
        } else {
            register
        }
    }

    fn data_register(&mut self) -> u16 {
        self.rng.below(8) as u16
    }

    fn tame(&mut self) {
        match self.rng.below(100) {
            0..=13 => {
                let rd = self.data_register();
                self.reading(0x08, rd);
            }
            14..=29 => self.store(),
            30..=63 => self.alu(),
            64..=79 => self.jump(),
            80..=82 => {
                self.word(0xA8, 0, 0);
                self.words.push(self.base);
            }
            83..=85 => self.indexed(0xA9, 0, self.base),
            86..=92 => {
                let (rd, to) = (self.rng.below(15) as u16, self.data_register());
                self.word(0xC0, rd, 0);
                self.word(0xC4, to, 0);
            }
            93..=94 => {
                let rd = self.data_register();
                self.word(0x14, rd, 0);
            }
            95 => self.word(0x00, 0, 0),
            96..=97 if self.open(&self.ground.write) => self.patch(),
            98 if self.style.kernel => self.reti(),
            _ => self.alu(),
        }
    }

    /// An instruction with a source operand in any mode.
    fn reading(&mut self, base: u8, rd: u16) {
        let mode = self.rng.below(8) as u8;
        let any = self.rng.below(16) as u16;
        match mode {
            0 => {
                self.word(base, rd, any);
                let address = self.read_address();
                self.words.push(address);
            }
            1 => {
                let address = self.read_address();
                self.indexed(base + 1, rd, address);
            }
            2 => {
                self.word(base + 2, rd, any);
                let immediate = number(self.rng);
                self.words.push(immediate);
            }
            3 | 5 => self.word(base + mode, rd, any),
            4 => {
                let rs = if self.rng.chance(15) { PC } else { any };
                self.word(base + 4, rd, rs);
            }
            6 => {
                let rx = self.pointer(READ_WORD);
                self.word(base + 6, rd, rx);
            }
            _ => {
                let rx = self.pointer(READ_BYTE);
                self.word(base + 7, rd, rx);
            }
        }
    }

    fn read_address(&mut self) -> u16 {
        sample::inside(self.rng, &self.ground.read) & 0xFFFE
    }

    fn write_address(&mut self) -> u16 {
        sample::inside(self.rng, &self.ground.write) & 0xFFFE
    }

    fn store(&mut self) {
        let rd = self.rng.below(15) as u16;
        match self.rng.below(6) {
            0 => {
                self.word(0x10, rd, 0);
                let address = self.write_address();
                self.words.push(address);
            }
            1 => {
                let address = self.write_address();
                self.indexed(0x11, rd, address);
            }
            2 => {
                let d4 = self.rng.below(16) as u16;
                self.word(0x13, rd, d4);
            }
            3 => self.word(0x16, rd, WRITE_WORD),
            _ => self.word(0x17, rd, WRITE_BYTE),
        }
    }

    fn alu(&mut self) {
        let base = self.rng.pick(&ALU);
        let rd = self.data_register();
        // DIV and MOD by a number that is not 0, mostly.
        if (base == 0x58 || base == 0x60) && self.rng.chance(97) {
            self.word(base + 2, rd, 0);
            let divisor = number(self.rng).max(1);
            self.words.push(divisor);
        } else {
            self.reading(base, rd);
        }
    }

    fn jump(&mut self) {
        let condition = loop {
            let condition = self.rng.below(16) as u16;
            if condition != 13 {
                break condition;
            }
        };
        self.jump_if(condition);
    }

    /// A jump to one of the starts, direct or by PC.
    fn jump_if(&mut self, condition: u16) {
        if self.rng.chance(25) {
            let following = self.behind(2);
            self.word(0xA1, condition, PC);
            self.target(following);
        } else {
            self.word(0xA0, condition, 0);
            self.target(0);
        }
    }

    /// A store by PC into the next instruction, in modes 6 and 7: a sum or the like before and after.
    fn patch(&mut self) {
        let (rd, result) = (self.data_register(), self.data_register());
        let [before, after] = [(); 2].map(|_| self.rng.pick(&[0x1D, 0x25, 0x3D, 0x45, 0x4C, 0x8D]));
        let short = self.rng.below(16) as u16;
        let word = (after as u16) << 8 | result << 4 | short;
        let byte = self.rng.chance(50);
        self.word(0x0A, rd, 0);
        self.words.push(if byte { after as u16 } else { word });
        self.word(if byte { 0x17 } else { 0x16 }, rd, PC);
        self.word(before, result, short);
    }

    fn port(&mut self) {
        let rd = self.data_register();
        let first = if self.rng.chance(50) { 0xB0 } else { 0xB8 };
        let port = self.rng.pick(self.style.ports.list);
        if first == 0xB8 && port < 8 {
            self.word(0x0A, rd, 0);
            let value = sample::timer_word(self.rng, port);
            self.words.push(value);
        }
        if self.rng.chance(20) {
            self.word(first + 6, rd, PC);
            return;
        }
        self.word(first, rd, 0);
        self.words.push(port);
    }

    /// Pushes a PC and a FLAG, then RETI, back to P=1 mostly.
    fn reti(&mut self) {
        self.word(0x0A, 0, 0);
        self.target(0);
        self.word(0xC0, 0, 0);
        self.word(0x0A, 1, 0);
        let privilege = if self.rng.chance(70) { 0x40 } else { 0 };
        let flag = self.rng.word() & !0x40 | privilege;
        self.words.push(flag);
        self.word(0xC0, 1, 0);
        self.word(0xD4, 15, 0);
    }

    /// Anything: any word, any fields, privileged, odd or unmapped addresses.
    fn nasty(&mut self) {
        let bytes = sample::valid_first_bytes();
        match self.rng.below(12) {
            0 => {
                let word = self.rng.word();
                self.words.push(word);
            }
            1..=4 => {
                let word = u16::from_be_bytes([self.rng.pick(&bytes), self.rng.byte()]);
                self.words.push(word);
                let second = if self.rng.chance(50) { edge(self.rng) } else { self.read_address() };
                self.words.push(second);
            }
            5 => {
                let word = self.rng.pick(&[0xF000, 0xFF00, 0xD4F0, 0xB000, 0xB806, 0xB612]);
                self.words.push(word);
            }
            6 => {
                let base = self.rng.pick(&[0x08, 0x10, 0x18, 0xA8, 0xA0]);
                self.word(base, 15 * (base >> 7) as u16, 0);
                let address = edge(self.rng);
                self.words.push(address);
            }
            7 => {
                // A pointer is moved.
                let rd = self.rng.between(8, 14) as u16;
                self.reading(0x18, rd);
            }
            8 => {
                let first = self.rng.pick(&[0xC0, 0xC4, 0xD0]);
                let rd = self.rng.below(16) as u16;
                self.word(first, rd, 0);
            }
            9 => {
                let (base, rd) = (self.rng.pick(&[0x58, 0x60]), self.data_register());
                self.reading(base, rd);
            }
            _ => self.attack(),
        }
    }

    /// Tries to read any frame: by a new TLB entry, without the MMU, or with P=1; or to set a timer.
    fn attack(&mut self) {
        let address = self.rng.word() & 0xFFFE;
        let frame = self.rng.byte() as u16;
        let entry = 4 * self.rng.below(8) as u16;
        let words = match self.rng.below(4) {
            0 => vec![0x0A00, address >> 8, 0xB800, 0x80 + entry, 0x0A00, 0x8700 | frame, 0xB800, 0x82 + entry],
            1 => vec![0x0D00, 0xB800, 0x00A2],
            2 => vec![0x0A00, self.rng.word(), 0xB800, self.rng.pick(&TIMER_PORTS)],
            _ => {
                let next = self.base.wrapping_add(2 * self.words.len() as u16 + 14);
                vec![0x0A00, next, 0xC000, 0x0A00, 0x0040, 0xC000, 0xD400]
            }
        };
        self.words.extend(words);
        self.words.extend([0x0800, address]);
    }
}
