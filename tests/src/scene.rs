//! Starts of runs made piece by piece: pages with TLB entries of their own, code and data by the program's addresses.

use crate::assemble::Operand::*;
use crate::assemble::*;
use crate::case::{Call, Case};
use crate::emulator::{Machine, C, DIRTY, E, I, LINES, P, REFERENCED, S, V, VALID, Z};
use crate::generate::handlers;
use crate::image;
use crate::report::REPORT;
use crate::rng::Rng;
use crate::sample::{self, number};

/// How a program runs.
#[derive(Clone, Copy, Debug, PartialEq, Eq)]
pub enum Way {
    /// P=1.
    Kernel,
    /// P=0 with the MMU on.
    User,
    /// P=0 with the MMU off.
    Bare,
}

impl Way {
    /// How this machine runs now.
    pub fn of(m: &Machine) -> Way {
        match (m.flag & P != 0, m.mmu_on) {
            (true, _) => Way::Kernel,
            (false, true) => Way::User,
            (false, false) => Way::Bare,
        }
    }
}

/// Where an address of the program lies in memory.
pub fn place(m: &Machine, address: u16) -> usize {
    let [page, offset] = address.to_be_bytes();
    let frame = sample::frame(&m.tlb, page, Way::of(m) == Way::User);
    u16::from_be_bytes([frame, offset]) as usize
}

/// The word at an even address of the program.
pub fn word_at(m: &Machine, address: u16) -> u16 {
    m.get(place(m, address))
}

/// Writes words at an address of the program, which may go on at 0000h.
pub fn write(m: &mut Machine, address: u16, words: &[u16]) {
    for (k, word) in words.iter().enumerate() {
        let place = place(m, address.wrapping_add(2 * k as u16));
        put_words(&mut m.memory, place, &[*word]);
    }
}

/// First bytes of LD and of ADD to SHRL without DIV and MOD, in mode 0.
const TAME: [u8; 13] = [0x08, 0x18, 0x20, 0x28, 0x30, 0x38, 0x40, 0x48, 0x50, 0x80, 0x88, 0x90, 0x98];

/// Instructions one behind the other from an address on.
pub struct Code {
    pub start: u16,
    pub words: Vec<u16>,
}

impl Code {
    pub fn at(start: u16) -> Code {
        Code { start, words: Vec::new() }
    }

    pub fn add(&mut self, instruction: Words) {
        self.words.extend(instruction);
    }

    /// The address of the next instruction.
    pub fn here(&self) -> u16 {
        self.start.wrapping_add(2 * self.words.len() as u16)
    }

    /// An operand of the next instruction that leads to an address by PC.
    pub fn by_pc(&self, address: u16) -> Operand {
        Indexed(address.wrapping_sub(self.here().wrapping_add(4)), PC)
    }

    /// Adds an instruction of two words; gives the place of the second, to be set later.
    pub fn add_open(&mut self, instruction: Words) -> usize {
        self.add(instruction);
        self.words.len() - 1
    }
}

/// A start being made. A program uses G0 to G5 as it likes, G7 counts turns, G6 and G8 to G11 are pointers and ports.
pub struct Scene<'a> {
    pub rng: &'a mut Rng,
    pub m: Machine,
    pub way: Way,
    /// Percent of the marks that a new entry has already.
    pub marks: u64,
    /// Percent of a card's runs that time passes before.
    pub time: u64,
    /// TLB entries that are not used yet.
    free: Vec<usize>,
    /// Pages and frames that are used.
    used: Vec<u8>,
}

impl<'a> Scene<'a> {
    pub fn new(rng: &'a mut Rng, way: Way) -> Scene<'a> {
        let mut m = Machine::new();
        m.flag = rng.word() & (V | C | S | Z) | rng.word() & I;
        m.flag |= if way == Way::Kernel { P } else { 0 };
        m.mmu_on = way == Way::User || way == Way::Kernel && rng.chance(50);
        if rng.chance(15) {
            m.flag |= E;
            m.pending = if rng.chance(10) { rng.word() & LINES } else { 0 };
        } else if rng.chance(30) {
            m.pending = rng.word() & LINES;
        }
        m.regs = std::array::from_fn(|_| number(rng));
        m.input = rng.byte();
        m.output = rng.byte();
        m.violation = rng.word();
        m.cause = rng.below(4) as u8;
        m.missed = rng.byte();
        m.timers = sample::timers(rng);
        let marks = rng.pick(&[0, 50, 100]);
        let mut scene = Scene { rng, m, way, marks, time: 5, free: (0..8).collect(), used: vec![0x00, 0xFF] };
        for k in (1..8).rev() {
            scene.free.swap(k, scene.rng.below(k as u64 + 1) as usize);
        }
        let [frame, kernel, user] = [(); 3].map(|_| scene.number());
        handlers(scene.rng, &mut scene.m, frame);
        scene.m.ssp = u16::from_be_bytes([kernel, if scene.rng.chance(2) { 0x81 } else { 0x80 }]);
        scene.m.usp = u16::from_be_bytes([user, 0x80]);
        scene
    }

    /// A page or frame that is not used yet, neither the first nor the last.
    pub fn number(&mut self) -> u8 {
        self.numbers(1)
    }

    /// The first of so many of them that follow each other.
    pub fn numbers(&mut self, count: u8) -> u8 {
        loop {
            let first = self.rng.between(1, 255 - count as u64) as u8;
            if (first..first + count).all(|n| !self.used.contains(&n)) {
                self.used.extend(first..first + count);
                return first;
            }
        }
    }

    /// A valid entry in a free place; gives its place. The marks are drawn.
    pub fn map(&mut self, page: u8, frame: u8, rights: u32) -> usize {
        let k = self.free.pop().expect("a scenario uses eight entries at most");
        self.m.tlb[k] = (page as u32) << 16 | VALID | rights | frame as u32;
        for mark in [REFERENCED, DIRTY] {
            if self.rng.chance(self.marks) {
                self.m.tlb[k] |= mark;
            }
        }
        k
    }

    /// A new page; gives its first address. Where nothing is translated it has an entry at times, which does not count.
    pub fn page(&mut self, rights: u32) -> u16 {
        let page = self.number();
        self.page_at(page, rights)
    }

    pub fn page_at(&mut self, page: u8, rights: u32) -> u16 {
        let frame = self.number();
        if self.way == Way::User || self.rng.chance(25) {
            self.map(page, frame, rights);
        }
        u16::from_be_bytes([page, 0])
    }

    /// A new page with random bytes.
    pub fn data(&mut self, rights: u32) -> u16 {
        let base = self.page(rights);
        let frame = (place(&self.m, base) >> 8) as u8;
        self.fill_frames(&[frame]);
        base
    }

    /// Random bytes in these frames.
    pub fn fill_frames(&mut self, frames: &[u8]) {
        for frame in frames {
            self.rng.fill(&mut self.m.memory[*frame as usize * 256..][..256]);
        }
    }

    /// Entries that serve nothing or other pages, in the places that are left.
    pub fn fill_tlb(&mut self) {
        while let Some(k) = self.free.pop() {
            let other = self.m.tlb[self.rng.below(8) as usize];
            let drawn = sample::tlb(self.rng)[0] & 0xFFFF;
            self.m.tlb[k] = match self.rng.below(3) {
                // An entry that is not valid, for a page that another one has.
                0 => other & 0xFF_0000 | drawn & !VALID,
                1 => 0,
                _ => (self.number() as u32) << 16 | drawn,
            };
        }
    }

    /// Writes a program into another frame than that of its page.
    pub fn put_in_frame(&mut self, frame: u8, code: &Code) {
        put_words(&mut self.m.memory, u16::from_be_bytes([frame, code.start as u8]) as usize, &code.words);
    }

    /// Writes a program; the run begins with it.
    pub fn begin_at(&mut self, code: &Code) {
        write(&mut self.m, code.start, &code.words);
        self.m.pc = code.start;
    }

    /// Code from somewhere in the first part of a page on.
    pub fn code_in(&mut self, base: u16) -> Code {
        Code::at(base + 2 * self.rng.below(12) as u16)
    }

    /// One of G0 to G5.
    pub fn register(&mut self) -> u8 {
        self.rng.below(6) as u8
    }

    pub fn short(&mut self) -> i8 {
        self.rng.below(16) as i8 - 8
    }

    /// One of G0 to G5 as a source, or PC.
    fn source(&mut self) -> Operand {
        Register(if self.rng.chance(15) { PC } else { self.register() })
    }

    /// One word: an instruction on G0 to G5 and PC that does not fault; one that does, or another word, now and then.
    pub fn one_word(&mut self) -> u16 {
        match self.rng.below(20) {
            0 => self.rng.pick(&[0xF000, 0xFF00, 0xD000, 0xC000, 0xC450, 0xB612, 0xBE12]),
            1 => self.rng.word(),
            2 => 0x0000,
            3 => ld_flag(self.register())[0],
            _ => {
                let source = if self.rng.chance(50) { self.source() } else { Short(self.short()) };
                moded(self.rng.pick(&TAME), self.register(), source)[0]
            }
        }
    }

    /// An instruction on G0 to G5 and PC alone that does not fault.
    pub fn tame(&mut self) -> Words {
        let rd = self.register();
        match self.rng.below(10) {
            0 => ld_flag(rd),
            1 => moded(self.rng.pick(&[0x58, 0x60]), rd, Value(number(self.rng).max(1))),
            2..=4 => moded(self.rng.pick(&TAME), rd, Value(number(self.rng))),
            5..=6 => moded(self.rng.pick(&TAME), rd, Short(self.short())),
            _ => moded(self.rng.pick(&TAME), rd, self.source()),
        }
    }

    /// Up to so many tame instructions.
    pub fn tame_up_to(&mut self, code: &mut Code, most: u64) {
        for _ in 0..self.rng.below(most + 1) {
            code.add(self.tame());
        }
    }

    /// The condition of a jump that is defined.
    pub fn condition(&mut self) -> u8 {
        self.rng.pick(&[0, 1, 2, 3, 4, 5, 6, 7, 8, 9, 10, 11, 12, 14, 15])
    }

    /// An offset in a page, often near its ends.
    pub fn offset(&mut self) -> u16 {
        if self.rng.chance(20) {
            self.rng.pick(&[0, 1, 2, 252, 253, 254, 255])
        } else {
            self.rng.byte() as u16
        }
    }

    /// An access to an address in a page, by any instruction and mode that has one; its pointer is set before it.
    pub fn access(&mut self, code: &mut Code, base: u16) {
        let address = base | self.offset();
        let even = address & if self.rng.chance(98) { 0xFFFE } else { 0xFFFF };
        let rd = self.register();
        let first = if self.rng.chance(45) { 0x10 } else { self.rng.pick(&TAME) };
        match self.rng.below(11) {
            0 => code.add(moded(first, rd, At(even))),
            1 => {
                let index = number(self.rng);
                code.add(ld(8, Value(index)));
                code.add(moded(first, rd, Indexed(even.wrapping_sub(index), 8)));
            }
            2 => code.add(moded(first, rd, code.by_pc(even))),
            3 => {
                let d4 = self.short();
                code.add(ld(12, Value(even.wrapping_sub((2 * d4) as u16))));
                code.add(moded(first, rd, Frame(d4)));
            }
            4..=5 => {
                code.add(ld(9, Value(even)));
                code.add(moded(first, rd, Pointer(9)));
            }
            6..=7 => {
                code.add(ld(10, Value(address)));
                code.add(moded(first, rd, Byte(10)));
            }
            _ => self.stack_access(code, even),
        }
    }

    /// The same by PUSH, POP or CALL.
    fn stack_access(&mut self, code: &mut Code, address: u16) {
        let rd = self.register();
        let instruction = self.rng.below(3);
        code.add(ld(13, Value(if instruction == 1 { address } else { address.wrapping_add(2) })));
        code.add(match instruction {
            0 => push(rd),
            1 => pop(rd),
            _ => call(At(code.here().wrapping_add(4))),
        });
    }

    /// OUT of a value, in one of its modes.
    pub fn out(&mut self, code: &mut Code, port: u16, value: u16) {
        code.add(ld(6, Value(value)));
        if self.rng.chance(50) {
            code.add(output(6, At(port)));
        } else {
            code.add(ld(11, Value(port)));
            code.add(output(6, Pointer(11)));
        }
    }

    /// Begins a loop of some turns; gives the address of its body.
    pub fn turns(&mut self, code: &mut Code) -> u16 {
        code.add(ld(7, Value(self.rng.between(2, 8) as u16)));
        code.here()
    }

    /// Ends it and what goes on behind it.
    pub fn end_turns(&mut self, code: &mut Code, top: u16) {
        code.add(sub(7, Short(1)));
        code.add(jump(NOT_ZERO, At(top)));
        let end = match self.rng.below(4) {
            0 => svc(),
            1 => halt(),
            _ => jump(ALWAYS, At(code.start)),
        };
        code.add(end);
    }

    fn allowance(&mut self) -> u16 {
        match self.rng.below(100) {
            0..=39 => self.rng.between(1, 40) as u16,
            40..=98 => self.rng.between(41, 250) as u16,
            _ => self.rng.pick(&[0, 5_000, 65_535]),
        }
    }

    /// One run, or a card of some with small changes between them: handlers let them go on after an entry.
    fn call(&mut self) -> Call {
        if self.rng.chance(60) {
            return Call::Run(self.allowance());
        }
        let mut card = Card::new();
        for _ in 0..self.rng.between(2, 8) {
            let entry = self.rng.below(8) as usize;
            let bits = self.m.tlb[entry];
            card = match self.rng.below(20) {
                0 => card.lines(self.rng.word() & LINES, self.rng.byte()),
                1 => card.entry(entry as u8, bits & !(REFERENCED | DIRTY)),
                2 => card.entry(entry as u8, bits ^ VALID),
                3 => card.mmu(self.rng.below(2) as u8),
                4 => card.pc(self.m.pc),
                _ => card,
            };
            if self.rng.chance(self.time) {
                card = card.time(sample::milliseconds(self.rng, &self.m.timers));
            }
            card = card.run(self.allowance().min(300));
        }
        Call::Card(card.bytes())
    }

    /// The case: this start, and a call on it.
    pub fn into_case(mut self, case: &mut Case) {
        self.fill_tlb();
        case.call = self.call();
        let runs = match &case.call {
            Call::Card(card) => card.len() / 3,
            _ => 1,
        };
        case.image = image::write(&self.m).to_vec();
        case.report = vec![0xEE; REPORT * runs];
        case.memory = self.m.memory;
    }
}
