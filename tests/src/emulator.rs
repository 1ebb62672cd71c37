//! The TaC machine: registers, MMU, ports, timers, faults, step and run.
//! Section names in the comments are those of document 01.

use crate::met;
use crate::timer::{Timer, INTERRUPT};

/// Bytes of memory.
pub const MEMORY: usize = 65_536;

// FLAG is 0000 0000 EPI0 VCSZ ("Registers and state image").
pub const E: u16 = 0x80;
pub const P: u16 = 0x40;
pub const I: u16 = 0x20;
pub const V: u16 = 0x08;
pub const C: u16 = 0x04;
pub const S: u16 = 0x02;
pub const Z: u16 = 0x01;
/// The FLAG bits that exist.
pub const FLAG_BITS: u16 = E | P | I | V | C | S | Z;
/// The interrupt lines 0-9.
pub const LINES: u16 = 0x03FF;

// A TLB entry of 24 bits ("MMU").
pub const VALID: u32 = 0x8000;
pub const ZEROS: u32 = 0x6000;
pub const REFERENCED: u32 = 0x1000;
pub const DIRTY: u32 = 0x0800;
pub const READ: u32 = 0x0400;
pub const WRITE: u32 = 0x0200;
pub const EXECUTE: u32 = 0x0100;

pub const RUNNING: u8 = 0;
pub const HALTED: u8 = 1;
pub const LOST: u8 = 2;

// Numbers of the faults ("Faults in order").
const MISS: u8 = 10;
const VIOLATION: u8 = 11;
const ZERO_DIVISOR: u8 = 12;
const PRIVILEGE: u8 = 13;
const UNDEFINED: u8 = 14;
const SVC: u8 = 15;

/// The whole machine. Registers 0-11 are G0-G11, 12 is FP.
#[derive(Clone, Debug, PartialEq, Eq)]
pub struct Machine {
    pub memory: Vec<u8>,
    pub regs: [u16; 13],
    pub ssp: u16,
    pub usp: u16,
    pub pc: u16,
    pub flag: u16,
    pub pending: u16,
    pub input: u8,
    pub output: u8,
    pub mmu_on: bool,
    pub condition: u8,
    pub violation: u16,
    pub cause: u8,
    pub missed: u8,
    pub tlb: [u32; 8],
    pub timers: [Timer; 2],
}

/// What one step did.
#[derive(Clone, Copy, Debug, PartialEq, Eq)]
pub enum Step {
    /// An instruction, with its state count.
    Done(u32),
    /// A kernel entry: the number, and the PC and FLAG that were saved.
    Entered { number: u8, pc: u16, flag: u16 },
    /// An entry on an odd SSP.
    Lost,
}

#[derive(Clone, Copy, Debug, PartialEq, Eq)]
pub enum Ending {
    Spent,
    Entered(u8),
    Halted,
    Lost,
}

/// What a run reports ("Bench card and its listing").
#[derive(Clone, Copy, Debug, PartialEq, Eq)]
pub struct Report {
    pub ending: Ending,
    pub steps: u16,
    pub states: u32,
    pub pc: u16,
    pub flag: u16,
}

/// The parts of a first word behind the instruction's five bits.
#[derive(Clone, Copy)]
struct Fields {
    mode: usize,
    rd: usize,
    rx: usize,
}

impl Fields {
    /// "As Rd, in PUSH and in POP it remains undefined" (document 02, request 4): register 15.
    fn used_rd(self) -> Result<(), u8> {
        if self.rd == 15 {
            return Err(UNDEFINED);
        }
        Ok(())
    }

    /// "D4 and the four-bit immediate are signed, -8 to 7."
    fn signed(self) -> u16 {
        if self.rx < 8 {
            self.rx as u16
        } else {
            (self.rx as u16).wrapping_sub(16)
        }
    }

    /// "Modes 0-2 have a second word."
    fn length(self) -> u16 {
        if self.mode <= 2 {
            4
        } else {
            2
        }
    }
}

impl Default for Machine {
    fn default() -> Self {
        Machine::new()
    }
}

/// Run and step.
impl Machine {
    /// Zero memory and a zero state.
    pub fn new() -> Machine {
        Machine {
            memory: vec![0; MEMORY],
            regs: [0; 13],
            ssp: 0,
            usp: 0,
            pc: 0,
            flag: 0,
            pending: 0,
            input: 0,
            output: 0,
            mmu_on: false,
            condition: RUNNING,
            violation: 0,
            cause: 0,
            missed: 0,
            tlb: [0; 8],
            timers: [Timer::default(); 2],
        }
    }

    /// "A run does at most its allowance of steps": before the first step and
    /// after each, halted or lost wins over entered, and entered over spent.
    pub fn run(&mut self, allowance: u16) -> Report {
        let mut steps = 0;
        let mut states = 0;
        let mut entered = None;
        loop {
            let (mut pc, mut flag) = (self.pc, self.flag);
            let ending = match (self.condition, entered) {
                (HALTED, _) => Some(Ending::Halted),
                (LOST, _) => Some(Ending::Lost),
                (_, Some((number, saved_pc, saved_flag))) => {
                    (pc, flag) = (saved_pc, saved_flag);
                    Some(Ending::Entered(number))
                }
                (_, None) if steps == allowance => Some(Ending::Spent),
                _ => None,
            };
            if let Some(ending) = ending {
                return Report { ending, steps, states, pc, flag };
            }
            steps += 1;
            match self.step() {
                Step::Done(cost) => states += cost,
                Step::Entered { number, pc, flag } => {
                    states += 12;
                    entered = Some((number, pc, flag));
                }
                Step::Lost => {}
            }
        }
    }

    /// "Interrupt first", else the instruction at PC.
    pub fn step(&mut self) -> Step {
        if self.flag & E != 0 && self.pending != 0 {
            let line = self.pending.trailing_zeros() as u8;
            let step = self.enter(line, self.pc);
            if step != Step::Lost {
                self.pending &= !(1 << line);
            }
            return step;
        }
        match self.instruction() {
            Ok(states) => Step::Done(states),
            // The saved PC is the following one for SVC, else the instruction's own.
            Err(SVC) => self.enter(SVC, self.pc.wrapping_add(2)),
            Err(number) => self.enter(number, self.pc),
        }
    }

    /// "Entry copies FLAG, sets E=0 and P=1, pushes PC and the copy on SSP,
    /// loads PC"; on an odd SSP the machine is lost instead.
    fn enter(&mut self, number: u8, pc: u16) -> Step {
        if self.ssp % 2 == 1 {
            self.condition = LOST;
            return Step::Lost;
        }
        let flag = self.flag;
        self.flag = flag & !E | P;
        self.put(self.ssp.wrapping_sub(2) as usize, pc);
        self.put(self.ssp.wrapping_sub(4) as usize, flag);
        self.ssp = self.ssp.wrapping_sub(4);
        self.pc = self.get(0xFFE0 + 2 * number as usize);
        Step::Entered { number, pc, flag }
    }
}

/// Memory and MMU.
impl Machine {
    /// "The even byte of a word is its upper half." The address is even.
    pub fn get(&self, place: usize) -> u16 {
        u16::from_be_bytes([self.memory[place], self.memory[place + 1]])
    }

    fn put(&mut self, place: usize, value: u16) {
        self.memory[place..place + 2].copy_from_slice(&value.to_be_bytes());
    }

    /// Grants or refuses an access: "tested for an odd word address, then no
    /// entry, then right". Gives the place in memory.
    fn access(&mut self, address: u16, right: u32, word: bool) -> Result<usize, u8> {
        if word && address % 2 == 1 {
            self.violation = address;
            self.cause |= 2;
            return Err(VIOLATION);
        }
        if !self.mmu_on || self.flag & P != 0 {
            return Ok(address as usize);
        }
        let page = (address >> 8) as u8;
        let serves = |e: &&mut u32| **e & VALID != 0 && **e >> 16 == page as u32;
        // "The lowest-numbered valid entry with the page serves (H)."
        let Some(entry) = self.tlb.iter_mut().find(serves) else {
            self.missed = page;
            return Err(MISS);
        };
        if *entry & right == 0 {
            self.violation = address;
            self.cause |= 1;
            return Err(VIOLATION);
        }
        // "Each granted access sets its R-bit, each granted write also D."
        *entry |= REFERENCED;
        if right == WRITE {
            *entry |= DIRTY;
        }
        Ok(((*entry & 0xFF) << 8) as usize + (address & 0xFF) as usize)
    }

    fn load_word(&mut self, address: u16, right: u32) -> Result<u16, u8> {
        let place = self.access(address, right, true)?;
        Ok(self.get(place))
    }

    /// "A byte read is extended by zeros."
    fn load_byte(&mut self, address: u16) -> Result<u16, u8> {
        let place = self.access(address, READ, false)?;
        Ok(self.memory[place] as u16)
    }

    fn store_word(&mut self, address: u16, value: u16) -> Result<(), u8> {
        let place = self.access(address, WRITE, true)?;
        self.put(place, value);
        Ok(())
    }

    /// "A byte store writes the lower half."
    fn store_byte(&mut self, address: u16, value: u16) -> Result<(), u8> {
        let place = self.access(address, WRITE, false)?;
        self.memory[place] = value as u8;
        Ok(())
    }
}

/// Registers, operands and the stack.
impl Machine {
    /// Registers 0 to 14: "13 SP (SSP if P=1, USP if P=0), 14 USP."
    pub fn reg(&self, number: usize) -> u16 {
        match number {
            0..=12 => self.regs[number],
            13 if self.flag & P != 0 => self.ssp,
            13 | 14 => self.usp,
            _ => unreachable!("15 is refused as Rd, and found by `last`"),
        }
    }

    /// The register that the last field names. "Register 15 as Rs or Rx now gives the address of the following
    /// instruction, counting the second word" (document 02, request 4).
    fn last(&self, f: Fields) -> u16 {
        match f.rx {
            15 => self.pc.wrapping_add(f.length()),
            number => self.reg(number),
        }
    }

    fn set_reg(&mut self, number: usize, value: u16) {
        match number {
            0..=12 => self.regs[number] = value,
            13 if self.flag & P != 0 => self.ssp = value,
            13 | 14 => self.usp = value,
            _ => unreachable!("Rd of 15 is refused before"),
        }
    }

    fn second_word(&mut self) -> Result<u16, u8> {
        self.load_word(self.pc.wrapping_add(2), EXECUTE)
    }

    /// The address that modes 0, 1, 3, 6 and 7 name ("Instruction words").
    fn address(&mut self, f: Fields) -> Result<u16, u8> {
        match f.mode {
            0 => self.second_word(),
            1 => Ok(self.second_word()?.wrapping_add(self.last(f))),
            3 => Ok(self.regs[12].wrapping_add(f.signed().wrapping_mul(2))),
            6 | 7 => Ok(self.last(f)),
            _ => unreachable!("modes 2, 4 and 5 name no address"),
        }
    }

    /// The value of the source operand in any of the eight modes.
    fn source(&mut self, f: Fields) -> Result<u16, u8> {
        match f.mode {
            2 => self.second_word(),
            4 => Ok(self.last(f)),
            5 => Ok(f.signed()),
            7 => {
                let address = self.address(f)?;
                self.load_byte(address)
            }
            _ => {
                let address = self.address(f)?;
                self.load_word(address, READ)
            }
        }
    }

    fn next(&mut self, length: u16) {
        self.pc = self.pc.wrapping_add(length);
    }

    /// "PUSH and CALL lower SP by 2 and store."
    fn push_word(&mut self, value: u16) -> Result<(), u8> {
        let sp = self.reg(13).wrapping_sub(2);
        self.store_word(sp, value)?;
        self.set_reg(13, sp);
        Ok(())
    }

    /// "POP, RET and RETI read and raise it."
    fn pop_word(&mut self) -> Result<u16, u8> {
        let sp = self.reg(13);
        let value = self.load_word(sp, READ)?;
        self.set_reg(13, sp.wrapping_add(2));
        Ok(value)
    }
}

/// Instructions. Each gives its state count, or the number of its fault.
impl Machine {
    fn instruction(&mut self) -> Result<u32, u8> {
        let word = self.load_word(self.pc, EXECUTE)?;
        let mode = (word >> 8 & 7) as usize;
        let f = Fields { mode, rd: (word >> 4 & 15) as usize, rx: (word & 15) as usize };
        match word >> 11 {
            0b00000 => match mode {
                0 => Ok(self.no()),
                _ => Err(UNDEFINED),
            },
            0b00001 => self.ld(f),
            0b00010 => match mode {
                0 | 1 | 3 | 6 | 7 => self.st(f),
                4 => self.ld_flag(f),
                _ => Err(UNDEFINED),
            },
            operation @ (0b00011..=0b01100 | 0b10000..=0b10011) => self.calculate(operation, f),
            0b10100 if mode < 2 => self.jump(f),
            0b10101 if mode < 2 => self.call(f),
            0b10110 if mode == 0 || mode == 6 => self.input(f),
            0b10111 if mode == 0 || mode == 6 => self.output(f),
            0b11000 => match mode {
                0 => self.push(f),
                4 => self.pop(f),
                _ => Err(UNDEFINED),
            },
            0b11010 => match mode {
                0 => self.ret(),
                4 => self.reti(),
                _ => Err(UNDEFINED),
            },
            0b11110 if mode == 0 => Err(SVC),
            0b11111 if mode == 7 => self.halt(),
            _ => Err(UNDEFINED),
        }
    }

    fn no(&mut self) -> u32 {
        self.next(2);
        3
    }

    fn ld(&mut self, f: Fields) -> Result<u32, u8> {
        f.used_rd()?;
        let value = self.source(f)?;
        self.set_reg(f.rd, value);
        self.next(f.length());
        Ok([7, 7, 5, 7, 4, 4, 6, 6][f.mode])
    }

    fn st(&mut self, f: Fields) -> Result<u32, u8> {
        f.used_rd()?;
        let value = self.reg(f.rd);
        let address = self.address(f)?;
        if f.mode == 7 {
            self.store_byte(address, value)?;
        } else {
            self.store_word(address, value)?;
        }
        self.next(f.length());
        Ok(if f.mode < 6 { 6 } else { 5 })
    }

    fn ld_flag(&mut self, f: Fields) -> Result<u32, u8> {
        f.used_rd()?;
        self.set_reg(f.rd, self.flag);
        self.next(2);
        Ok(4)
    }

    /// ADD to SHRL ("Results and flags").
    fn calculate(&mut self, operation: u16, f: Fields) -> Result<u32, u8> {
        f.used_rd()?;
        let b = self.source(f)?;
        let a = self.reg(f.rd);
        let (result, vc) = match operation {
            0b00011 => sum(a, b),
            0b00100 | 0b00101 => difference(a, b),
            0b00110 => (a & b, 0),
            0b00111 => (a | b, 0),
            0b01000 => (a ^ b, 0),
            // ADDS: V=0, C=0 (H).
            0b01001 => (a.wrapping_add(b.wrapping_mul(2)), 0),
            0b01010 => (a.wrapping_mul(b), 0),
            0b01011 => (a.checked_div(b).ok_or(ZERO_DIVISOR)?, 0),
            0b01100 => (a.checked_rem(b).ok_or(ZERO_DIVISOR)?, 0),
            _ => shift(operation, a, b % 16),
        };
        let s = if result & 0x8000 != 0 { S } else { 0 };
        let z = if result == 0 { Z } else { 0 };
        self.flag = self.flag & (E | P | I) | vc | s | z;
        // CMP keeps Rd.
        if operation != 0b00101 {
            self.set_reg(f.rd, result);
        }
        self.next(f.length());
        Ok(match operation {
            0b00011..=0b01000 => [7, 7, 5, 7, 5, 4, 6, 6][f.mode],
            0b01001 => [8, 8, 6, 8, 6, 5, 7, 7][f.mode],
            0b01010 => [57, 57, 55, 57, 55, 54, 56, 56][f.mode],
            0b01011 | 0b01100 => [73, 73, 71, 73, 71, 70, 72, 72][f.mode],
            _ => [8, 8, 6, 8, 6, 5, 7, 7][f.mode] + (b % 16) as u32,
        })
    }

    /// The second word is fetched whether or not the jump is taken.
    fn jump(&mut self, f: Fields) -> Result<u32, u8> {
        if f.rd == 13 {
            return Err(UNDEFINED);
        }
        let target = self.address(f)?;
        if condition(f.rd, self.flag) {
            self.pc = target;
            Ok(5)
        } else {
            self.next(4);
            Ok(4)
        }
    }

    fn call(&mut self, f: Fields) -> Result<u32, u8> {
        let target = self.address(f)?;
        self.push_word(self.pc.wrapping_add(4))?;
        self.pc = target;
        Ok(6)
    }

    fn push(&mut self, f: Fields) -> Result<u32, u8> {
        f.used_rd()?;
        self.push_word(self.reg(f.rd))?;
        self.next(2);
        Ok(5)
    }

    fn pop(&mut self, f: Fields) -> Result<u32, u8> {
        f.used_rd()?;
        let value = self.pop_word()?;
        self.set_reg(f.rd, value);
        self.next(2);
        Ok(6)
    }

    fn ret(&mut self) -> Result<u32, u8> {
        self.pc = self.pop_word()?;
        Ok(6)
    }

    /// FLAG, then PC, both from SSP, which rises by 4.
    fn reti(&mut self) -> Result<u32, u8> {
        self.need(P)?;
        let flag = self.pop_word()?;
        self.pc = self.pop_word()?;
        self.flag = flag & FLAG_BITS;
        Ok(9)
    }

    fn halt(&mut self) -> Result<u32, u8> {
        self.need(P)?;
        self.condition = HALTED;
        self.next(2);
        Ok(5)
    }

    /// "RETI and HALT need P=1; IN and OUT need P=1 or I=1 (H)."
    fn need(&self, bits: u16) -> Result<(), u8> {
        if self.flag & bits == 0 {
            return Err(PRIVILEGE);
        }
        Ok(())
    }

    fn input(&mut self, f: Fields) -> Result<u32, u8> {
        f.used_rd()?;
        self.need(P | I)?;
        let port = self.address(f)?;
        let value = self.port_in(port);
        self.set_reg(f.rd, value);
        self.next(f.length());
        Ok(if f.mode == 0 { 7 } else { 6 })
    }

    fn output(&mut self, f: Fields) -> Result<u32, u8> {
        f.used_rd()?;
        self.need(P | I)?;
        let port = self.address(f)?;
        self.port_out(port, self.reg(f.rd));
        self.next(f.length());
        Ok(if f.mode == 0 { 6 } else { 5 })
    }
}

/// Ports ("MMU"). A port is the whole 16-bit address.
impl Machine {
    fn port_in(&mut self, port: u16) -> u16 {
        match port {
            0x00..=0x07 => self.timer_in(port),
            0x18 => self.input as u16,
            0x80..=0x9F if port.is_multiple_of(4) => (self.tlb[entry(port)] >> 16) as u16,
            0x80..=0x9F if port % 4 == 2 => self.tlb[entry(port)] as u16,
            0xA2 => self.violation,
            // "A4h: IN gives the cause and clears it."
            0xA4 => std::mem::take(&mut self.cause) as u16,
            0xA6 => self.missed as u16,
            _ => 0,
        }
    }

    fn port_out(&mut self, port: u16, value: u16) {
        match port {
            0x00..=0x07 => self.timer_out(port, value),
            0x18 => self.output = value as u8,
            0x80..=0x9F if port.is_multiple_of(4) => {
                let page = (value as u32 & 0xFF) << 16;
                self.tlb[entry(port)] = self.tlb[entry(port)] & 0xFFFF | page;
            }
            0x80..=0x9F if port % 4 == 2 => {
                let low = value as u32 & !ZEROS;
                self.tlb[entry(port)] = self.tlb[entry(port)] & 0xFF_0000 | low;
            }
            0xA2 => self.mmu_on = value % 2 == 1,
            _ => {}
        }
    }
}

/// The timers (document 02, request 2): Timer0 has the ports 00h and 02h, Timer1 04h and 06h.
impl Machine {
    fn timer_in(&mut self, port: u16) -> u16 {
        let timer = &mut self.timers[port as usize / 4];
        met::read(port, timer);
        match port % 4 {
            0 => timer.count,
            2 => timer.take_fired(),
            _ => 0,
        }
    }

    fn timer_out(&mut self, port: u16, value: u16) {
        let timer = &mut self.timers[port as usize / 4];
        met::written(port, timer, value);
        match port % 4 {
            0 => timer.set_period(value),
            2 => timer.set_control(value),
            _ => {}
        }
    }

    /// Milliseconds, one after the other, in any condition of the machine: "line 0 or 1 is raised if bit 15 is set", at
    /// each firing.
    pub fn pass(&mut self, milliseconds: u16) {
        let (timers, pending) = (self.timers, self.pending);
        let mut firings = [0; 2];
        for _ in 0..milliseconds {
            for (number, timer) in self.timers.iter_mut().enumerate() {
                if timer.millisecond() {
                    firings[number] += 1;
                    if timer.control & INTERRUPT != 0 {
                        self.pending |= 1 << number;
                    }
                }
            }
        }
        for (number, timer) in timers.iter().enumerate() {
            met::passed(number, timer, pending, self.condition, firings[number]);
        }
    }
}

/// The fault record: cause, missed page and violation address.
impl Machine {
    /// "The same record has a reader that consumes and a reader that doesn't" (document 02, request 1): IN of A4h clears
    /// the cause, this leaves it. The number is cause × 2^24 + missed page × 2^16 + violation address.
    pub fn look(&self) -> u32 {
        let [high, low] = self.violation.to_be_bytes();
        u32::from_be_bytes([self.cause, self.missed, high, low])
    }
}

fn entry(port: u16) -> usize {
    (port as usize - 0x80) / 4
}

/// C is the carry, V signed overflow.
fn sum(a: u16, b: u16) -> (u16, u16) {
    let (result, carry) = a.overflowing_add(b);
    let (_, overflow) = (a as i16).overflowing_add(b as i16);
    (result, flags(overflow, carry))
}

/// C is the borrow, V signed overflow.
fn difference(a: u16, b: u16) -> (u16, u16) {
    let (result, borrow) = a.overflowing_sub(b);
    let (_, overflow) = (a as i16).overflowing_sub(b as i16);
    (result, flags(overflow, borrow))
}

/// V=0; C is the old top bit to the left, the old bottom bit to the right,
/// "also for a shift by 0".
fn shift(operation: u16, a: u16, n: u16) -> (u16, u16) {
    let top = flags(false, a & 0x8000 != 0);
    let bottom = flags(false, a & 1 != 0);
    match operation {
        0b10010 => (((a as i16) >> n) as u16, bottom),
        0b10011 => (a >> n, bottom),
        _ => (a << n, top),
    }
}

fn flags(v: bool, c: bool) -> u16 {
    (if v { V } else { 0 }) | (if c { C } else { 0 })
}

/// "Jump conditions by Rd."
fn condition(number: usize, flag: u16) -> bool {
    let [v, c, s, z] = [V, C, S, Z].map(|bit| flag & bit != 0);
    match number {
        0 => z,
        1 => c,
        2 => s,
        3 => v,
        4 => !(z || s != v),
        5 => s == v,
        6 => z || s != v,
        7 => s != v,
        8 => !z,
        9 => !c,
        10 => !s,
        11 => !v,
        12 => !(z || c),
        14 => z || c,
        _ => true,
    }
}
