//! The state image of 84 bytes, upper byte first, and refusals 1 to 3.

use crate::emulator::{Machine, FLAG_BITS, LINES, MEMORY, ZEROS};
use crate::timer::{Timer, CONTROL_BITS};

/// Bytes of an image.
pub const IMAGE: usize = 84;

// Offsets of the image's fields ("Registers and state image"): 13 words G0-G11 and FP, then the others.
pub const REGS: usize = 0;
pub const SSP: usize = 26;
pub const USP: usize = 28;
pub const PC: usize = 30;
pub const FLAG: usize = 32;
pub const PENDING: usize = 34;
pub const INPUT: usize = 36;
pub const OUTPUT: usize = 37;
pub const MMU: usize = 38;
pub const CONDITION: usize = 39;
pub const VIOLATION: usize = 40;
pub const CAUSE: usize = 42;
pub const MISSED: usize = 43;
pub const TLB: usize = 44;
/// "Four words per timer at the end" (document 02, request 2).
pub const TIMERS: usize = 68;

// Offsets in a timer.
pub const COUNT: usize = 0;
pub const PERIOD: usize = 2;
pub const CONTROL: usize = 4;
pub const FIRED: usize = 6;
/// Bytes of a timer.
pub const TIMER: usize = 8;

/// A refusal: its number and P.
#[derive(Clone, Copy, Debug, PartialEq, Eq)]
pub struct Refusal {
    pub number: u8,
    pub position: u32,
}

impl Refusal {
    /// Refusals whose P is 0.
    pub fn plain(number: u8) -> Refusal {
        Refusal { number, position: 0 }
    }

    /// The answer of a call: refusal × 2^32 + P.
    pub fn answer(self) -> u64 {
        ((self.number as u64) << 32) | self.position as u64
    }
}

fn word(bytes: &[u8], at: usize) -> u16 {
    u16::from_be_bytes([bytes[at], bytes[at + 1]])
}

fn entry(bytes: &[u8], k: usize) -> u32 {
    let at = TLB + 3 * k;
    u32::from_be_bytes([0, bytes[at], bytes[at + 1], bytes[at + 2]])
}

/// Count, period, control and fired of timer `n`.
fn timer_words(bytes: &[u8], n: usize) -> [u16; 4] {
    [COUNT, PERIOD, CONTROL, FIRED].map(|offset| word(bytes, TIMERS + TIMER * n + offset))
}

/// "Refusal 3 covers control, fired, a count not below a non-zero period, and a non-zero count with period 0."
fn good_timer([count, period, control, fired]: [u16; 4]) -> bool {
    control & !CONTROL_BITS == 0 && fired <= 1 && if period == 0 { count == 0 } else { count < period }
}

/// Refusals 1, 2 and 3, in this order.
pub fn test(memory: &[u8], image: &[u8]) -> Result<(), Refusal> {
    if memory.len() != MEMORY {
        return Err(Refusal::plain(1));
    }
    test_image(image)
}

/// Refusals 2 and 3, for a call without memory.
pub fn test_image(image: &[u8]) -> Result<(), Refusal> {
    if image.len() != IMAGE {
        return Err(Refusal::plain(2));
    }
    let good = word(image, FLAG) & !FLAG_BITS == 0
        && word(image, PENDING) & !LINES == 0
        && image[MMU] <= 1
        && image[CONDITION] <= 2
        && image[CAUSE] <= 3
        && (0..8).all(|k| entry(image, k) & ZEROS == 0)
        && (0..2).all(|n| good_timer(timer_words(image, n)));
    if !good {
        return Err(Refusal::plain(3));
    }
    Ok(())
}

/// The machine that a good image shows, over this memory.
pub fn read(memory: Vec<u8>, image: &[u8]) -> Machine {
    Machine {
        memory,
        regs: std::array::from_fn(|n| word(image, REGS + 2 * n)),
        ssp: word(image, SSP),
        usp: word(image, USP),
        pc: word(image, PC),
        flag: word(image, FLAG),
        pending: word(image, PENDING),
        input: image[INPUT],
        output: image[OUTPUT],
        mmu_on: image[MMU] == 1,
        condition: image[CONDITION],
        violation: word(image, VIOLATION),
        cause: image[CAUSE],
        missed: image[MISSED],
        tlb: std::array::from_fn(|k| entry(image, k)),
        timers: std::array::from_fn(|n| {
            let [count, period, control, fired] = timer_words(image, n);
            Timer { count, period, control, fired: fired == 1 }
        }),
    }
}

/// The image of a machine.
pub fn write(machine: &Machine) -> [u8; IMAGE] {
    let mut image = [0; IMAGE];
    let mut put = |at: usize, value: u16| image[at..at + 2].copy_from_slice(&value.to_be_bytes());
    for (n, &value) in machine.regs.iter().enumerate() {
        put(REGS + 2 * n, value);
    }
    put(SSP, machine.ssp);
    put(USP, machine.usp);
    put(PC, machine.pc);
    put(FLAG, machine.flag);
    put(PENDING, machine.pending);
    put(VIOLATION, machine.violation);
    for (n, timer) in machine.timers.iter().enumerate() {
        let at = TIMERS + TIMER * n;
        put(at + COUNT, timer.count);
        put(at + PERIOD, timer.period);
        put(at + CONTROL, timer.control);
        put(at + FIRED, timer.fired as u16);
    }
    image[INPUT] = machine.input;
    image[OUTPUT] = machine.output;
    image[MMU] = machine.mmu_on as u8;
    image[CONDITION] = machine.condition;
    image[CAUSE] = machine.cause;
    image[MISSED] = machine.missed;
    for (k, entry) in machine.tlb.iter().enumerate() {
        image[TLB + 3 * k..TLB + 3 * k + 3].copy_from_slice(&entry.to_be_bytes()[1..]);
    }
    image
}
