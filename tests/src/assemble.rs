//! Bench cards and instruction words, written so that they can be read.

/// A bench card being made. Operands are not tested, so bad cards can be made too.
#[derive(Clone, Debug, Default)]
pub struct Card {
    bytes: Vec<u8>,
}

impl Card {
    pub fn new() -> Card {
        Card::default()
    }

    pub fn bytes(self) -> Vec<u8> {
        self.bytes
    }

    /// Bytes as they are.
    pub fn raw(mut self, bytes: &[u8]) -> Card {
        self.bytes.extend_from_slice(bytes);
        self
    }

    /// All commands of another card.
    pub fn then(self, other: Card) -> Card {
        self.raw(&other.bytes)
    }

    /// 01: a byte of memory.
    pub fn byte(self, address: u16, value: u8) -> Card {
        let [a, b] = address.to_be_bytes();
        self.raw(&[0x01, a, b, value])
    }

    /// 01 for each byte of these instructions, one behind the other.
    pub fn code(self, address: u16, code: &[Words]) -> Card {
        let bytes = code.concat().into_iter().flat_map(u16::to_be_bytes);
        bytes.enumerate().fold(self, |card, (k, byte)| card.byte(address.wrapping_add(k as u16), byte))
    }

    /// 02: a register; 13 is SSP.
    pub fn register(self, number: u8, value: u16) -> Card {
        let [a, b] = value.to_be_bytes();
        self.raw(&[0x02, number, a, b])
    }

    /// 02 for number 15.
    pub fn pc(self, value: u16) -> Card {
        self.register(15, value)
    }

    /// 02 for number 13.
    pub fn ssp(self, value: u16) -> Card {
        self.register(13, value)
    }

    /// 03: lines added to pending, and the input byte.
    pub fn lines(self, lines: u16, input: u8) -> Card {
        let [a, b] = lines.to_be_bytes();
        self.raw(&[0x03, a, b, input])
    }

    /// 04: a run.
    pub fn run(self, allowance: u16) -> Card {
        let [a, b] = allowance.to_be_bytes();
        self.raw(&[0x04, a, b])
    }

    /// 05: a TLB entry.
    pub fn entry(self, number: u8, bits: u32) -> Card {
        let [_, a, b, c] = bits.to_be_bytes();
        self.raw(&[0x05, number, a, b, c])
    }

    /// 06: the MMU, off or on.
    pub fn mmu(self, on: u8) -> Card {
        self.raw(&[0x06, on])
    }

    /// 07: FLAG.
    pub fn flag(self, value: u16) -> Card {
        let [a, b] = value.to_be_bytes();
        self.raw(&[0x07, a, b])
    }

    /// 08: milliseconds.
    pub fn time(self, milliseconds: u16) -> Card {
        let [a, b] = milliseconds.to_be_bytes();
        self.raw(&[0x08, a, b])
    }
}

/// The one or two words of an instruction.
pub type Words = Vec<u16>;

/// An operand in one of the eight modes.
#[derive(Clone, Copy, Debug)]
pub enum Operand {
    /// [Dsp]
    At(u16),
    /// [Dsp + Rx]
    Indexed(u16, u8),
    /// A second word as the value.
    Value(u16),
    /// [FP + 2 × D4]
    Frame(i8),
    /// Rx
    Register(u8),
    /// Four bits as the value, -8 to 7.
    Short(i8),
    /// [Rx]
    Pointer(u8),
    /// The byte at [Rx].
    Byte(u8),
}

use Operand::*;

/// An instruction with Rd and an operand, by its first byte in mode 0.
pub fn moded(base: u8, rd: u8, operand: Operand) -> Words {
    let (mode, last, second) = match operand {
        At(address) => (0, 0, Some(address)),
        Indexed(address, rx) => (1, rx, Some(address)),
        Value(value) => (2, 0, Some(value)),
        Frame(d4) => (3, d4 as u8 & 15, None),
        Register(rx) => (4, rx, None),
        Short(value) => (5, value as u8 & 15, None),
        Pointer(rx) => (6, rx, None),
        Byte(rx) => (7, rx, None),
    };
    let first = u16::from_be_bytes([base + mode, rd << 4 | last]);
    [first].into_iter().chain(second).collect()
}

fn single(first: u8, rd: u8) -> Words {
    vec![u16::from_be_bytes([first, rd << 4])]
}

/// A constructor for each instruction: its name and its first byte, that in mode 0 where there is an operand.
macro_rules! constructors {
    ($(operand $moded:ident $base:literal)* $(register $single:ident $first:literal)* $(alone $bare:ident $only:literal)*) => {
        $(pub fn $moded(rd: u8, operand: Operand) -> Words { moded($base, rd, operand) })*
        $(pub fn $single(rd: u8) -> Words { single($first, rd) })*
        $(pub fn $bare() -> Words { single($only, 0) })*
    };
}

constructors! {
    operand ld 0x08
    operand st 0x10
    operand add 0x18
    operand sub 0x20
    operand cmp 0x28
    operand xor 0x40
    operand adds 0x48
    operand mul 0x50
    operand div 0x58
    operand rem 0x60
    operand shla 0x80
    operand shra 0x90
    operand shrl 0x98
    operand jump 0xA0
    operand input 0xB0
    operand output 0xB8
    register ld_flag 0x14
    register push 0xC0
    register pop 0xC4
    alone no 0x00
    alone ret 0xD0
    alone reti 0xD4
    alone svc 0xF0
    alone halt 0xFF
}

/// Register 15.
pub const PC: u8 = 15;

// Jump conditions, which stand in the place of Rd.
pub const ZERO: u8 = 0;
pub const CARRY: u8 = 1;
pub const SIGN: u8 = 2;
pub const OVERFLOW: u8 = 3;
pub const NOT_ZERO: u8 = 8;
pub const ALWAYS: u8 = 15;

pub fn call(target: Operand) -> Words {
    moded(0xA8, 0, target)
}

/// A jump to the address in a register: PC, which a listing shows, becomes its value.
pub fn show(register: u8) -> Words {
    jump(ALWAYS, Indexed(0, register))
}

/// A word as it is: an undefined instruction, or data.
pub fn word(value: u16) -> Words {
    vec![value]
}

/// Writes words into memory, one behind the other.
pub fn put_words(memory: &mut [u8], place: usize, words: &[u16]) {
    for (k, word) in words.iter().enumerate() {
        memory[place + 2 * k..place + 2 * k + 2].copy_from_slice(&word.to_be_bytes());
    }
}
