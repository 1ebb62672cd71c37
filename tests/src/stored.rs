//! The stored cards: what the program `stored` reads and what it has to print.
//!
//! Its input is one case after the other. A case is, upper bytes first: how many bytes the memory lacks (2) and the
//! image lacks (1), FLAG (2), the report's length (2), the card's length (2), the card. Memory is zero, and so is the
//! image but for FLAG. Its output is the listing of each answer and report.

use crate::assemble::Operand::*;
use crate::assemble::*;
use crate::card::{self, LONGEST};
use crate::emulator::{C, E, I, MEMORY, P, S, V, Z};
use crate::image::{self, IMAGE};
use crate::report::REPORT;
use crate::sample::ALU;
use std::slice::from_ref;

/// A call on a card.
#[derive(Clone, Debug)]
pub struct Stored {
    pub name: String,
    pub memory_lacks: u16,
    pub image_lacks: u8,
    pub flag: u16,
    pub report: u16,
    pub card: Vec<u8>,
}

impl Stored {
    /// The case in the program's input.
    pub fn bytes(&self) -> Vec<u8> {
        let length = self.card.len() as u16;
        let mut bytes = self.memory_lacks.to_be_bytes().to_vec();
        bytes.push(self.image_lacks);
        for number in [self.flag, self.report, length] {
            bytes.extend(number.to_be_bytes());
        }
        bytes.extend(&self.card);
        bytes
    }

    /// What the program has to print for it.
    pub fn listing(&self) -> String {
        let mut memory = vec![0; MEMORY - self.memory_lacks as usize];
        let mut image = [0; IMAGE];
        image[image::FLAG..image::FLAG + 2].copy_from_slice(&self.flag.to_be_bytes());
        let image = &mut image[..IMAGE - self.image_lacks as usize];
        let mut report = vec![0; self.report as usize];
        let answer = card::card(&mut memory, image, &self.card, &mut report);
        card::listing(answer, &report)
    }

    fn report(self, report: usize) -> Stored {
        Stored { report: report as u16, ..self }
    }

    fn flag(self, flag: u16) -> Stored {
        Stored { flag, ..self }
    }

    fn memory_lacks(self, memory_lacks: u16) -> Stored {
        Stored { memory_lacks, ..self }
    }

    fn image_lacks(self, image_lacks: u8) -> Stored {
        Stored { image_lacks, ..self }
    }
}

/// A case with all of memory and image, FLAG as in `bench`, a report for 32 runs.
fn case(name: impl Into<String>, card: Card) -> Stored {
    let card = card.bytes();
    Stored { name: name.into(), memory_lacks: 0, image_lacks: 0, flag: P, report: 32 * REPORT as u16, card }
}

/// The program's input and output for these cases.
pub fn files(cases: &[Stored]) -> (Vec<u8>, String) {
    (cases.iter().flat_map(Stored::bytes).collect(), cases.iter().map(Stored::listing).collect())
}

pub fn all() -> Vec<Stored> {
    let parts = [
        whole(),
        memory_bytes(),
        registers(),
        lines(),
        runs(),
        operands(),
        following(),
        entries(),
        switches(),
        flags(),
        times(),
        faults(),
        endings(),
        buffers(),
        unknown(),
        cut(),
        beyond(),
        short_reports(),
        long(),
    ];
    parts.concat()
}

/// Vector n leads to n × 100h. Memory there is zero, which is NO, unless a case puts something there.
fn vectors(numbers: &[u8]) -> Card {
    numbers.iter().fold(Card::new(), |card, &n| card.byte(0xFFE0 + 2 * n as u16, n))
}

/// User mode with the MMU on, SSP 1000h, USP 1380h, PC 1200h. Page 12h (read, execute) is frame 34h and has this code,
/// page 13h (read, write) is 35h, page 14h (read) 36h, page 15h (write) 37h.
fn user(code: &[Words]) -> Card {
    vectors(&[10, 11, 12, 13, 14, 15])
        .code(0x3400, code)
        .entry(0, 0x12_8534)
        .entry(1, 0x13_8635)
        .entry(2, 0x14_8436)
        .entry(3, 0x15_8237)
        .ssp(0x1000)
        .register(14, 0x1380)
        .mmu(1)
        .flag(0)
        .pc(0x1200)
}

/// A run that faults with 11; then the kernel shows the violation address and the cause as PC.
fn violation(start: Card) -> Card {
    let handler = [input(1, At(0xA2)), input(0, At(0xA4)), show(1), show(0)];
    start.code(0x0B00, &handler).run(9).run(3).pc(0x0B0C).run(1)
}

/// A run that faults with 11; then the kernel reads the cause twice and shows both values as PC.
fn cause_twice(start: Card) -> Card {
    let handler = [input(0, At(0xA4)), input(1, At(0xA4)), show(0), show(1)];
    start.code(0x0B00, &handler).run(9).run(3).pc(0x0B0C).run(1)
}

/// A run that faults with 10; then the kernel shows the missed page as PC.
fn miss(start: Card) -> Card {
    start.code(0x0A00, &[input(0, At(0xA6)), show(0)]).run(9).run(2)
}

fn whole() -> Vec<Stored> {
    let worked = Card::new().byte(0x0006, 0xF0).ssp(0x1000).run(10).byte(0x0000, 0xFF).run(2);
    vec![
        case("the worked card", worked),
        case("an empty card", Card::new()),
        case("an empty card and an empty report", Card::new()).report(0),
        case("commands but no run", Card::new().mmu(1).flag(0).lines(0x3FF, 1)).report(0),
    ]
}

/// Command 01.
fn memory_bytes() -> Vec<Stored> {
    // The physical 3400h is executed, the physical 1200h is not.
    let physical = user(&[]).byte(0x3400, 0xF0).byte(0x1200, 0xFF).run(5);
    // ADD G0,5 over FFFEh and FFFFh; its next PC is 0000h.
    let ends = Card::new().byte(0xFFFE, 0x1D).byte(0xFFFF, 0x05).code(0x0000, &[show(0)]).pc(0xFFFE).run(2);
    vec![
        case("01 writes the physical byte, whatever the MMU does", physical),
        case("01 at both ends of memory", ends),
        case("01 twice at one place: the last holds", Card::new().byte(0, 0xFF).byte(0, 0x00).run(1)),
        case("01 between runs", Card::new().run(1).byte(0x0002, 0xFF).run(1)),
    ]
}

/// Command 02. A register's value is shown as PC.
fn registers() -> Vec<Stored> {
    let all: Vec<Words> = (0..15).map(show).collect();
    let set = (0..15).fold(Card::new().code(0x0100, &all), |card, n| card.register(n, 0xA000 + 0x11 * n as u16));
    let shown = (0..15).fold(set, |card, n| card.pc(0x0100 + 4 * n).run(1));
    // The user's SP is USP; the kernel entered by SVC shows SSP, 4 below, and USP.
    let ssp = vectors(&[15]).code(0x0000, &[svc()]).code(0x0F00, &[show(13), show(14)]).flag(0).ssp(0x2000);
    let usp = Card::new().code(0x0100, &[show(13), show(14)]).flag(0).register(14, 0x3334).ssp(0x2222);
    vec![
        case("02 for the numbers 0 to 15", shown.pc(0xBEEF).run(0)),
        case("02 for number 13 is SSP while P=0", ssp.run(5).run(1).pc(0x0F04).run(1)),
        case("02 for number 14 is the user's SP", usp.pc(0x0100).run(1).pc(0x0104).run(1)),
        case("02 with an odd PC: fault 11", Card::new().ssp(0x1000).pc(0x0101).run(3).run(1)),
        case("02 twice for one register", Card::new().code(0, &[show(7)]).register(7, 1).register(7, 0x7000).run(1)),
    ]
}

/// Command 03.
fn lines() -> Vec<Stored> {
    let both = vectors(&[2, 9]).code(0x0200, &[reti()]).code(0x0900, &[reti()]).ssp(0x1000).flag(E | P);
    let read = Card::new().code(0x0100, &[input(0, At(0x18)), show(0)]);
    let twice = read.clone().lines(0, 0x5A).pc(0x0100).run(2).lines(0, 0xFF).pc(0x0100).run(2);
    let last = read.lines(0, 0x5A).lines(0x0001, 0x33).pc(0x0100).run(2);
    let ten = (0..10).fold(Card::new().ssp(0x1000).lines(0x03FF, 0), |card, _| card.flag(E).run(1));
    let late = Card::new().ssp(0x1000).lines(0x0010, 0).run(3).flag(E | P).run(3);
    let interrupted = user(&[add(0, Short(1)), jump(ALWAYS, At(0x1200))]).flag(E | C).run(5);
    let handled = vectors(&[3]).code(0x0300, &[reti()]);
    vec![
        case(
            "03 adds lines: both are entered, the lowest first",
            both.lines(0x0200, 0).lines(4, 0).run(5).run(5).run(3),
        ),
        case("03 sets the input byte, read from port 18h", twice),
        case("03 sets the input byte each time", last),
        case("03 with all ten lines, entered from 0 to 9", ten.flag(E).run(1)),
        case("03 waits while E=0", late),
        case("an interrupt of a user program, and back", handled.then(interrupted).lines(8, 0).run(5).run(4)),
    ]
}

/// Command 04.
fn runs() -> Vec<Stored> {
    let turns = Card::new().code(0, &[jump(ALWAYS, At(0))]);
    let dear = Card::new().code(0, &[div(0, At(0x2000)), jump(ALWAYS, At(0))]).byte(0x2001, 1);
    let code =
        [mul(0, Register(1)), shra(0, Short(-1)), shla(0, Value(15)), st(0, Byte(2)), push(0), pop(3), call(At(0x40))];
    let counts = Card::new().ssp(0x1000).register(0, 0x8101).register(1, 3).register(2, 0x2001);
    let counts = (0..8).fold(counts.code(0, &code).code(0x40, &[ret()]), |card, _| card.run(1));
    vec![
        case("04 with the allowances 0, 1 and 2", Card::new().run(0).run(1).run(2)),
        case("04 with 65,535 steps", turns.run(65_535)),
        case("04 with 65,535 steps, half of them DIV", dear.run(65_535).run(1)),
        case("state counts of single steps", counts),
        case("a run that goes on over the end of memory", Card::new().pc(0xFFFC).run(3)),
    ]
}

/// The sixteen values of a four-bit operand, from -8 up. PC shows what came of each: the value, a sum with it, or the word at
/// FP + 2 × D4.
fn operands() -> Vec<Stored> {
    // FP is 0300h. Each word from 02F0h to 030Eh is its own address.
    let own: Vec<Words> = (0x02F0..=0x030E).step_by(2).map(word).collect();
    let start = Card::new().register(12, 0x0300).code(0x02F0, &own);
    // Rd is 1234h before. Behind a NO the library has G0 in its fast loop, USP in its step.
    let each = |name: &str, rd: u8, instructions: &dyn Fn(u8, i8) -> Vec<Words>| {
        let run = |card: Card, d| {
            let code = [vec![no()], instructions(rd, d)].concat();
            card.code(0x0100, &code).register(rd, 0x1234).pc(0x0100).run(code.len() as u16)
        };
        case(name, (-8..8).fold(start.clone(), run))
    };
    let loaded = |rd, d| vec![ld(rd, Short(d)), show(rd)];
    let added = |rd, d| vec![add(rd, Short(d)), show(rd)];
    let read = |rd, d| vec![ld(rd, Frame(d)), show(rd)];
    let place = |d: i8| At(0x0300u16.wrapping_add_signed(2 * d as i16));
    let written = |rd, d| vec![st(rd, Frame(d)), ld(1, place(d)), show(1)];
    vec![
        each("immediates of four bits", 0, &loaded),
        each("immediates of four bits, to USP", 14, &loaded),
        each("immediates of four bits, added to 1234h", 0, &added),
        each("words read at FP + 2 × D4", 0, &read),
        each("words read at FP + 2 × D4, to USP", 14, &read),
        each("words stored at FP + 2 × D4", 0, &written),
        each("words stored at FP + 2 × D4, from USP", 14, &written),
    ]
}

/// Register 15: as Rs and as Rx the address of the following instruction, as Rd undefined. PC shows what came of it.
fn following() -> Vec<Stored> {
    [read_by_pc(), written_by_pc(), wrapped_pc(), users_pc(), pc_as_rd()].concat()
}

/// A run of this code from 0100h on, and one from the NO before it: the library has the first instruction in its step,
/// then in its fast loop.
fn twice(start: Card, code: &[Words], steps: u16) -> Card {
    start.ssp(0x1000).code(0x0100, code).pc(0x0100).run(steps).pc(0x00FE).run(steps + 1)
}

fn read_by_pc() -> Vec<Stored> {
    let new = Card::new;
    let table = new().code(0x0304, &[word(0x5AA4)]);
    let each = |card, start, steps| {
        ALU.into_iter().fold(card, |card: Card, first| {
            card.code(0x0100, &[moded(first, 0, Register(PC))]).register(0, 0x1234).pc(start).run(steps)
        })
    };
    let all = each(each(new().code(0x0102, &[show(0)]), 0x0100, 2), 0x00FE, 3);
    let port = new().lines(0, 0x5A).code(0x0016, &[input(0, Pointer(PC)), show(0)]);
    vec![
        case("LD G0,PC at 0100h", twice(new(), &[ld(0, Register(PC)), show(0)], 2)),
        case("LD G0,[Dsp+PC] at 0100h", twice(table, &[ld(0, Indexed(0x0200, PC)), show(0)], 2)),
        case("a word read by [PC]", twice(new(), &[ld(0, Pointer(PC)), show(0)], 2)),
        case("a byte read by [PC]", twice(new(), &[ld(0, Byte(PC)), show(0)], 2)),
        case("ADD to SHRL with PC as the source", all),
        case("IN by [PC] at 0016h", port.pc(0x0016).run(2).pc(0x0014).run(3)),
    ]
}

fn written_by_pc() -> Vec<Stored> {
    let new = Card::new;
    let far = Indexed(0x0200, PC);
    let called = new().code(0x0304, &[pop(0), show(0)]);
    let entry = new().code(0x0080, &[output(1, Pointer(PC)), input(0, At(0x82)), show(0)]).register(1, 0x8534);
    vec![
        case(
            "a word stored at [Dsp+PC]",
            twice(new().register(1, 0x1357), &[st(1, far), ld(0, At(0x0304)), show(0)], 3),
        ),
        case(
            "ST by [PC] over the next word",
            twice(new().register(1, 0x0D05), &[st(1, Pointer(PC)), no(), show(0)], 3),
        ),
        case(
            "ST by [PC] over the next byte",
            twice(new().register(1, 0x220D), &[st(1, Byte(PC)), word(0x0005), show(0)], 3),
        ),
        case("JMP [Dsp+PC] at 0100h", twice(new(), &[jump(ALWAYS, far)], 1)),
        case("JMP [Dsp+PC], not taken", twice(new(), &[jump(ZERO, far)], 1)),
        case("JMP [Dsp+PC] to itself", twice(new(), &[jump(ALWAYS, Indexed(0xFFFC, PC))], 65_534)),
        case("CALL [Dsp+PC] at 0100h", twice(called, &[call(far)], 3)),
        case("OUT by [PC] at 0080h", entry.pc(0x0080).run(3).pc(0x007E).run(4)),
    ]
}

/// The following address goes on at 0000h.
fn wrapped_pc() -> Vec<Stored> {
    let words = Card::new().code(0x0300, &[word(0x1112), word(0x2224)]).ssp(0x1000);
    let two = [ld(0, Indexed(0x0300, PC)), show(0)];
    let one = words.clone().code(0xFFFE, &[ld(0, Register(PC)), jump(ALWAYS, Indexed(0x0300, 0))]);
    let divided = words.clone().code(0xFFFE, &[div(0, Register(PC))]);
    let ends = |at: u16| words.clone().code(at, &two).pc(at).run(2).pc(at - 2).run(3);
    vec![
        case("LD G0,PC at FFFEh", one.pc(0xFFFE).run(2).pc(0xFFFC).run(3)),
        case("LD G0,[Dsp+PC] at FFFCh", ends(0xFFFC)),
        case("LD G0,[Dsp+PC] at FFFEh", ends(0xFFFE)),
        case("DIV by PC at FFFEh: fault 12", divided.pc(0xFFFE).run(1).pc(0xFFFC).run(2)),
    ]
}

/// In user mode with the MMU on, logical addresses.
fn users_pc() -> Vec<Stored> {
    // Two words behind the code are read, by PC in a register and by PC.
    let table =
        [ld(1, Register(PC)), ld(0, Indexed(12, 1)), add(0, Indexed(6, PC)), show(0), word(0x1111), word(0x0222)];
    let stored = user(&[no(), st(1, Indexed(0x1310 - 0x1206, PC)), svc()]).register(1, 0x2468);
    let stored = stored.code(0x0F00, &[ld(2, At(0x3510)), show(2)]);
    vec![
        case("a user's LD G0,PC at 1200h", user(&[ld(0, Register(PC)), show(0)]).run(2)),
        case("a user's table found by PC", user(&table).run(4)),
        case("a user's ST by [Dsp+PC]", stored.run(9).run(2)),
        case("a user's jump by [Dsp+PC] to itself", user(&[jump(ALWAYS, Indexed(0xFFFC, PC))]).run(65_535)),
        case("11: a read by [PC] without right", violation(user(&[ld(0, Pointer(PC))]).entry(0, 0x12_8134))),
        case("11: a store by [PC] without right", violation(user(&[no(), st(0, Pointer(PC))]))),
        case("10: a read by [Dsp+PC]", miss(user(&[no(), ld(0, Indexed(0x6C7A, PC))]))),
        case("13: IN by [PC] of a user", user(&[input(0, Pointer(PC))]).run(9)),
    ]
}

/// Fault 14, in the kernel at once and of a user behind a NO.
fn pc_as_rd() -> Vec<Stored> {
    let bad = [
        ("LD PC,PC", ld(PC, Register(PC))),
        ("ST PC,[1310h]", st(PC, At(0x1310))),
        ("ST PC,[PC]", st(PC, Pointer(PC))),
        ("LD PC,FLAG", ld_flag(PC)),
        ("ADD PC,G0", add(PC, Register(0))),
        ("CMP PC,G0", cmp(PC, Register(0))),
        ("SHRL PC,1", shrl(PC, Short(1))),
        ("IN PC,[18h]", input(PC, At(0x18))),
        ("OUT PC,[18h]", output(PC, At(0x18))),
        ("PUSH PC", push(PC)),
        ("POP PC", pop(PC)),
    ];
    let both = |code: Words| {
        let kernel = Card::new().ssp(0x1000).code(0x0100, from_ref(&code)).pc(0x0100).run(2);
        kernel.then(user(&[no(), code])).run(9)
    };
    bad.map(|(name, code)| case(format!("14: {name}"), both(code))).to_vec()
}

/// Command 05.
fn entries() -> Vec<Stored> {
    // Page 10h + k is frame 20h + k; the jump there leads to 7000h + k.
    let fetch = (0..8).fold(Card::new().mmu(1).flag(0), |card, k: u8| {
        let target = 0x7000 + k as u16;
        let card = card.code((0x20 + k as u16) << 8, &[jump(ALWAYS, At(target))]);
        card.entry(k, 0x10_8120 + 0x01_0001 * k as u32)
    });
    let fetched = (0..8).fold(fetch, |card, k| card.pc(0x1000 + 0x100 * k).run(1));
    // IN from the port in G1.
    let ports = Card::new().code(0x0100, &[input(0, Pointer(1)), show(0)]);
    let set = (0..8).fold(ports, |card, k: u8| {
        let low = if k.is_multiple_of(2) { 0x9F_F0 } else { 0x05_08 };
        card.entry(k, (0xE0 + k as u32) << 16 | (low + k as u32))
    });
    let read = (0..16).fold(set, |card, k| card.register(1, 0x80 + 2 * k).pc(0x0100).run(2));
    // The kernel shows the lower word of entry 1 after a read and after a write of page 13h.
    let marks = user(&[ld(0, At(0x1310)), svc(), st(0, At(0x1310)), svc()]);
    let marks = marks.code(0x0F00, &[input(0, At(0x86)), show(0)]).run(9).run(2);
    let marks = marks.flag(0).pc(0x1206).run(9).run(2);
    let twice = user(&[no(), ld(0, At(0x1400))]).entry(2, 0x14_8236).entry(7, 0x14_8736);
    vec![
        case("05 for each entry, seen by fetches", fetched).flag(0),
        case("05 for each entry, seen by IN", read),
        case("05 without V serves no page", user(&[no()]).entry(0, 0x12_0734).run(3).run(0)),
        case("05 for a second entry of a page: the lowest serves", twice.run(3)),
        case("05 in place of an entry", user(&[no(), no()]).run(1).entry(0, 0x12_8134).run(1).entry(0, 0).run(1)),
        case("R-bit and D as accesses leave them", marks),
    ]
}

/// Command 06.
fn switches() -> Vec<Stored> {
    let on = Card::new().ssp(0x1000).flag(0).mmu(1).run(2);
    let off = Card::new().code(0x0100, &[output(0, At(0xA2)), no()]).entry(0, 0x01_8101).mmu(1).flag(I).pc(0x0100);
    vec![
        case("06 on and off, in user and kernel mode", on.flag(0).mmu(0).run(2).flag(P).mmu(1).run(2)),
        case("06 on, switched off by a user with I/O privilege", off.run(1).entry(0, 0).run(2)),
    ]
}

/// Command 07.
fn flags() -> Vec<Stored> {
    let bits = [0, E, P, I, V, C, S, Z, E | P | I | V | C | S | Z];
    let each = bits.into_iter().fold(Card::new(), |card, flag| card.flag(flag).run(0));
    // Jumps taken cost 5, others 4.
    let jumps: Vec<Words> = [ZERO, CARRY, SIGN, OVERFLOW].map(|condition| jump(condition, At(0x0040))).to_vec();
    let start = Card::new().code(0, &jumps);
    let tried = [(0, Z), (4, C), (8, S), (12, V), (0, C), (4, S), (8, V), (12, Z)];
    let taken = tried.into_iter().fold(start, |card, (pc, flag)| card.flag(P | flag).pc(pc).run(1));
    let io = Card::new().code(0, &[input(0, At(0x18)), show(0)]).ssp(0x1000).lines(0, 0x77);
    let sums = Card::new().code(0, &[add(0, Short(1)), sub(1, Short(1)), shla(2, Short(0))]);
    let sums = sums.register(0, 0x7FFF).register(2, 0x8000);
    // PC and FLAG are pushed, then taken by RETI.
    let loaded = [ld(0, Value(0x2000)), push(0), ld(0, Value(0xFFFF)), push(0), reti()];
    vec![
        case("07 for each FLAG bit", each),
        case("07 and the jumps that see it", taken),
        case("07 with I: a user's IN is allowed, and without is 13", io.flag(I).run(2).pc(0).flag(0).run(2)),
        case("07 with P=0: HALT is 13", Card::new().byte(0, 0xFF).ssp(0x1000).flag(Z).run(2).flag(P).pc(0).run(2)),
        case("RETI keeps the bits of FLAG that there are", Card::new().ssp(0x1000).code(0, &loaded).run(5)),
        case("sums, differences and a shift by 0", sums.run(1).run(1).run(1)),
        case("FLAG of the image, no command", Card::new().run(0)).flag(0xEF),
    ]
}

/// Code that sets a timer: 16 bytes, 4 steps of 22 states.
fn set_timer(n: u8, period: u16, control: u16) -> Vec<Words> {
    let port = 4 * n as u16;
    vec![ld(0, Value(period)), output(0, At(port)), ld(0, Value(control)), output(0, At(port + 2))]
}

/// The kernel at 0200h sets a timer, then has this code at 0210h.
fn with_timer(n: u8, period: u16, control: u16, code: &[Words]) -> Card {
    Card::new().ssp(0x1000).code(0x0200, &[&set_timer(n, period, control), code].concat()).pc(0x0200)
}

/// Command 08. Words read by IN are shown as PC.
fn times() -> Vec<Stored> {
    let mut cases = [firings(0), uses(0), firings(1), uses(1)].concat();
    let wait = [input(1, At(0x02)), cmp(1, Short(0)), jump(ZERO, At(0x0210)), halt()];
    let pause = with_timer(0, 500, 0x0001, &wait).run(34).time(499).run(30).time(1).run(30);
    let both = [set_timer(0, 3, 0x8001), set_timer(1, 2, 0x8001), vec![jump(ALWAYS, At(0x0320))]].concat();
    let both = vectors(&[0, 1]).code(0, &[reti()]).code(0x0100, &[reti()]).code(0x0300, &both).ssp(0x1000).flag(E | P);
    let both = both.pc(0x0300).run(8).time(6).run(2).run(2).run(3).time(1).run(1).time(1).run(1);
    let ports = [set_timer(0, 3, 0x0001), set_timer(1, 4, 0x0001), vec![input(0, Pointer(1)), show(0)]].concat();
    let ports = Card::new().code(0x0200, &ports).pc(0x0200).run(8).time(5);
    let others = [0x01, 0x03, 0x05, 0x07, 0x08, 0x0100, 0x0102, 0x0104, 0x0106];
    let ports = others
        .into_iter()
        .chain([0x00, 0x02, 0x04, 0x06, 0x02, 0x06])
        .fold(ports, |card, port| card.register(1, port).pc(0x0220).run(2));
    let lost = with_timer(0, 10, 0x8001, &[svc()]).ssp(0x1001).flag(E | P).run(9).time(10).run(9);
    cases.extend([
        case("08: a pause of 500 ms", pause),
        case("08 for both timers: line 0 before line 1", both),
        case("08 and the ports 01h to 07h, 08h, 0100h to 0106h", ports),
        case("08 on a lost machine: it stays lost", lost),
        case("08 for timers that nobody has set", Card::new().ssp(0x1000).flag(E | P).time(65_535).run(2)),
    ]);
    cases
}

/// The ports of a timer: that of its count, and that of fired.
fn timer_ports(n: u8) -> (u16, u16) {
    (4 * n as u16, 4 * n as u16 + 2)
}

/// What time does to a timer: when it fires, and when its interrupt comes.
fn firings(n: u8) -> Vec<Stored> {
    let (count, fired) = timer_ports(n);
    let read = |port| input(1, At(port));
    let twice = [read(fired), input(2, At(fired)), show(1), show(2)];
    let twice = with_timer(n, 10, 0x0001, &twice).run(4).time(9).run(3).pc(0x0210).time(1).run(3).pc(0x021C).run(1);
    let counts = with_timer(n, 10, 0x0001, &[read(count), show(1)]).run(4).time(7).time(0).run(2);
    let counts = counts.pc(0x0210).time(5).run(2);
    // The handler reads fired; E=1 is back with RETI.
    let handler = vectors(&[n]).code((n as u16) << 8, &[read(fired), reti()]);
    let waits = |period| with_timer(n, period, 0x8001, &[jump(ALWAYS, At(0x0210))]).flag(E | P).run(4);
    let entered = handler.then(waits(10)).time(9).run(2).time(1).run(5).run(3).run(3);
    let many = vectors(&[n]).code((n as u16) << 8, &[reti()]).then(waits(1)).time(65_535).run(5).run(3);
    let again = vectors(&[n]).code((n as u16) << 8, &[reti()]).then(waits(10)).time(10).run(5).run(2);
    let late = with_timer(n, 10, 0x8001, &[no()]).run(4).time(10).run(3).flag(E | P).run(3);
    // E=1, and no interrupt comes before the count and fired are read.
    let words = [read(count), input(2, At(fired)), show(1), show(2)];
    let silent = |period, control, milliseconds| {
        with_timer(n, period, control, &words).flag(E | P).run(4).time(milliseconds).run(3).pc(0x021C).run(1)
    };
    let most = [read(count), show(1), read(fired), show(1)];
    let most = with_timer(n, 65_535, 0x0001, &most).run(4).time(65_534).run(2).pc(0x0210).time(1).run(2);
    let steps = with_timer(n, 1, 0x8001, &[jump(ALWAYS, At(0x0210))]).flag(E | P).run(65_535).time(1).run(1);
    vec![
        case(format!("08: Timer{n} fires at its period, IN clears fired"), twice),
        case(format!("08: Timer{n} counts 7, and 5 ms later 2"), counts),
        case(format!("08: an interrupt of Timer{n}"), entered),
        case(format!("08: 65,535 firings of Timer{n}, one interrupt"), many),
        case(format!("08: another interrupt of Timer{n}, fired still set"), again.time(10).run(5)),
        case(format!("08: an interrupt of Timer{n} waits while E=0"), late),
        case(format!("08: Timer{n} with period 0"), silent(0, 0x8001, 65_535)),
        case(format!("08: control FFFEh does not start Timer{n}"), silent(10, 0xFFFE, 25)),
        case(format!("08: Timer{n} without its interrupt"), silent(10, 0x0001, 10)),
        case(format!("08: Timer{n} with period 65,535"), most.pc(0x0218).run(2)),
        case(format!("steps let no time pass for Timer{n}"), steps),
    ]
}

/// What programs do with a timer: they stop it, set it again, or halt while it counts; users come to its ports.
fn uses(n: u8) -> Vec<Stored> {
    let (count, fired) = timer_ports(n);
    let read = |port| input(1, At(port));
    // Bit 0 is cleared, then set again.
    let stop = [ld(0, Short(0)), output(0, At(fired)), ld(0, Short(1)), output(0, At(fired)), read(count), show(1)];
    let stop = with_timer(n, 10, 0x0001, &stop).run(4).time(7).run(2).time(100).run(4);
    let stop = stop.pc(0x021C).time(2).run(2).pc(0x021C).time(1).run(2);
    let set = |port| {
        let code = [ld(0, Short(5)), output(0, At(port)), read(count), input(2, At(fired)), show(1), show(2)];
        with_timer(n, 10, 0x0001, &code).run(4).time(17).run(5).pc(0x0222).run(1)
    };
    let halts = with_timer(n, 10, 0x8001, &[halt()]).flag(E | P).run(9).time(10).run(9);
    let own = user(&[set_timer(n, 10, 0x0001), vec![read(fired), show(1)]].concat()).flag(I).run(4).time(10).run(2);
    let mut cases = vec![
        case(format!("08: Timer{n} stopped and started again"), stop),
        case(format!("OUT of Timer{n}'s period zeroes the count and keeps fired"), set(count)),
        case(format!("OUT of Timer{n}'s control keeps the count and fired"), set(fired)),
        case(format!("08 on a halted machine with Timer{n}: it stays halted"), halts),
        case(format!("Timer{n}'s ports for a user with I/O privilege"), own),
    ];
    for port in [count, fired] {
        for (name, code) in [("IN", input(0, At(port))), ("OUT", output(0, At(port)))] {
            cases.push(case(format!("13: {name} of {port:02X}h of a user"), user(&[code]).run(9)));
        }
    }
    cases
}

/// Faults of user programs under the MMU.
fn faults() -> Vec<Stored> {
    let bytes = [ld(1, Value(0x1401)), st(0, Byte(1))];
    let last = user(&[]).code(0x34FE, &[ld(0, At(0x1300))]).pc(0x12FE);
    let order = user(&[]).code(0x34FE, &[input(0, At(0x18))]).pc(0x12FE).run(2);
    let (odd, right) = (|| ld(0, At(0x1381)), || ld(0, At(0x1580)));
    let cleared = violation(user(&[odd()]));
    // Behind the first fault the program goes on; nobody has read its cause.
    let two = user(&[odd(), right()]);
    let both = two.clone().code(0x0B00, &[input(0, At(0xA4)), show(0)]);
    let both = both.run(9).flag(0).pc(0x1204).run(9).run(2);
    let added = two.run(9).flag(0).pc(0x1204);
    let pushes = user(&[push(0)]).register(14, 0x1402);
    let requests =
        user(&[add(3, Short(1)), svc(), jump(ALWAYS, At(0x1200))]).code(0x0F00, &[add(4, Register(3)), reti()]);
    // The sum of eight words of page 13h, stored there; the kernel reads it in the frame.
    let sum =
        [ld(1, Value(0x1300)), add(0, Pointer(1)), add(1, Short(2)), cmp(1, Value(0x1310)), jump(NOT_ZERO, At(0x1204))];
    let sum = user(&[&sum[..], &[st(0, At(0x1312)), svc()]].concat()).code(0x0F00, &[ld(2, At(0x3512)), show(2)]);
    let sum = sum.byte(0x3501, 5).byte(0x350F, 7).run(65_535).run(2);
    let mut cases = vec![
        case("11: a read without right", violation(user(&[no(), ld(0, At(0x1580))]))),
        case("11: a write without right", violation(user(&[no(), st(0, At(0x1480))]))),
        case("11: a byte written without right, at an odd address", violation(user(&bytes))),
        case("11: a fetch without right", violation(user(&[jump(ALWAYS, At(0x1310))]))),
        case("11: a push without right", violation(pushes)),
        case("11: an odd address", violation(user(&[ld(0, At(0x1381))]))),
        case("11: an odd address on a page that is not there", violation(user(&[ld(0, At(0x4445))]))),
        case("11: the second word on another page", violation(last)),
        case("11: both causes, one after the other", both),
        case("11: the cause is cleared by IN", cleared.pc(0x0B04).run(1).pc(0x0B0C).run(1)),
        case("11: the cause read twice, 1 for a missing right, then 0", cause_twice(user(&[right()]))),
        case("11: the cause read twice, 2 for an odd address, then 0", cause_twice(user(&[odd()]))),
        case("11: the cause read twice, 3 for both, then 0", cause_twice(added)),
        case("10: a page that is not there", miss(user(&[no(), ld(0, At(0x7E80))]))),
        case("10: a byte on a page that is not there", miss(user(&[ld(1, Value(0x7EFF)), ld(0, Byte(1))]))),
        case("12: a division by 0", user(&[ld(0, Short(7)), div(0, Short(0))]).flag(V | Z).run(9).run(0)),
        case("13: before the second word", order),
        case("14: an undefined first byte", user(&[word(0x0100)]).run(9).run(0)),
        case("14: jump condition Dh", user(&[jump(13, At(0x1200))]).run(9)),
        case("14: register 15 as Rd", user(&[no(), ld(PC, Short(1))]).run(9)),
        case("a loop over mapped data", sum),
        case("requests one after the other: user, kernel, user", requests.run(20).run(20).run(20).run(5)),
        case("15: SVC, with the following PC and the user's FLAG", user(&[no(), svc()]).flag(C).run(9).run(0)),
    ];
    let privileged = [("HALT", halt()), ("RETI", reti()), ("IN", input(0, At(0x18))), ("OUT", output(0, Pointer(1)))];
    cases.extend(privileged.map(|(name, code)| case(format!("13: {name} of a user"), user(&[code]).run(9).run(0))));
    cases
}

/// Runs that end by HALT or lost, and runs found so.
fn endings() -> Vec<Stored> {
    let halts = Card::new().byte(4, 0xFF).run(9).run(9).run(0).flag(0xEF).pc(0x7777).run(1);
    let odd = Card::new().byte(2, 0xF0).ssp(0x1001).run(9).run(9).run(0).ssp(0x1000).run(1);
    let line = Card::new().ssp(0x0FFF).flag(E | P).lines(2, 0).run(1).run(1);
    let wraps = Card::new().code(0x0100, &[svc()]).ssp(0x0000).pc(0x0100).run(5).run(0);
    let vector = vectors(&[14]).byte(0xFFFD, 0x81).byte(0, 0x01).ssp(0x1000).run(5).run(5);
    vec![
        case("halted, and found halted", halts),
        case("halted at the last step allowed", Card::new().byte(2, 0xFF).run(2)),
        case("entered at the last step allowed", Card::new().byte(2, 0xF0).ssp(0x1000).run(2)),
        case("lost by SVC on an odd SSP, and found lost", odd),
        case("lost by an interrupt on an odd SSP", line),
        case("lost by a fault of a user program", user(&[no(), ld(0, At(0x7E80))]).ssp(0x1001).run(9)),
        case("lost by PUSH on an odd SSP", Card::new().code(0, &[push(0)]).ssp(0x1001).run(9)),
        case("the stack over the vectors: the pushed PC is the handler", wraps),
        case("an odd handler: its fetch faults", vector),
    ]
}

/// Refusals 1, 2 and 3, each before the later ones.
fn buffers() -> Vec<Stored> {
    let good = || Card::new().run(1);
    let bad = || Card::new().run(1).raw(&[0x09]);
    let mut cases = vec![
        case("refused 1: memory short by 1", good()).memory_lacks(1),
        case("refused 1: memory short by 65,535", good()).memory_lacks(65_535),
        case("refused 1 before 2, 3, 5 and 8", bad()).memory_lacks(256).image_lacks(1).flag(0x10).report(0),
        case("refused 2: image short by 1", good()).image_lacks(1),
        case("refused 2: image short by 16, as it was without timers", good()).image_lacks(16),
        case("refused 2: image short by 84", good()).image_lacks(84),
        case("refused 2 before 3, 5 and 8", bad()).image_lacks(34).flag(0x0100).report(0),
        case("refused 3 before 5", bad()).flag(0x10),
        case("refused 3 before 8", good()).flag(0x0100).report(0),
    ];
    let flags = [0x0010, 0x0100, 0x0200, 0x8000, 0x00FF, 0xFFFF];
    cases.extend(flags.map(|flag| case(format!("refused 3: FLAG {flag:04X}"), good()).flag(flag)));
    cases
}

/// Refusal 5.
fn unknown() -> Vec<Stored> {
    let front = || Card::new().byte(0, 0xFF).run(1);
    let mut cases: Vec<Stored> = [0x00, 0x09, 0x10, 0x80, 0xFF]
        .map(|byte| case(format!("refused 5: byte {byte:02X} at 0"), Card::new().raw(&[byte]).run(1)))
        .to_vec();
    cases.extend([
        case("refused 5: in the middle", front().raw(&[0x00]).run(1)),
        case("refused 5: the last byte", front().raw(&[0x09])),
        case("refused 5 before 7 of a later command", Card::new().mmu(1).raw(&[0x09]).flag(0x10)),
        case("refused 5 before 8", front().raw(&[0x09])).report(0),
    ]);
    cases
}

/// A good command of each kind.
fn each_command() -> [Card; 8] {
    let new = Card::new;
    [
        new().byte(0, 0xFF),
        new().register(15, 0xFFFF),
        new().lines(0x03FF, 0xFF),
        new().run(1),
        new().entry(7, 0xFF_9FFF),
        new().mmu(1),
        new().flag(0xEF),
        new().time(0xFFFF),
    ]
}

/// Refusal 6.
fn cut() -> Vec<Stored> {
    let mut cases = Vec::new();
    for command in each_command().map(Card::bytes) {
        for length in 1..command.len() {
            let (kind, lacks) = (command[0], command.len() - length);
            let cut = || Card::new().raw(&command[..length]);
            cases.push(case(format!("refused 6: {kind:02X} without its last {lacks}"), cut()));
            cases.push(case(
                format!("refused 6: a run, {kind:02X} without its last {lacks}"),
                Card::new().run(1).then(cut()),
            ));
        }
    }
    cases.extend([
        case("refused 6: register 16, cut short", Card::new().raw(&[0x02, 0x10])),
        case("refused 6: entry 8, cut short", Card::new().raw(&[0x05, 0x08, 0xFF, 0xFF])),
        case("refused 6 before 8", Card::new().run(1).raw(&[0x07, 0x01])).report(11),
    ]);
    cases
}

/// Refusal 7, and the greatest operands that are good.
fn beyond() -> Vec<Stored> {
    let new = Card::new;
    let bad = [
        new().register(16, 0),
        new().register(0xFF, 0xFFFF),
        new().lines(0x0400, 0),
        new().lines(0x8000, 0),
        new().lines(0xFFFF, 0),
        new().entry(8, 0),
        new().entry(0xFF, 0),
        new().entry(0, 0x00_4000),
        new().entry(7, 0x00_2000),
        new().entry(3, 0xFF_FFFF),
        new().mmu(2),
        new().mmu(0xFF),
        new().flag(0x0010),
        new().flag(0x0100),
        new().flag(0x8000),
    ];
    let mut cases: Vec<Stored> = Vec::new();
    for card in bad {
        let hex: Vec<String> = card.clone().bytes().iter().map(|byte| format!("{byte:02X}")).collect();
        let behind = new().byte(0, 0xFF).run(1).then(card.clone()).run(1);
        cases.push(case(format!("refused 7: {}", hex.join(" ")), card.run(1)));
        cases.push(case(format!("refused 7: behind a run, {}", hex.join(" ")), behind));
    }
    let greatest = each_command().into_iter().fold(new(), Card::then);
    cases.extend([
        case("the greatest operands are good", greatest.run(0)),
        case("refused 7: MMU 2, then a byte that is no command", new().raw(&[0x06, 0x02, 0xFF])),
        case("refused 7 before 5 of a later command", new().flag(0x10).raw(&[0xFF])),
        case("refused 7 before 8", new().run(1).mmu(2)).report(0),
    ]);
    cases
}

/// Refusal 8, and reports that are just long enough.
fn short_reports() -> Vec<Stored> {
    let card = |runs: usize| (0..runs).fold(Card::new().mmu(0), |card, k| card.run(k as u16));
    let lengths = [(0, 1), (11, 1), (12, 1), (13, 1), (0, 2), (12, 2), (23, 2), (24, 2), (35, 3), (36, 3), (47, 3)];
    lengths
        .map(|(length, runs)| case(format!("a report of {length} bytes for {runs} runs"), card(runs)).report(length))
        .to_vec()
}

/// Cards near the greatest length.
fn long() -> Vec<Stored> {
    // 510 ADD G0,1 at 4 states, then HALT: 1,021 commands 01 and 4 runs.
    let adds =
        Card::new().code(0, &vec![add(0, Short(1)); 510]).byte(0x03FC, 0xFF).run(100).run(409).run(65_535).run(1);
    let runs = (0..1_365).fold(Card::new(), |card, k| card.run((k % 97 == 0) as u16));
    let over = (0..LONGEST / 2).fold(Card::new(), |card, _| card.mmu(0)).raw(&[0x06]);
    let late = (0..1_023).fold(Card::new(), |card, _| card.byte(0, 0xFF)).raw(&[0x04, 0x00]);
    vec![
        case("a card of 4,096 bytes", adds),
        case("1,365 runs", runs.clone()).report(1_365 * REPORT),
        case("1,365 runs, the report one byte short", runs).report(1_365 * REPORT - 1),
        case("refused 4: 4,097 bytes", over),
        case("refused 4 before 5 and 8", Card::new().raw(&[0xFF; LONGEST + 1])).report(0),
        case("refused 6: the last command of a long card", late),
    ]
}
