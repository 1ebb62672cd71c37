//! Calls on byte buffers: run, card, view and the look at the fault record,
//! with refusals 4 to 8, and the listing of `bench`.

use crate::emulator::{Machine, Report, FLAG_BITS, LINES, MEMORY, P, ZEROS};
use crate::image::{self, Refusal};
use crate::report::{report_bytes, REPORT};

/// The longest good card.
pub const LONGEST: usize = 4_096;

/// A bench card's commands ("Bench card and its listing"; document 02, request 2).
#[derive(Clone, Copy, Debug, PartialEq, Eq)]
pub enum Command {
    Byte { address: u16, value: u8 },
    Register { number: u8, value: u16 },
    Lines { lines: u16, input: u8 },
    Run { allowance: u16 },
    Entry { number: u8, bits: u32 },
    Mmu { on: bool },
    Flag { value: u16 },
    Time { milliseconds: u16 },
}

/// Bytes of operands behind a command's first byte, if that is known.
pub fn operands(first: u8) -> Option<usize> {
    match first {
        0x01..=0x03 => Some(3),
        0x04 | 0x07 | 0x08 => Some(2),
        0x05 => Some(4),
        0x06 => Some(1),
        _ => None,
    }
}

/// A command of the card at `at` with its length, or the number of the refusal:
/// unknown byte 5, operands cut short 6, operand beyond its values 7.
fn command(card: &[u8], at: usize) -> Result<(Command, usize), u8> {
    let operands = operands(card[at]).ok_or(5)?;
    let o = card.get(at + 1..at + 1 + operands).ok_or(6)?;
    let word = |k: usize| u16::from_be_bytes([o[k], o[k + 1]]);
    let (good, command) = match card[at] {
        0x01 => (true, Command::Byte { address: word(0), value: o[2] }),
        0x02 => (o[0] <= 15, Command::Register { number: o[0], value: word(1) }),
        0x03 => (word(0) & !LINES == 0, Command::Lines { lines: word(0), input: o[2] }),
        0x04 => (true, Command::Run { allowance: word(0) }),
        0x05 => {
            let bits = u32::from_be_bytes([0, o[1], o[2], o[3]]);
            (o[0] <= 7 && bits & ZEROS == 0, Command::Entry { number: o[0], bits })
        }
        0x06 => (o[0] <= 1, Command::Mmu { on: o[0] == 1 }),
        0x07 => (word(0) & !FLAG_BITS == 0, Command::Flag { value: word(0) }),
        _ => (true, Command::Time { milliseconds: word(0) }),
    };
    if !good {
        return Err(7);
    }
    Ok((command, 1 + operands))
}

/// "A card is tested whole before its first command acts": refusals 4 to 7.
pub fn commands(card: &[u8]) -> Result<Vec<Command>, Refusal> {
    if card.len() > LONGEST {
        return Err(Refusal::plain(4));
    }
    let mut list = Vec::new();
    let mut at = 0;
    while at < card.len() {
        let bad = |number| Refusal { number, position: at as u32 };
        let (command, length) = command(card, at).map_err(bad)?;
        list.push(command);
        at += length;
    }
    Ok(list)
}

/// How many reports these commands write.
pub fn count_runs(list: &[Command]) -> usize {
    list.iter().filter(|c| matches!(c, Command::Run { .. })).count()
}

/// Does one command; a run gives its report.
fn act(machine: &mut Machine, command: Command) -> Option<Report> {
    match command {
        Command::Byte { address, value } => machine.memory[address as usize] = value,
        Command::Register { number, value } => match number {
            13 => machine.ssp = value,
            14 => machine.usp = value,
            15 => machine.pc = value,
            _ => machine.regs[number as usize] = value,
        },
        Command::Lines { lines, input } => {
            machine.pending |= lines;
            machine.input = input;
        }
        Command::Run { allowance } => return Some(machine.run(allowance)),
        Command::Entry { number, bits } => machine.tlb[number as usize] = bits,
        Command::Mmu { on } => machine.mmu_on = on,
        Command::Flag { value } => machine.flag = value,
        Command::Time { milliseconds } => machine.pass(milliseconds),
    }
    None
}

pub(crate) fn answered(result: Result<usize, Refusal>) -> u64 {
    match result {
        Ok(number) => number as u64,
        Err(refusal) => refusal.answer(),
    }
}

fn report_holds(report: &[u8], runs: usize) -> Result<(), Refusal> {
    if report.len() < REPORT * runs {
        return Err(Refusal::plain(8));
    }
    Ok(())
}

/// Calls on memory that can only be lent go by a copy.
pub(crate) fn on_copy(memory: &mut [u8], call: impl FnOnce(&mut Vec<u8>) -> u64) -> u64 {
    let mut copy = memory.to_vec();
    let answer = call(&mut copy);
    memory.copy_from_slice(&copy);
    answer
}

/// A run, as `tac_run` answers it.
pub fn run(memory: &mut [u8], image: &mut [u8], allowance: u16, report: &mut [u8]) -> u64 {
    on_copy(memory, |memory| run_in(memory, image, allowance, report))
}

/// The same, with memory moved into the machine and back.
pub fn run_in(memory: &mut Vec<u8>, image: &mut [u8], allowance: u16, report: &mut [u8]) -> u64 {
    let mut go = || {
        image::test(memory, image)?;
        report_holds(report, 1)?;
        let mut machine = image::read(std::mem::take(memory), image);
        let done = machine.run(allowance);
        report[..REPORT].copy_from_slice(&report_bytes(&done));
        image.copy_from_slice(&image::write(&machine));
        *memory = machine.memory;
        Ok(REPORT)
    };
    answered(go())
}

/// Does a tested card's commands; gives the number of report bytes filled.
fn play(machine: &mut Machine, list: &[Command], report: &mut [u8]) -> usize {
    let mut filled = 0;
    for &command in list {
        if let Some(done) = act(machine, command) {
            report[filled..filled + REPORT].copy_from_slice(&report_bytes(&done));
            filled += REPORT;
        }
    }
    filled
}

/// A bench card, as `tac_card` answers it.
pub fn card(memory: &mut [u8], image: &mut [u8], card: &[u8], report: &mut [u8]) -> u64 {
    on_copy(memory, |memory| card_in(memory, image, card, report))
}

/// The same, with memory moved into the machine and back.
pub fn card_in(memory: &mut Vec<u8>, image: &mut [u8], card: &[u8], report: &mut [u8]) -> u64 {
    let mut go = || {
        image::test(memory, image)?;
        let list = commands(card)?;
        report_holds(report, count_runs(&list))?;
        let mut machine = image::read(std::mem::take(memory), image);
        let filled = play(&mut machine, &list, report);
        image.copy_from_slice(&image::write(&machine));
        *memory = machine.memory;
        Ok(filled)
    };
    answered(go())
}

/// The report of a run of allowance 0, as `tac_view` answers it.
pub fn view(memory: &[u8], image: &[u8], report: &mut [u8]) -> u64 {
    let mut go = || {
        image::test(memory, image)?;
        report_holds(report, 1)?;
        let done = image::read(Vec::new(), image).run(0);
        report[..REPORT].copy_from_slice(&report_bytes(&done));
        Ok(REPORT)
    };
    answered(go())
}

/// A look at the fault record, as `tac_fault` answers it (document 02, request 1).
pub fn fault(image: &[u8]) -> u64 {
    let look = |()| image::read(Vec::new(), image).look() as usize;
    answered(image::test_image(image).map(look))
}

/// One line of the listing: ending, number or `-`, steps, states, PC, FLAG.
fn line(r: &[u8]) -> String {
    let ending = ["spent", "entered", "halted", "lost"][r[0] as usize];
    let number = if r[1] == 0xFF { "-".to_string() } else { r[1].to_string() };
    let word = |at: usize| u16::from_be_bytes([r[at], r[at + 1]]);
    let states = u32::from_be_bytes([r[4], r[5], r[6], r[7]]);
    format!("{ending} {number} {} {states} {:04X} {:04X}\n", word(2), word(8), word(10))
}

/// What `bench` prints for an answer and its report.
pub fn listing(answer: u64, report: &[u8]) -> String {
    let refusal = answer >> 32;
    if refusal != 0 {
        return format!("refused {refusal} {}\n", answer & 0xFFFF_FFFF);
    }
    let filled = &report[..answer as usize];
    let mut text = format!("runs {}\n", filled.len() / REPORT);
    for run in filled.chunks(REPORT) {
        text.push_str(&line(run));
    }
    text
}

/// `bench`: the card on zero memory, the image zero but FLAG 0040h.
pub fn bench(bytes: &[u8]) -> String {
    let mut memory = vec![0; MEMORY];
    let mut image = [0; image::IMAGE];
    image[image::FLAG + 1] = P as u8;
    let mut report = vec![0; REPORT * LONGEST / 3];
    let answer = card(&mut memory, &mut image, bytes, &mut report);
    listing(answer, &report)
}
