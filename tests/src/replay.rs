//! Cases, pairs and runs with looks as text that `compare --replay` reads, and cases as cards for `bench`.
//!
//! The text stands between a line that begins with `case` and the line `end`; other lines around it are passed over:
//!
//! ```text
//! case run 12          or: case view, case fault, case card 0400..., case run 12 looks 34, case pair 300,
//!                      case wind 1 2 3 4 5 with turns, notches, rundown, ticks and steps, case busiest 40 with a width
//! image 0000...        the image's bytes
//! report EEEE...       the bytes of the report, the places or the records; a pair has none
//! memory 65536         its length; zero but for the lines below
//! at 1200 0D051D02     bytes from an address on
//! other 65536          a pair's second memory, likewise
//! end
//! ```

use crate::assemble::Card;
use crate::card::{self, LONGEST};
use crate::case::{hex, Call, Case};
use crate::emulator::{MEMORY, P, RUNNING};
use crate::image;
use crate::isolation::Pair;
use crate::looks::Looks;
use crate::report::REPORT;
use crate::timer::Timer;
use crate::winder::Settings;
use std::fmt::Write;
use std::str::FromStr;

#[derive(Clone, Debug)]
pub enum Replay {
    Case(Case),
    Looks(Looks),
    Pair(Pair),
}

/// The parts of a memory that are not zero, one on a line.
fn memory_text(name: &str, memory: &[u8]) -> String {
    let mut text = format!("{name} {}\n", memory.len());
    let mut at = 0;
    while at < memory.len() {
        if memory[at] == 0 {
            at += 1;
            continue;
        }
        let start = at & !1;
        let mut end = at + 1;
        while end < memory.len() && end - start < 32 && memory[end..memory.len().min(end + 4)].iter().any(|b| *b != 0) {
            end += 1;
        }
        let _ = writeln!(text, "at {start:04X} {}", hex(&memory[start..end]));
        at = end;
    }
    text
}

/// A case with its call, and with what stands behind the call.
fn text_with(case: &Case, behind: &str) -> String {
    let call = match &case.call {
        Call::Run(allowance) => format!("run {allowance}"),
        Call::View => "view".to_string(),
        Call::Card(card) => format!("card {}", hex(card)),
        Call::Fault => "fault".to_string(),
        Call::Wind(settings) => format!("wind {}", settings.numbers().map(|number| number.to_string()).join(" ")),
        Call::Busiest(width) => format!("busiest {width}"),
    };
    let memory = memory_text("memory", &case.memory);
    format!("case {call}{behind}\nimage {}\nreport {}\n{memory}end\n", hex(&case.image), hex(&case.report))
}

pub fn case_text(case: &Case) -> String {
    text_with(case, "")
}

pub fn looks_text(looks: &Looks) -> String {
    text_with(&looks.start, &format!(" looks {}", looks.more))
}

pub fn pair_text(pair: &Pair) -> String {
    let memories = [("memory", &pair.first), ("other", &pair.second)].map(|(name, memory)| memory_text(name, memory));
    format!("case pair {}\nimage {}\n{}end\n", pair.allowance, hex(&pair.image), memories.concat())
}

fn bytes_of(text: &str) -> Result<Vec<u8>, String> {
    let digits: Option<Vec<u8>> = text.chars().map(|c| c.to_digit(16).map(|d| d as u8)).collect();
    match digits {
        Some(digits) if digits.len() % 2 == 0 => Ok(digits.chunks(2).map(|d| d[0] * 16 + d[1]).collect()),
        _ => Err(format!("no bytes: {text}")),
    }
}

/// A number within its type.
fn number<N: FromStr>(text: &str) -> Result<N, String> {
    text.parse().map_err(|_| format!("no number: {text}"))
}

/// The five numbers of a simulation.
fn settings(numbers: &[&str]) -> Result<Settings, String> {
    let list: Vec<u32> = numbers.iter().map(|text| number(text)).collect::<Result<_, _>>()?;
    list.try_into().map(Settings::of).map_err(|_| format!("no settings: {}", numbers.join(" ")))
}

/// Reads the first case in a text.
pub fn parse(text: &str) -> Result<Replay, String> {
    let lines = text.lines().map(|line| line.split_whitespace().collect::<Vec<&str>>());
    let mut lines = lines.skip_while(|words| words.first() != Some(&"case"));
    let head = lines.next().ok_or("there is no line that begins with case")?;
    let [mut image, mut report] = [Vec::new(), Vec::new()];
    let mut memories: Vec<Vec<u8>> = Vec::new();
    for words in lines.take_while(|words| words.first() != Some(&"end")) {
        match words[..] {
            ["image", bytes] => image = bytes_of(bytes)?,
            ["report", bytes] => report = bytes_of(bytes)?,
            ["image"] | ["report"] | [] => {}
            ["memory" | "other", length] => memories.push(vec![0; number(length)?]),
            ["at", address, bytes] => {
                let start = usize::from_str_radix(address, 16).map_err(|_| format!("no address: {address}"))?;
                let bytes = bytes_of(bytes)?;
                let place = memories.last_mut().and_then(|memory| memory.get_mut(start..start + bytes.len()));
                place.ok_or("bytes outside a memory")?.copy_from_slice(&bytes);
            }
            _ => return Err(format!("not understood: {}", words.join(" "))),
        }
    }
    let mut memories = memories.into_iter();
    let mut memory = || memories.next().ok_or("a memory is missing");
    let call = match head[1..] {
        ["run", n] => Call::Run(number(n)?),
        ["view"] => Call::View,
        ["fault"] => Call::Fault,
        ["wind", ref numbers @ ..] => Call::Wind(settings(numbers)?),
        ["busiest", width] => Call::Busiest(number(width)?),
        ["card"] => Call::Card(Vec::new()),
        ["card", bytes] => Call::Card(bytes_of(bytes)?),
        ["run", n, "looks", more] => {
            let start = Case { memory: memory()?, image, report, call: Call::Run(number(n)?) };
            return Ok(Replay::Looks(Looks { start, more: number(more)? }));
        }
        ["pair", n] => {
            let image = image.try_into().map_err(|_| format!("a pair's image has {} bytes", image::IMAGE))?;
            return Ok(Replay::Pair(Pair { allowance: number(n)?, image, first: memory()?, second: memory()? }));
        }
        _ => return Err(format!("no call: {}", head.join(" "))),
    };
    Ok(Replay::Case(Case { memory: memory()?, image, report, call }))
}

/// A card that makes this memory and image from those of `bench`, if there is one: no command sets the output byte, the
/// condition, what faults left and the timers.
fn setup(memory: &[u8], image: &[u8]) -> Option<Card> {
    image::test(memory, image).ok()?;
    let m = image::read(Vec::new(), image);
    let unset = (m.output, m.condition, m.violation, m.cause, m.missed) == (0, RUNNING, 0, 0, 0);
    if !unset || m.timers != [Timer::default(); 2] {
        return None;
    }
    let mut card = Card::new();
    for (at, &byte) in memory.iter().enumerate().filter(|(_, byte)| **byte != 0) {
        card = card.byte(at as u16, byte);
    }
    let registers = m.regs.into_iter().chain([m.ssp, m.usp, m.pc]);
    for (n, value) in registers.enumerate().filter(|(_, value)| *value != 0) {
        card = card.register(n as u8, value);
    }
    for (k, &bits) in m.tlb.iter().enumerate().filter(|(_, bits)| **bits != 0) {
        card = card.entry(k as u8, bits);
    }
    if m.pending != 0 || m.input != 0 {
        card = card.lines(m.pending, m.input);
    }
    if m.mmu_on {
        card = card.mmu(1);
    }
    if m.flag != P {
        card = card.flag(m.flag);
    }
    Some(card)
}

/// A card for `bench` that does what the case does, if there is one.
pub fn as_card(case: &Case) -> Option<Vec<u8>> {
    let setup = setup(&case.memory, &case.image)?;
    let runs = |list: Vec<_>| card::count_runs(&list);
    let (card, needed) = match &case.call {
        Call::Run(allowance) => (setup.run(*allowance), 1),
        Call::View => (setup.run(0), 1),
        Call::Card(bytes) => match card::commands(bytes) {
            Ok(list) => (setup.raw(bytes), runs(list)),
            // A refusal's position would not be the same behind other commands.
            Err(_) if setup.clone().bytes().is_empty() => return Some(bytes.clone()),
            Err(_) => return None,
        },
        // No command looks, winds or counts records.
        Call::Fault | Call::Wind(_) | Call::Busiest(_) => return None,
    };
    let bytes = card.bytes();
    (bytes.len() <= LONGEST && case.report.len() >= REPORT * needed).then_some(bytes)
}

/// Both cards of a pair, if there are any.
pub fn pair_as_cards(pair: &Pair) -> Option<[Vec<u8>; 2]> {
    let card = |memory: &[u8]| {
        let bytes = setup(memory, &pair.image)?.run(pair.allowance).bytes();
        (bytes.len() <= LONGEST && memory.len() == MEMORY).then_some(bytes)
    };
    Some([card(&pair.first)?, card(&pair.second)?])
}

/// A card's bytes in lines, one command to a line, as the texts of the examples are.
pub fn card_lines(card: &[u8]) -> String {
    let mut text = String::new();
    let mut rest = card;
    while let Some(&first) = rest.first() {
        let length = (1 + card::operands(first).unwrap_or(0)).min(rest.len());
        let bytes: Vec<String> = rest[..length].iter().map(|byte| format!("{byte:02X}")).collect();
        let _ = writeln!(text, "{}", bytes.join(" "));
        rest = &rest[length..];
    }
    text
}
