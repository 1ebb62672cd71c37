//! Demand 3, checked on two runs.

use crate::case::{hex, shrink_parts, smallest, RunCall};
use crate::emulator::{EXECUTE, I, MEMORY, P, READ, VALID, WRITE};
use crate::image::{self, IMAGE};
use crate::replay;
use crate::report::REPORT;

/// Two memories for one image and allowance.
#[derive(Clone, Debug, PartialEq, Eq)]
pub struct Pair {
    pub first: Vec<u8>,
    pub second: Vec<u8>,
    pub image: [u8; IMAGE],
    pub allowance: u16,
}

impl Pair {
    pub fn empty() -> Pair {
        Pair { first: Vec::new(), second: Vec::new(), image: [0; IMAGE], allowance: 0 }
    }
}

/// One run's buffers afterwards.
#[derive(Clone)]
pub struct After {
    memory: Vec<u8>,
    image: [u8; IMAGE],
    report: [u8; REPORT],
}

impl After {
    pub fn empty() -> After {
        After { memory: vec![0; MEMORY], image: [0; IMAGE], report: [0; REPORT] }
    }

    fn go(&mut self, run: RunCall, memory: &[u8], pair: &Pair) -> Result<(), String> {
        self.memory.copy_from_slice(memory);
        self.image = pair.image;
        self.report = [0; REPORT];
        match run(&mut self.memory, &mut self.image, pair.allowance, &mut self.report) {
            12 => Ok(()),
            answer => Err(format!("the run answered {answer:#x}")),
        }
    }
}

/// What a checked pair showed.
pub struct Seen {
    pub report: [u8; REPORT],
    /// The two handler addresses differ.
    pub other_handler: bool,
    /// The runs made differing bytes equal.
    pub overwrote: bool,
    /// Bytes of the memory changed apart from the pushed ones.
    pub stored: bool,
}

/// Both runs, and all that demand 3 says of them.
pub fn check(run: RunCall, pair: &Pair, a: &mut After, b: &mut After) -> Result<Seen, String> {
    a.go(run, &pair.first, pair)?;
    b.go(run, &pair.second, pair)?;
    if a.report != b.report {
        return Err(format!("the reports differ: {} and {}", hex(&a.report), hex(&b.report)));
    }
    // Time passes only by a card's command, and a user without I/O privilege reaches no port.
    if a.image[image::TIMERS..] != pair.image[image::TIMERS..] {
        return Err("a timer changed".to_string());
    }
    let entered = a.report[0] == 1;
    let other_handler = images(a, b, entered)?;
    let overwrote = memories(pair, a, b)?;
    let stored = unwritten(pair, &pair.first, a, entered)?;
    unwritten(pair, &pair.second, b, entered)?;
    Ok(Seen { report: a.report, other_handler, overwrote, stored })
}

/// Equal images, but for PC after an entry: there each is its own handler's address.
fn images(a: &After, b: &After, entered: bool) -> Result<bool, String> {
    let (mut x, mut y) = (a.image, b.image);
    if entered {
        for after in [a, b] {
            let vector = 0xFFE0 + 2 * after.report[1] as usize;
            if after.image[image::PC..image::PC + 2] != after.memory[vector..vector + 2] {
                return Err("PC is not the handler's address after an entry".to_string());
            }
        }
        x[image::PC..image::PC + 2].fill(0);
        y[image::PC..image::PC + 2].fill(0);
    }
    match (0..IMAGE).find(|&k| x[k] != y[k]) {
        Some(at) => Err(format!("the images differ at offset {at}: {:02X} and {:02X}", x[at], y[at])),
        None => Ok(a.image != b.image),
    }
}

/// The memories differ only where they did before. True if they differ at fewer bytes.
fn memories(pair: &Pair, a: &After, b: &After) -> Result<bool, String> {
    let mut fewer = false;
    for start in (0..MEMORY).step_by(256) {
        let frame = start..start + 256;
        let (p, q) = (&pair.first[frame.clone()], &pair.second[frame.clone()]);
        let (x, y) = (&a.memory[frame.clone()], &b.memory[frame]);
        if p == q && x == y {
            continue;
        }
        for k in 0..256 {
            if p[k] == q[k] && x[k] != y[k] {
                return Err(format!("the memories differ at {:04X}h and did not before", start + k));
            }
            fewer |= p[k] != q[k] && x[k] == y[k];
        }
    }
    Ok(fewer)
}

/// The frames to which some valid entry of the image's TLB gives one of the rights.
fn frames_with(image: &[u8; IMAGE], rights: u32) -> [bool; 256] {
    let mut frames = [false; 256];
    for bytes in image[image::TLB..image::TIMERS].chunks(3) {
        let entry = u32::from_be_bytes([0, bytes[0], bytes[1], bytes[2]]);
        if entry & VALID != 0 && entry & rights != 0 {
            frames[entry as u8 as usize] = true;
        }
    }
    frames
}

/// What demand 3 asks of a pair: user mode without I/O privilege, MMU on, and memories of 64 KiB that differ only in
/// frames with neither read nor execute right.
pub fn asked(pair: &Pair) -> bool {
    let flag = u16::from_be_bytes([pair.image[image::FLAG], pair.image[image::FLAG + 1]]);
    let open = frames_with(&pair.image, READ | EXECUTE);
    let alike = |frame: usize| pair.first[frame * 256..][..256] == pair.second[frame * 256..][..256];
    image::test(&pair.first, &pair.image).is_ok()
        && pair.second.len() == MEMORY
        && flag & (P | I) == 0
        && pair.image[image::MMU] == 1
        && (0..256).all(|frame| !open[frame] || alike(frame))
}

/// Frames without write right are as before, save the four pushed bytes after
/// an entry. True if another byte changed.
fn unwritten(pair: &Pair, before: &[u8], after: &After, entered: bool) -> Result<bool, String> {
    let writable = frames_with(&pair.image, WRITE);
    let ssp = u16::from_be_bytes([pair.image[image::SSP], pair.image[image::SSP + 1]]);
    let mut stored = false;
    for (frame, &may) in writable.iter().enumerate() {
        let part = frame * 256..frame * 256 + 256;
        if before[part.clone()] == after.memory[part.clone()] {
            continue;
        }
        for at in part {
            let pushed = entered && (1..=4).contains(&ssp.wrapping_sub(at as u16));
            if before[at] != after.memory[at] && !pushed {
                if !may {
                    return Err(format!("{at:04X}h changed in a frame without write right"));
                }
                stored = true;
            }
        }
    }
    Ok(stored)
}

/// A smaller pair that still fails.
pub fn shrink(run: RunCall, pair: &Pair) -> Pair {
    let (mut a, mut b) = (After::empty(), After::empty());
    let mut fails = |pair: &Pair| if asked(pair) { check(run, pair, &mut a, &mut b).err() } else { None };
    let mut pair = pair.clone();
    let least = smallest(pair.allowance, |allowance| fails(&Pair { allowance, ..pair.clone() }).is_some());
    if fails(&Pair { allowance: least, ..pair.clone() }).is_some() {
        pair.allowance = least;
    }
    // The memories are made equal where they can be, then zero, and the image zero.
    shrink_parts(MEMORY, |part| {
        let old = pair.second[part.clone()].to_vec();
        pair.second[part.clone()].copy_from_slice(&pair.first[part.clone()]);
        if old != pair.first[part.clone()] && fails(&pair).is_none() {
            pair.second[part].copy_from_slice(&old);
        }
    });
    shrink_parts(MEMORY, |part| {
        let (x, y) = (pair.first[part.clone()].to_vec(), pair.second[part.clone()].to_vec());
        pair.first[part.clone()].fill(0);
        pair.second[part.clone()].fill(0);
        if x.iter().chain(&y).any(|byte| *byte != 0) && fails(&pair).is_none() {
            pair.first[part.clone()].copy_from_slice(&x);
            pair.second[part].copy_from_slice(&y);
        }
    });
    shrink_parts(IMAGE, |part| {
        let old = pair.image[part.clone()].to_vec();
        pair.image[part.clone()].fill(0);
        if old.iter().any(|byte| *byte != 0) && fails(&pair).is_none() {
            pair.image[part].copy_from_slice(&old);
        }
    });
    pair
}

/// The pair, both runs afterwards and what fails, for a reader.
pub fn describe(run: RunCall, pair: &Pair) -> String {
    let (mut a, mut b) = (After::empty(), After::empty());
    let what = match check(run, pair, &mut a, &mut b) {
        Ok(_) => "demand 3 holds".to_string(),
        Err(what) => what,
    };
    let mut text = replay::pair_text(pair);
    for (name, after) in [("memory", &a), ("other", &b)] {
        text += &format!("on {name}:\n  image  {}\n  report {}\n", hex(&after.image), hex(&after.report));
    }
    text += &what;
    text.push('\n');
    for (name, card) in ["memory", "other"].into_iter().zip(replay::pair_as_cards(pair).into_iter().flatten()) {
        text += &format!("the run on {name} as a card for bench:\n{}", replay::card_lines(&card));
    }
    text
}
