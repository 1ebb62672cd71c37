//! The load of the motor (document 02, request 6): the busiest window of a run of tick records, with refusal 10.

use crate::card::answered;
use crate::image::Refusal;

/// "Each a byte, 1 if the motor was on (any other value counts as off)."
pub const ON: u8 = 1;
/// The most records of a window. The least is 1.
pub const WIDEST: u32 = 4_096;

/// Refusal 10: "a width of 0 or above 4,096".
pub fn test(width: u32) -> Result<(), Refusal> {
    if !(1..=WIDEST).contains(&width) {
        return Err(Refusal::plain(10));
    }
    Ok(())
}

/// The records of a window: "a run shorter than the width counts as a single window".
fn length(records: &[u8], width: u32) -> usize {
    records.len().min(width as usize)
}

/// The records on in each window, from the first to the last, as differences of those before its end and before its
/// start. An empty run has an empty window.
pub fn loads(records: &[u8], width: u32) -> Vec<u32> {
    let mut before = vec![0];
    for record in records {
        before.push(before[before.len() - 1] + (*record == ON) as u32);
    }
    before.iter().zip(&before[length(records, width)..]).map(|(start, end)| end - start).collect()
}

/// The same, each window by itself, record by record.
pub fn counted(records: &[u8], width: u32) -> Vec<u32> {
    if records.is_empty() {
        return vec![0];
    }
    let on = |window: &[u8]| window.iter().filter(|record| **record == ON).count() as u32;
    records.windows(length(records, width)).map(on).collect()
}

/// "A figure that no window of that many consecutive records exceeds" and that "may be too large, but never over twice the
/// busiest window's".
pub fn allowed(loads: &[u32], figure: u64) -> bool {
    let exceeds = |load: &u32| *load as u64 > figure;
    !loads.iter().any(exceeds) && loads.iter().any(|load| figure <= 2 * *load as u64)
}

/// The busiest window's own figure, as `tac_busiest` answers it.
pub fn busiest(records: &[u8], width: u32) -> u64 {
    answered(test(width).map(|()| loads(records, width).into_iter().fold(0, u32::max) as usize))
}
