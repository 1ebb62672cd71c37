//! The 12 bytes that a run reports ("Bench card and its listing").

use crate::emulator::{Ending, Report};

// Offsets of the report's fields.
pub const ENDING: usize = 0;
pub const NUMBER: usize = 1;
pub const STEPS: usize = 2;
pub const STATES: usize = 4;
pub const PC: usize = 8;
pub const FLAG: usize = 10;

/// Bytes of one run's report.
pub const REPORT: usize = 12;

/// The bytes: ending, number or FFh, steps(2), states(4), PC(2), FLAG(2).
pub fn report_bytes(report: &Report) -> [u8; REPORT] {
    let (ending, number) = match report.ending {
        Ending::Spent => (0, 0xFF),
        Ending::Entered(number) => (1, number),
        Ending::Halted => (2, 0xFF),
        Ending::Lost => (3, 0xFF),
    };
    let mut bytes = [0; REPORT];
    bytes[ENDING] = ending;
    bytes[NUMBER] = number;
    bytes[STEPS..STATES].copy_from_slice(&report.steps.to_be_bytes());
    bytes[STATES..PC].copy_from_slice(&report.states.to_be_bytes());
    bytes[PC..FLAG].copy_from_slice(&report.pc.to_be_bytes());
    bytes[FLAG..REPORT].copy_from_slice(&report.flag.to_be_bytes());
    bytes
}
