//! The C interface of libtac.a, with the same shape as `crate::card`, `crate::winder` and `crate::load`.

use crate::case::Emulator;
use crate::winder::Settings;

/// The library.
pub const LIBRARY: Emulator = Emulator { name: "libtac", run, card, view, fault, wind, busiest };

mod raw {
    extern "C" {
        pub fn tac_run(
            memory: *mut u8,
            memory_len: usize,
            image: *mut u8,
            image_len: usize,
            allowance: u16,
            report: *mut u8,
            report_len: usize,
        ) -> u64;

        pub fn tac_card(
            memory: *mut u8,
            memory_len: usize,
            image: *mut u8,
            image_len: usize,
            card: *const u8,
            card_len: usize,
            report: *mut u8,
            report_len: usize,
        ) -> u64;

        pub fn tac_view(
            memory: *const u8,
            memory_len: usize,
            image: *const u8,
            image_len: usize,
            report: *mut u8,
            report_len: usize,
        ) -> u64;

        pub fn tac_fault(image: *const u8, image_len: usize) -> u64;

        pub fn tac_wind(
            memory: *mut u8,
            memory_len: usize,
            image: *mut u8,
            image_len: usize,
            turns: u32,
            notches: u32,
            rundown: u32,
            ticks: u32,
            steps: u32,
            places: *mut u8,
            places_len: usize,
        ) -> u64;

        pub fn tac_busiest(records: *const u8, records_len: usize, width: u32) -> u64;
    }
}

// Slices are never null and never overlap while one of them is lent to change.

pub fn run(memory: &mut [u8], image: &mut [u8], allowance: u16, report: &mut [u8]) -> u64 {
    unsafe {
        raw::tac_run(
            memory.as_mut_ptr(),
            memory.len(),
            image.as_mut_ptr(),
            image.len(),
            allowance,
            report.as_mut_ptr(),
            report.len(),
        )
    }
}

pub fn card(memory: &mut [u8], image: &mut [u8], card: &[u8], report: &mut [u8]) -> u64 {
    unsafe {
        raw::tac_card(
            memory.as_mut_ptr(),
            memory.len(),
            image.as_mut_ptr(),
            image.len(),
            card.as_ptr(),
            card.len(),
            report.as_mut_ptr(),
            report.len(),
        )
    }
}

pub fn view(memory: &[u8], image: &[u8], report: &mut [u8]) -> u64 {
    unsafe {
        raw::tac_view(memory.as_ptr(), memory.len(), image.as_ptr(), image.len(), report.as_mut_ptr(), report.len())
    }
}

pub fn fault(image: &[u8]) -> u64 {
    unsafe { raw::tac_fault(image.as_ptr(), image.len()) }
}

pub fn wind(memory: &mut [u8], image: &mut [u8], settings: &Settings, places: &mut [u8]) -> u64 {
    unsafe {
        raw::tac_wind(
            memory.as_mut_ptr(),
            memory.len(),
            image.as_mut_ptr(),
            image.len(),
            settings.turns,
            settings.notches,
            settings.rundown,
            settings.ticks,
            settings.steps,
            places.as_mut_ptr(),
            places.len(),
        )
    }
}

pub fn busiest(records: &[u8], width: u32) -> u64 {
    unsafe { raw::tac_busiest(records.as_ptr(), records.len(), width) }
}
