//! Another emulator of the TaC machine, made from the papers, and the tests
//! that set it beside the library `libtac.a`.

/// An enum of things that can be counted, and a list of their names.
macro_rules! named {
    ($things:ident $names:ident: $($thing:ident $name:literal)*) => {
        #[derive(Clone, Copy, Debug, PartialEq, Eq)]
        enum $things { $($thing),* }
        const $names: &[&str] = &[$($name),*];
    };
}

pub mod assemble;
pub mod card;
pub mod case;
pub mod emulator;
pub mod generate;
pub mod image;
pub mod isolation;
pub mod load;
pub mod looks;
pub mod met;
pub mod program;
pub mod reach;
pub mod replay;
pub mod report;
pub mod rng;
pub mod sample;
pub mod scenarios;
pub mod scene;
pub mod stored;
pub mod stretches;
pub mod timer;
pub mod winder;
pub mod wound;

#[cfg(feature = "library")]
pub mod ffi;
