//! Tests of this package's own emulator against the papers.

mod cards;
mod common;
mod decoding;
mod examples;
mod files;
mod following;
mod layout;
mod load;
mod looks;
mod random;
mod refusals;
mod replay;
mod rulings;
mod scenarios;
mod timers;
mod winder;
