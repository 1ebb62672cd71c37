//! Writes the stored cards and their listings to `crates/stored/stdin` and `crates/stored/stdout`.
//!
//! store [DIRECTORY]

use std::path::PathBuf;
use std::{env, fs, io};
use tac_tests::stored;

fn main() -> io::Result<()> {
    let usual = || PathBuf::from(env!("CARGO_MANIFEST_DIR")).join("../crates/stored");
    let directory = env::args_os().nth(1).map_or_else(usual, PathBuf::from);
    let cases = stored::all();
    let (input, output) = stored::files(&cases);
    fs::write(directory.join("stdin"), &input)?;
    fs::write(directory.join("stdout"), &output)?;
    println!("{} cases, {} bytes in, {} bytes out", cases.len(), input.len(), output.len());
    Ok(())
}
