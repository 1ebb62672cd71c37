//! Finds libtac.a for the feature `library`; without it nothing is linked.

use std::env;
use std::path::Path;
use std::process::exit;

fn main() {
    println!("cargo:rerun-if-changed=build.rs");
    println!("cargo:rerun-if-env-changed=TAC_LIB_DIR");
    if env::var_os("CARGO_FEATURE_LIBRARY").is_none() {
        return;
    }
    let Ok(directory) = env::var("TAC_LIB_DIR") else {
        stop("TAC_LIB_DIR is not set: set it to the directory that holds libtac.a");
    };
    let archive = Path::new(&directory).join("libtac.a");
    if !archive.is_absolute() {
        stop(&format!("TAC_LIB_DIR must be an absolute path, not {directory}"));
    }
    if !archive.is_file() {
        stop(&format!("there is no libtac.a in TAC_LIB_DIR ({directory})"));
    }
    println!("cargo:rerun-if-changed={}", archive.display());
    println!("cargo:rustc-link-search=native={directory}");
    println!("cargo:rustc-link-lib=static=tac");
}

fn stop(message: &str) -> ! {
    println!("cargo:warning={message}");
    eprintln!("error: {message}");
    exit(1)
}
