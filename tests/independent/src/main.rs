//! Compares the probe with an implementation written apart from it.
//!
//! `compare PROBE VECTORS` starts the program PROBE and reads the stored
//! vectors in the directory VECTORS.

use std::path::PathBuf;
use std::process::ExitCode;

fn main() -> ExitCode {
    let arguments: Vec<PathBuf> = std::env::args_os().skip(1).map(PathBuf::from).collect();
    let [probe, vectors] = &arguments[..] else {
        eprintln!("usage: compare PROBE VECTORS");
        return ExitCode::from(2);
    };
    if compare::compare(probe, vectors) {
        ExitCode::SUCCESS
    } else {
        ExitCode::FAILURE
    }
}
