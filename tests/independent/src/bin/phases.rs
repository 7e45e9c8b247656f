//! Prints the phases of the probe's station: what docs/PHASES.md has from its
//! first table on.
//!
//! `phases PROBE` starts the program PROBE and walks every phase, event and
//! setting through it.

use std::path::PathBuf;
use std::process::ExitCode;

fn main() -> ExitCode {
    let arguments: Vec<PathBuf> = std::env::args_os().skip(1).map(PathBuf::from).collect();
    let [probe] = &arguments[..] else {
        eprintln!("usage: phases PROBE");
        return ExitCode::from(2);
    };
    match compare::phases_as_walked(probe) {
        Ok(page) => {
            print!("{page}");
            ExitCode::SUCCESS
        }
        Err(reason) => {
            eprintln!("{reason}");
            ExitCode::FAILURE
        }
    }
}
