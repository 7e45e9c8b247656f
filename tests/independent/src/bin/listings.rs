//! Compares the listing program with a formatter written apart from it.
//!
//! `listings LISTING` starts the program LISTING once for each input.

use std::path::PathBuf;
use std::process::ExitCode;

fn main() -> ExitCode {
    let arguments: Vec<PathBuf> = std::env::args_os().skip(1).map(PathBuf::from).collect();
    let [listing] = &arguments[..] else {
        eprintln!("usage: listings LISTING");
        return ExitCode::from(2);
    };
    if compare::compare_listings(listing) {
        ExitCode::SUCCESS
    } else {
        ExitCode::FAILURE
    }
}
