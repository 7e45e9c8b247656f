//! An implementation of its own, written apart from the product, and the
//! programs that put it to use: the comparisons of the probe, of the functions
//! for C and of the listing program with it, and the tables and the diagram of
//! the station's phases as the probe walks them.
//! Each layer of the product has a module of its own with its checks.

mod bench;
mod bench_positions;
mod choice;
mod choice_checks;
#[cfg(feature = "exported")]
mod exported;
mod frame;
mod frame_checks;
mod listing;
mod listing_checks;
mod message;
mod message_checks;
mod part_checks;
mod phases;
mod probe;
mod random;
mod score;
mod station;
mod station_checks;
mod striking_checks;
mod tables;
mod wire;
mod wire_checks;

use bench::Bench;
use probe::Probe;
use std::path::Path;

/// Compares the probe with the stored vectors in this directory and with
/// the implementation here. True if nothing failed.
pub fn compare(probe: &Path, vectors: &Path) -> bool {
    let layers = vec![
        wire_checks::layer(),
        frame_checks::layer(vectors),
        message_checks::layer(),
        striking_checks::layer(),
        choice_checks::layer(),
        part_checks::layer(),
        station_checks::layer(),
        bench_positions::layer(),
    ];
    Bench::new(Probe::new(probe.to_path_buf())).run(layers)
}

/// Compares the functions of the static library with the implementation here.
/// True if nothing failed.
#[cfg(feature = "exported")]
pub fn compare_exported() -> bool {
    exported::compare()
}

/// Compares the listing program with the formatter here. True if nothing
/// failed.
pub fn compare_listings(listing: &Path) -> bool {
    listing_checks::compare(listing)
}

/// The phases of the probe's station as tables and a Mermaid state diagram.
pub fn phases_as_walked(probe: &Path) -> Result<String, String> {
    phases::tables_and_picture(&mut Probe::new(probe.to_path_buf()))
}
