//! The checks of the frame reader and the frame writer.

mod bounds;
mod causes;
mod content;
mod damage;
mod limits;
mod malformed;
pub mod runs;
mod vectors;
mod whole;
mod writer;

pub use runs::{flag_pair, reader_case, writer_case, writer_request};
pub use writer::run_written;

use crate::bench::{Check, Layer, Requests};
use std::path::Path;

/// All families of requests to the frame reader.
pub fn reader_families() -> impl Iterator<Item = &'static (&'static str, Requests)> {
    whole::FAMILIES
        .iter()
        .chain(&limits::FAMILIES)
        .chain(&bounds::FAMILIES)
        .chain(&content::FAMILIES)
        .chain(&causes::FAMILIES)
        .chain(&damage::FAMILIES)
}

/// All families of requests to the frame writer.
pub fn writer_families() -> impl Iterator<Item = &'static (&'static str, Requests)> {
    writer::FAMILIES.iter()
}

pub fn layer(vectors: &Path) -> Layer {
    let of_family = |&(name, family): &(&str, Requests)| Check::of_cases(name, family);
    let families = reader_families().chain(writer_families());
    let mut checks: Vec<Check> = families.map(of_family).collect();
    checks.extend(writer::checks());
    checks.extend(malformed::checks());
    checks.push(Check::new("frames: stored vectors", {
        let file = vectors.join("frames.txt");
        move |bench| vectors::check(bench, &file)
    }));
    Layer {
        checks,
        outcomes: runs::outcomes(),
        often_enough: 100,
    }
}
