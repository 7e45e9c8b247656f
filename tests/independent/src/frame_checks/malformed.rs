//! Requests to the frame operations that are no well-formed requests.

use super::runs::*;
use crate::bench::{Case, Check};
use crate::random::Random;
use crate::wire_checks::{self, TOO_LONG};

pub fn checks() -> Vec<Check> {
    vec![
        Check::of_cases("frame requests: cut short", cut_short),
        Check::of_cases("frame requests: octets left over", left_over),
        Check::of_cases("frame requests: lengths above the limit", above_limit),
    ]
}

/// A well-formed request to the reader and one to the writer.
fn samples(random: &mut Random) -> [Vec<u8>; 2] {
    let bits = any_frame(random);
    let run = lent(random, &bits);
    let reader = reader_request(bits.len() as u32, &run, &random.octets(64));
    [
        reader,
        writer_request(2, 1, &random.octets(5), &random.octets(88)),
    ]
}

fn well_formed(random: &mut Random) -> Vec<Case> {
    let bits = any_frame(random);
    vec![heard(random, &bits).due(0)]
}

fn cut_short(random: &mut Random) -> Vec<Case> {
    let requests = samples(random);
    wire_checks::between(random, wire_checks::cut_short(&requests), well_formed)
}

fn left_over(random: &mut Random) -> Vec<Case> {
    let requests = samples(random);
    let malformed = wire_checks::with_octets_left_over(random, &requests);
    wire_checks::between(random, malformed, well_formed)
}

/// Runs and buffers longer than 255 octets, all octets present, and lengths
/// with no octets behind them.
fn above_limit(random: &mut Random) -> Vec<Case> {
    let mut requests = Vec::new();
    for length in TOO_LONG {
        let long = random.octets(length);
        let short = random.octets(100);
        requests.push(reader_request(48, &long, &short));
        requests.push(reader_request(48, &short, &long));
        requests.push(reader_request(48, &long, &long));
        requests.push(writer_request(2, 1, &long, &short));
        requests.push(writer_request(2, 1, &short[..5], &long));
        requests.push(writer_request(2, 1, &long, &long));
    }
    requests.push(vec![1, 48, 0, 0, 0, 0xFF, 0xFF]);
    requests.push(vec![2, 2, 1, 0xFF, 0xFF]);
    let malformed = requests.into_iter().map(wire_checks::malformed).collect();
    wire_checks::between(random, malformed, well_formed)
}
