//! Frames without a fault: the reader must give their information back.

use super::runs::*;
use crate::bench::{Case, Requests};
use crate::frame;
use crate::random::Random;

pub const FAMILIES: [(&str, Requests); 7] = [
    ("frame reader: every length and flag count", lengths),
    ("frame reader: every octet alone", single_octets),
    ("frame reader: ones, zeros and flags", uniform),
    ("frame reader: FCS ending with five ones", five_ones),
    ("frame reader: longest frames", longest),
    ("frame reader: every sufficient room", rooms),
    ("frame reader: anything behind the bits", tails),
];

fn lengths(random: &mut Random) -> Vec<Case> {
    let mut cases = Vec::new();
    for length in 1..=64 {
        for (opening, closing) in flag_pairs() {
            for _ in 0..2 {
                let information = information(random, length);
                let bits = frame_bits(opening, &information, closing);
                cases.push(heard(random, &bits).due(0));
            }
        }
    }
    cases
}

fn single_octets(random: &mut Random) -> Vec<Case> {
    let case = |octet| {
        let (opening, closing) = flag_pair(random);
        heard(random, &frame_bits(opening, &[octet], closing)).due(0)
    };
    (0..=255).map(case).collect()
}

fn uniform(random: &mut Random) -> Vec<Case> {
    let mut cases = Vec::new();
    for octet in [0xFF, 0x00, 0x7E, 0x1F, 0xF8, 0x3F] {
        for length in 1..=64 {
            let (opening, closing) = flag_pair(random);
            let bits = frame_bits(opening, &vec![octet; length], closing);
            cases.push(heard(random, &bits).due(0));
        }
    }
    cases
}

fn five_ones(random: &mut Random) -> Vec<Case> {
    let mut cases = Vec::new();
    for length in 1..=64 {
        for _ in 0..4 {
            let information = ending_with_five_ones(random, length);
            let (opening, closing) = flag_pair(random);
            let bits = frame_bits(opening, &information, closing);
            cases.push(heard(random, &bits).due(0));
        }
    }
    cases
}

fn longest(random: &mut Random) -> Vec<Case> {
    let mut cases = Vec::new();
    for (opening, closing) in flag_pairs() {
        for information in [longest_information(), vec![0xFF; 64], random.octets(64)] {
            let bits = frame_bits(opening, &information, closing);
            cases.push(heard(random, &bits).due(0));
        }
    }
    cases
}

fn rooms(random: &mut Random) -> Vec<Case> {
    let mut cases = Vec::new();
    for room in 64..=MOST_LENT {
        for _ in 0..2 {
            let bits = any_frame(random);
            let run = lent(random, &bits);
            let out = random.octets(room);
            cases.push(reader_case(bits.len() as u32, &run, &out).due(0));
        }
    }
    cases
}

/// Runs from the bare octets to the longest that can be lent, with ones, a
/// second frame or anything else behind the bits.
fn tails(random: &mut Random) -> Vec<Case> {
    let mut cases = Vec::new();
    for _ in 0..150 {
        let bits = any_frame(random);
        let count = bits.len() as u32;
        let second = any_frame(random);
        let mut runs = vec![
            frame::packed(&bits),
            frame::packed(&[bits, second].concat()),
        ];
        for filler in [0xFF, 0x7E, random.octet()] {
            let mut run = runs[0].clone();
            let end = random.within(run.len(), MOST_LENT);
            run.resize(end, filler);
            runs.push(run);
        }
        cases.extend(runs.iter().map(|run| {
            let out = random.octets(64);
            reader_case(count, run, &out).due(0)
        }));
    }
    cases
}
