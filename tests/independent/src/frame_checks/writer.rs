//! The frame writer: what it writes, where it refuses, and whether the
//! probe's reader takes what the probe's writer wrote.

use super::runs::*;
use crate::bench::{same_replies, Bench, Case, Check, Requests};
use crate::random::Random;
use crate::wire::{self, Fields, Row};

pub const FAMILIES: [(&str, Requests); 10] = [
    ("frame writer: every length and flag count", lengths),
    ("frame writer: every octet alone", single_octets),
    ("frame writer: ones, zeros and flags", uniform),
    ("frame writer: FCS ending with five ones", five_ones),
    ("frame writer: longest frames", longest),
    ("frame writer: every wrong length", wrong_lengths),
    ("frame writer: every number of flags", flag_counts),
    ("frame writer: pairs of flag counts", flag_count_pairs),
    ("frame writer: every room", rooms),
    ("frame writer: several causes at once", several_causes),
];

pub fn checks() -> Vec<Check> {
    vec![Check::new(WRITE_THEN_READ, write_then_read)]
}

const WRITE_THEN_READ: &str = "frame writer, then frame reader";

/// Good flags and an output that is large enough and filled at random.
fn well_written(random: &mut Random, information: &[u8]) -> Case {
    let (opening, closing) = flag_pair(random);
    with_flags(random, opening, closing, information).due(0)
}

fn with_flags(random: &mut Random, opening: usize, closing: usize, information: &[u8]) -> Case {
    let room = random.pick(&[88, 88, 89, 90, 127, 128, 200, MOST_LENT]);
    let out = random.octets(room);
    writer_case(opening as u8, closing as u8, information, &out)
}

fn lengths(random: &mut Random) -> Vec<Case> {
    let mut cases = Vec::new();
    for length in 1..=64 {
        for (opening, closing) in flag_pairs() {
            for _ in 0..2 {
                let information = information(random, length);
                cases.push(with_flags(random, opening, closing, &information).due(0));
            }
        }
    }
    cases
}

fn single_octets(random: &mut Random) -> Vec<Case> {
    let octets = 0..=255;
    octets.map(|octet| well_written(random, &[octet])).collect()
}

fn uniform(random: &mut Random) -> Vec<Case> {
    let mut cases = Vec::new();
    for octet in [0xFF, 0x00, 0x7E, 0x1F, 0xF8, 0x3F] {
        for length in 1..=64 {
            cases.push(well_written(random, &vec![octet; length]));
        }
    }
    cases
}

fn five_ones(random: &mut Random) -> Vec<Case> {
    let mut cases = Vec::new();
    for length in 1..=64 {
        for _ in 0..4 {
            let information = ending_with_five_ones(random, length);
            cases.push(well_written(random, &information));
        }
    }
    cases
}

fn longest(random: &mut Random) -> Vec<Case> {
    let mut cases = Vec::new();
    for (opening, closing) in flag_pairs() {
        for information in [longest_information(), vec![0xFF; 64], random.octets(64)] {
            cases.push(with_flags(random, opening, closing, &information).due(0));
        }
    }
    cases
}

fn wrong_lengths(random: &mut Random) -> Vec<Case> {
    let mut cases = Vec::new();
    for length in [0; 20].into_iter().chain(65..=MOST_LENT) {
        let information = information(random, length);
        let (opening, closing) = flag_pair(random);
        cases.push(with_flags(random, opening, closing, &information).due(7));
    }
    cases
}

fn flags_due(opening: usize, closing: usize) -> u8 {
    let good = (2..=5).contains(&opening) && (1..=3).contains(&closing);
    if good {
        0
    } else {
        8
    }
}

fn flag_counts(random: &mut Random) -> Vec<Case> {
    let mut cases = Vec::new();
    for count in 0..=255 {
        let (opening, closing) = flag_pair(random);
        for (opening, closing) in [(count, closing), (opening, count)] {
            let length = random.within(1, 64);
            let information = information(random, length);
            let due = flags_due(opening, closing);
            cases.push(with_flags(random, opening, closing, &information).due(due));
        }
    }
    cases
}

fn flag_count_pairs(random: &mut Random) -> Vec<Case> {
    let counts = || (0..=7).chain([255]);
    let mut cases = Vec::new();
    for (opening, closing) in counts().flat_map(|opening| counts().map(move |c| (opening, c))) {
        for length in [1, 2, 30, 64] {
            let information = information(random, length);
            let due = flags_due(opening, closing);
            cases.push(with_flags(random, opening, closing, &information).due(due));
        }
    }
    cases
}

fn rooms(random: &mut Random) -> Vec<Case> {
    let mut cases = Vec::new();
    for room in 0..=MOST_LENT {
        for length in [1, random.within(2, 63), 64] {
            let information = information(random, length);
            let out = random.octets(room);
            let (opening, closing) = flag_pair(random);
            let case = writer_case(opening as u8, closing as u8, &information, &out);
            cases.push(case.due(if room < 88 { 1 } else { 0 }));
        }
    }
    cases
}

fn several_causes(random: &mut Random) -> Vec<Case> {
    let mut cases = Vec::new();
    for room in [0, 87, 88, 255] {
        for length in [0, 1, 64, 65, 255] {
            for (opening, closing) in [
                (2, 1),
                (5, 3),
                (1, 1),
                (6, 3),
                (2, 0),
                (3, 4),
                (0, 0),
                (255, 255),
            ] {
                let due = match (room, length) {
                    (..88, _) => 1,
                    (_, 0 | 65..) => 7,
                    _ => flags_due(opening, closing),
                };
                let information = random.octets(length);
                let out = random.octets(room);
                let case = writer_case(opening as u8, closing as u8, &information, &out);
                cases.push(case.due(due));
            }
        }
    }
    cases
}

/// The bit count and the whole output of a writer's reply of success.
pub fn run_written(reply: &[u8]) -> Result<(u32, &[u8]), String> {
    let mut fields = Fields::of(reply);
    let parts = (fields.u8(), fields.u16(), fields.run(), fields.is_empty());
    match parts {
        (Some(0), Some(bits), Some(out), true) => Ok((u32::from(bits), out)),
        _ => Err(format!(
            "the writer's reply {} is no success",
            wire::hex(reply)
        )),
    }
}

/// What the probe's writer makes goes to the probe's reader just as it is.
fn write_then_read(bench: &mut Bench) -> Result<(), String> {
    let random = &mut Random::named(WRITE_THEN_READ);
    let mut fields = Vec::new();
    let mut writing = Vec::new();
    for turn in 0..1000 {
        let information = information(random, 1 + turn % 64);
        let (opening, closing) = flag_pair(random);
        let out = random.octets(128);
        writing.push(writer_request(
            opening as u8,
            closing as u8,
            &information,
            &out,
        ));
        fields.push(information);
    }
    let mut reading = Vec::new();
    let mut expected = Vec::new();
    for (reply, information) in bench.ask(&writing)?.iter().zip(&fields) {
        let (bits, run) = run_written(reply)?;
        let lent = random.octets(70);
        reading.push(reader_request(bits, run, &lent));
        let out = [information, &lent[information.len()..]].concat();
        let success = Row::new().u8(0).u16(information.len() as u16);
        expected.push(success.run(&out).done());
    }
    let replies = bench.ask(&reading)?;
    same_replies(&reading, &expected, &replies)
}
