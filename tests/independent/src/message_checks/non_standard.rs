//! Messages with NS: well formed, malformed, missing, and not announced.

use super::drawn::non_standard_field;
use super::layout::Layout;
use super::requests::*;
use crate::bench::Case;
use crate::message::Code;
use crate::random::Random;

pub const FAMILIES: [(&str, Family); 8] = [
    ("NS of every length", lengths),
    ("NS of several blocks", several_blocks),
    ("NS with every length octet", length_octets),
    ("NS ending in a wrong place", wrong_ends),
    ("one NS block of several wrong", wrong_blocks),
    ("NS announced but missing", missing),
    ("NS not announced", not_announced),
    ("NS announced by another bit", other_bits),
];

/// The most octets NS may have, its length octets included.
const MOST_NON_STANDARD: usize = MOST_OCTETS - 5;

/// A message with this NS, well formed or not, behind any tree that leaves
/// enough octets for it.
fn case(random: &mut Random, put: Put, non_standard: Vec<u8>) -> Case {
    let depth = random.within(1, 3);
    let length = MOST_OCTETS - non_standard.len();
    let layout = Layout::within(random, depth, length);
    put(random, &layout.announcing(non_standard).octets())
}

/// A block whose length octet tells the truth.
fn true_block(random: &mut Random, length: usize) -> Vec<u8> {
    [vec![length as u8], random.octets(length)].concat()
}

fn lengths(random: &mut Random, put: Put) -> Vec<Case> {
    let mut cases = Vec::new();
    for length in 2..MOST_NON_STANDARD {
        for _ in 0..6 {
            let block = true_block(random, length);
            cases.push(case(random, put, block).due(0));
        }
    }
    cases
}

fn several_blocks(random: &mut Random, put: Put) -> Vec<Case> {
    let mut cases = Vec::new();
    for length in 6..=MOST_NON_STANDARD {
        for _ in 0..6 {
            let field = non_standard_field(random, length);
            cases.push(case(random, put, field).due(0));
        }
        let shortest: Vec<u8> = (0..length / 3)
            .flat_map(|_| true_block(random, 2))
            .collect();
        cases.push(case(random, put, shortest).due(0));
    }
    cases
}

/// Every length octet before so many octets. Smaller lengths than that may
/// happen to leave well-formed blocks.
fn length_octets(random: &mut Random, put: Put) -> Vec<Case> {
    let mut cases = Vec::new();
    for length in 0..=255 {
        for count in [0, 1, 2, 3, 5, 20, 40, 57, 58] {
            let block = [vec![length as u8], random.octets(count)].concat();
            let case = case(random, put, block);
            cases.push(match (length, count) {
                (0 | 1, _) => case.due(4),
                _ if length > count => case.due(4),
                _ if length == count => case.due(0),
                _ => case,
            });
        }
    }
    cases
}

/// Blocks of which the last has one to three octets too few or one too many.
fn wrong_ends(random: &mut Random, put: Put) -> Vec<Case> {
    let mut cases = Vec::new();
    for length in 3..MOST_NON_STANDARD {
        for fewer in 1..=3.min(length) {
            let mut field = non_standard_field(random, length);
            field.truncate(length - fewer);
            cases.push(case(random, put, field));
        }
        let one_more = [non_standard_field(random, length), random.octets(1)].concat();
        cases.push(case(random, put, one_more).due(4));
    }
    cases
}

/// Several good blocks among which a block of length 0 or 1 stands, or one
/// that runs past the end.
fn wrong_blocks(random: &mut Random, put: Put) -> Vec<Case> {
    let mut cases = Vec::new();
    for turn in 0..300 {
        let lengths = [random.within(3, 20), random.within(3, 20)];
        let [before, behind] = lengths.map(|length| non_standard_field(random, length));
        let past_the_end = random.within(behind.len() + 1, 255) as u8;
        let wrong = match turn % 3 {
            0 => vec![0],
            1 => vec![1, random.octet()],
            _ => vec![past_the_end],
        };
        cases.push(case(random, put, [before, wrong, behind].concat()).due(4));
    }
    cases
}

fn missing(random: &mut Random, put: Put) -> Vec<Case> {
    (0..300)
        .map(|_| case(random, put, Vec::new()).due(4))
        .collect()
}

fn not_announced(random: &mut Random, put: Put) -> Vec<Case> {
    let mut cases = Vec::new();
    for length in 1..=MOST_NON_STANDARD {
        for _ in 0..4 {
            let layout = Layout::within(random, 3, MOST_OCTETS - length);
            let behind = match length {
                ..3 => random.octets(length),
                _ => non_standard_field(random, length),
            };
            let octets = [layout.octets(), behind].concat();
            cases.push(put(random, &octets).due(4));
        }
    }
    cases
}

/// Position 14 of I, position 7 of S and others that are the seventh bit of
/// an octet, or seventh of a block, announce nothing.
fn other_bits(random: &mut Random, put: Put) -> Vec<Case> {
    let mut cases = Vec::new();
    for code in [
        Code::new(1, 0, 0, 14),
        Code::new(1, 0, 0, 21),
        Code::new(1, 7, 0, 0),
        Code::new(1, 7, 0, 7),
        Code::new(1, 1, 7, 7),
        Code::new(2, 0, 0, 7),
        Code::new(2, 7, 0, 7),
    ] {
        let announcing_nothing = Layout::with(random, code);
        let octets = announcing_nothing.octets();
        cases.push(put(random, &octets).due(0));
        for length in [3, 4, 10, 30] {
            let field = non_standard_field(random, length);
            let not_announced = [&octets[..], &field].concat();
            cases.push(put(random, &not_announced).due(4));
            let announced = announcing_nothing.clone().announcing(field);
            cases.push(put(random, &announced.octets()).due(0));
        }
    }
    cases
}
