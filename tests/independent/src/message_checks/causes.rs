//! Octets that an operation on a message must refuse: of a wrong length, of
//! an unknown type, broken, and several of that at once.

use super::layout::Layout;
use super::requests::*;
use crate::bench::Case;
use crate::random::Random;
use crate::wire::MOST_LENT;

pub const FAMILIES: [(&str, Family); 1] = [("every wrong length", wrong_lengths)];

/// No octets, and messages that would be well formed if they were not longer
/// than 64 octets.
fn wrong_lengths(random: &mut Random, put: Put) -> Vec<Case> {
    let mut cases: Vec<Case> = (0..40).map(|_| put(random, &[]).due(2)).collect();
    for length in MOST_OCTETS + 1..=MOST_LENT {
        let layout = Layout::any(random);
        let longer = layout.stretched(random, length, |random| random.octet() & 0x3F);
        cases.push(put(random, &longer.octets()).due(2));
        let octets = random.octets(length);
        cases.push(put(random, &octets).due(2));
    }
    cases
}

/// Octets that are of a wrong length, of an unknown type and broken, or only
/// some of that, with the number due to them.
fn with_causes(random: &mut Random, causes: [bool; 3]) -> (Vec<u8>, u8) {
    let [wrong_length, unknown, broken] = causes;
    let mut octets = Layout::any(random).octets();
    if broken {
        octets.truncate(random.within(1, 4));
    }
    if unknown {
        octets[0] = octets[0] & 0xF0 | random.pick(&UNKNOWN);
    }
    if wrong_length {
        let length = random.pick(&[0, 65, 66, 100, 128, MOST_LENT]);
        octets.resize(length, 0x80);
    }
    let first = causes.into_iter().zip(2..).find(|(holds, _)| *holds);
    (octets, first.map_or(0, |(_, number)| number))
}

/// Octets for each set of causes, with the number due to them.
pub fn all_sets(random: &mut Random) -> Vec<(Vec<u8>, u8)> {
    let causes = |set: usize| [0, 1, 2].map(|place| set >> place & 1 == 1);
    (0..8).map(|set| with_causes(random, causes(set))).collect()
}
