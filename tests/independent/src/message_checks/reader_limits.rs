//! The reader's refusal 1, and several causes of refusal at once.

use super::causes;
use super::layout::Layout;
use super::requests::*;
use crate::bench::{Case, Requests};
use crate::random::Random;

pub const FAMILIES: [(&str, Requests); 2] = [
    ("message reader: every room", rooms),
    ("message reader: several causes at once", several),
];

fn rooms(random: &mut Random) -> Vec<Case> {
    let mut cases = Vec::new();
    for room in 0..=MOST_NUMBERS {
        let octets = Layout::any(random).octets();
        let due = if room < LIST_ROOM { 1 } else { 0 };
        cases.push(reader_case(room, &octets).due(due));
    }
    cases
}

fn several(random: &mut Random) -> Vec<Case> {
    let mut cases = Vec::new();
    for room in [0, 1, 64, 446, 447, 448, 449, 511, 512] {
        for _ in 0..6 {
            for (octets, number) in causes::all_sets(random) {
                let due = if room < LIST_ROOM { 1 } else { number };
                cases.push(reader_case(room, &octets).due(due));
            }
        }
    }
    cases
}
