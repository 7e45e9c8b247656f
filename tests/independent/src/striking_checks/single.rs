//! Messages with a single parameter: each position of each block, named or
//! not.

use super::requests::put;
use crate::bench::{Case, Check};
use crate::message::Code;
use crate::message_checks::layout::Layout;
use crate::message_checks::requests::WITH_FIELDS;
use crate::random::Random;

pub fn checks() -> Vec<Check> {
    vec![
        Check::of_cases("striking: each position of level 1", level_1),
        Check::of_cases("striking: each position of level 2", level_2),
        Check::of_cases("striking: each position of level 3", level_3),
    ]
}

/// More positions than any table has.
const POSITIONS: std::ops::RangeInclusive<u32> = 1..=40;

/// The smallest MS, CL and CLR with the parameter.
fn of_each_type(random: &mut Random, code: Code) -> [Case; 3] {
    let layout = Layout::with(random, code);
    WITH_FIELDS.map(|kind| {
        let typed = Layout {
            kind,
            ..layout.clone()
        };
        put(random, &typed.octets()).due(0)
    })
}

fn all(random: &mut Random, codes: impl Iterator<Item = Code>) -> Vec<Case> {
    codes.flat_map(|code| of_each_type(random, code)).collect()
}

fn level_1(random: &mut Random) -> Vec<Case> {
    let codes = |n| {
        [
            Code::new(1, 0, 0, n),
            Code::new(1, n, 0, 0),
            Code::new(2, 0, 0, n),
            Code::new(2, n, 0, 0),
        ]
    };
    all(random, POSITIONS.flat_map(codes))
}

/// NPar(2) and SPar(2) below each SPar(1).
fn level_2(random: &mut Random) -> Vec<Case> {
    let codes = |s| {
        let in_block = move |position| {
            [
                Code::new(1, s, 0, position),
                Code::new(1, s, position, 0),
                Code::new(2, s, 0, position),
                Code::new(2, s, position, 0),
            ]
        };
        POSITIONS.flat_map(in_block)
    };
    all(random, POSITIONS.flat_map(codes))
}

/// NPar(3) below the first SPar(2)s of the first SPar(1)s, which are more than
/// the tables have.
fn level_3(random: &mut Random) -> Vec<Case> {
    let below = |s, t| POSITIONS.flat_map(move |n| [1, 2].map(|f| Code::new(f, s, t, n)));
    let pairs = (1..=12).flat_map(|s| (1..=8).map(move |t| (s, t)));
    all(random, pairs.flat_map(|(s, t)| below(s, t)))
}
