//! Far positions about 511, the last that a code can name, in blocks of each
//! kind. Where one is above it, there are no far parameters at all.

use super::super::choices::due_if;
use super::super::drawn::*;
use super::drawn::*;
use crate::bench::{Case, Check};
use crate::message::Code;
use crate::message_checks::layout::Field;
use crate::random::Random;

pub fn checks() -> Vec<Check> {
    vec![
        Check::of_cases("choice: far positions about 511", in_one_block),
        Check::of_cases(
            "choice: far positions about 511 in two blocks",
            in_two_blocks,
        ),
    ]
}

/// The choice from a far field that has everything and these parameters.
fn with_codes(random: &mut Random, codes: &[Code]) -> [Case; 2] {
    let drawn = Drawn::some_wishes(random).all_ready(true);
    let mut far = drawn.own.clone();
    far.extend(with_parents(codes.iter().copied()));
    let is_named = |code: &Code| {
        [code.s, code.t, code.n]
            .into_iter()
            .all(|part| part <= LAST)
    };
    let due = due_if(codes.iter().all(is_named));
    let field = Field::of_codes(&far);
    at_places(random, &field).map(|far| drawn.choice(&far).due(due))
}

fn in_one_block(random: &mut Random) -> Vec<Case> {
    let mut cases = Vec::new();
    for kind in Kind::ALL {
        for position in LAST - 3..=LAST + 7 {
            for _ in 0..8 {
                let code = kind.at(position, above(random, 12));
                cases.extend(with_codes(random, &[code]));
            }
        }
    }
    cases
}

fn in_two_blocks(random: &mut Random) -> Vec<Case> {
    let positions = LAST - 1..=LAST + 1;
    let mut cases = Vec::new();
    for kinds in Kind::ALL
        .map(|one| Kind::ALL.map(|other| [one, other]))
        .concat()
    {
        for first in positions.clone() {
            for second in positions.clone() {
                let first = kinds[0].at(first, above(random, 12));
                let second = kinds[1].at(second, above(random, 12));
                cases.extend(with_codes(random, &[first, second]));
            }
        }
    }
    cases
}
