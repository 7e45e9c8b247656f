//! Messages in which named and unnamed parameters stand side by side.

use super::requests::put;
use crate::bench::{Case, Check};
use crate::message::Code;
use crate::message_checks::layout::{Field, Layout};
use crate::message_checks::mixed::FIELDS;
use crate::message_checks::requests::{MOST_OCTETS, WITH_FIELDS};
use crate::random::Random;
use std::collections::BTreeSet;

pub fn checks() -> Vec<Check> {
    vec![
        Check::of_cases("striking: named and unnamed together", together),
        Check::of_cases("striking: reserved SPars between named ones", between),
        Check::of_cases("striking: full blocks", full_blocks),
    ]
}

fn together(random: &mut Random) -> Vec<Case> {
    let case = |_| {
        let layout = Layout::mixed(random);
        put(random, &layout.octets()).due(0)
    };
    (0..12000).map(case).collect()
}

/// An SPar(2) with something below it between what its SPar(1) has and what
/// the next SPar(1) has, in both fields.
fn between(random: &mut Random) -> Vec<Case> {
    let mut cases = Vec::new();
    for (s, t, next) in threes() {
        for kind in WITH_FIELDS {
            let [identification, standard] = FIELDS.map(|f| {
                let mut n = || random.within(1, 14) as u32;
                let codes = [
                    Code::new(f, s, 0, n()),
                    Code::new(f, s, t, n()),
                    Code::new(f, s, t + 1, n()),
                    Code::new(f, next, 0, n()),
                    Code::new(f, next, 1, n()),
                ];
                Field::of_codes(&BTreeSet::from(codes)).loosened(random)
            });
            let layout = Layout {
                kind,
                ..Layout::of_fields(random, identification, standard)
            };
            let due = if layout.length() > MOST_OCTETS { 2 } else { 0 };
            cases.push(put(random, &layout.octets()).due(due));
        }
    }
    cases
}

/// Each SPar(1), a few SPar(2)s below it, and each SPar(1) behind it.
fn threes() -> impl Iterator<Item = (u32, u32, u32)> {
    let pairs = (1..=10).flat_map(|s| (s + 1..=12).map(move |next| (s, next)));
    pairs.flat_map(|(s, next)| (1..=7).map(move |t| (s, t, next)))
}

/// Every bit set in one to seven octets of one block.
fn full_blocks(random: &mut Random) -> Vec<Case> {
    let mut cases = Vec::new();
    let above = [(0, 0)].into_iter();
    let above = above.chain((1..=12).flat_map(|s| (0..=3).map(move |t| (s, t))));
    for (s, t) in above {
        for (f, last) in [(1, 6), (1, 20), (1, 40), (2, 6), (2, 24), (2, 40)] {
            let codes = (1..=last).map(|n| Code::new(f, s, t, n));
            let full = codes.filter(|code| *code != Code::NON_STANDARD_FIELD);
            let field = Field::of_codes(&full.collect());
            let fields = match f {
                1 => [field, Field::empty()],
                _ => [Field::empty(), field],
            };
            let [identification, standard] = fields;
            let layout = Layout::of_fields(random, identification, standard);
            cases.push(put(random, &layout.octets()).due(0));
        }
    }
    cases
}
