//! Runs of more than 64 octets in which other octets are before or behind the
//! far field.

use super::super::choices::*;
use super::super::drawn::*;
use super::super::requests::Far;
use super::drawn::*;
use crate::bench::{Case, Check};
use crate::message_checks::layout::Field;
use crate::random::Random;

pub fn checks() -> Vec<Check> {
    vec![
        Check::of_cases("choice: a short far field far behind", far_behind),
        Check::of_cases("choice: octets behind a long far field", goes_on),
        Check::of_cases("choice: a row without marks behind the far field", row),
    ]
}

fn far_behind(random: &mut Random) -> Vec<Case> {
    let mut cases = Vec::new();
    for _ in 0..1000 {
        let OneMissing { drawn, others, due } = OneMissing::drawn(random);
        let noisy = with_noise(random, &others);
        let octets = Field::of_codes_somehow(random, &noisy).octets();
        let place = random.within(LEAST, MOST - octets.len());
        let far = placed(random, place, &octets);
        cases.push(drawn.choice(&far).due(due));
    }
    cases
}

fn goes_on(random: &mut Random) -> Vec<Case> {
    let mut cases = Vec::new();
    for _ in 0..600 {
        let OneMissing { drawn, others, due } = OneMissing::drawn(random);
        let field = long_field(random, &others);
        for mut far in at_places(random, &field) {
            let more = random.within(0, MOST - far.octets.len());
            far.octets.extend(random.octets(more));
            cases.push(drawn.choice(&far).due(due));
        }
    }
    cases
}

/// Behind a field that has everything: up to 90 octets without mark, then a
/// marked one or none. There might be a position above 511 in such a row.
fn row(random: &mut Random) -> Vec<Case> {
    let mut cases = Vec::new();
    for length in 80..=90 {
        for mark in [0x40, 0x80, 0xC0] {
            for last in [None, Some(0), Some(1), Some(2), Some(3), Some(0x3F)] {
                let drawn = Drawn::some_wishes(random).all_ready(true);
                let last = last.map(|bits| mark | bits);
                let far = with_row(random, &field(&drawn.own), length, last);
                let is_free =
                    length < 85 || length == 85 && last.is_none_or(|octet| octet & 0x3E == 0);
                cases.push(drawn.choice(&far).due(due_if(is_free)));
            }
        }
    }
    cases
}

fn with_row(random: &mut Random, field: &[u8], length: usize, last: Option<u8>) -> Far {
    let place = random.below(50);
    let mut far = placed(random, place, field);
    let row = random.octets(length).into_iter();
    far.octets.extend(row.map(|octet| octet & 0x3F));
    far.octets.extend(last);
    far
}
