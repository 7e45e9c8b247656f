//! Long far fields of many shapes, at the front and behind other octets.

use super::super::choices::*;
use super::super::drawn::*;
use super::drawn::*;
use crate::bench::{Case, Check};
use crate::message::Parameters;
use crate::message_checks::layout::{something, Field};
use crate::message_checks::mixed::some_codes;
use crate::random::Random;

pub fn checks() -> Vec<Check> {
    vec![
        Check::of_cases("choice: a long far field has everything", has_all),
        Check::of_cases("choice: a long far field lacks one", lacks_one),
        Check::of_cases("choice: the own table lacks one of a long field", own_lacks),
        Check::of_cases("choice: any long far field", anything),
    ]
}

/// The choice from a long field with these parameters and others that no wish
/// has, at two places.
fn from_long(random: &mut Random, drawn: &Drawn, far: &Parameters) -> [Case; 2] {
    let field = long_field(random, far);
    at_places(random, &field).map(|far| drawn.choice(&far))
}

fn has_all(random: &mut Random) -> Vec<Case> {
    let mut cases = Vec::new();
    for _ in 0..1500 {
        let drawn = Drawn::some(random);
        let due = due_if(any_ready(&drawn));
        let more = drawn.own.union(&some_parameters(random)).copied().collect();
        let both = from_long(random, &drawn, &more);
        cases.extend(both.map(|case| case.due(due)));
    }
    cases
}

fn lacks_one(random: &mut Random) -> Vec<Case> {
    let mut cases = Vec::new();
    for _ in 0..1500 {
        let OneMissing { drawn, others, due } = OneMissing::drawn(random);
        let both = from_long(random, &drawn, &others);
        cases.extend(both.map(|case| case.due(due)));
    }
    cases
}

fn own_lacks(random: &mut Random) -> Vec<Case> {
    let mut cases = Vec::new();
    for _ in 0..500 {
        let OneMissing { drawn, others, due } = OneMissing::drawn(random);
        let far = drawn.own.clone();
        let drawn = Drawn {
            own: others,
            ..drawn
        };
        let both = from_long(random, &drawn, &far);
        cases.extend(both.map(|case| case.due(due)));
    }
    cases
}

/// Blocks that may pass position 511 are among them.
fn anything(random: &mut Random) -> Vec<Case> {
    let mut cases = Vec::new();
    for _ in 0..1500 {
        let drawn = inside_or_not(random);
        let field = any_field(random, &drawn);
        cases.extend(at_places(random, &field).map(|far| drawn.choice(&far)));
    }
    cases
}

/// Long fields that have much in common with the wishes, or nothing.
fn any_field(random: &mut Random, drawn: &Drawn) -> Field {
    let turn = random.below(4);
    let far = match turn {
        0 => some_codes(random, 2),
        1 => drawn.own.clone(),
        2 => part_of(random, &drawn.own),
        _ => without_one(random, &drawn.own).0,
    };
    match turn {
        0 | 1 => full_field(random, &far),
        _ => any_long_field(random, &far),
    }
}

/// The parameters and any others behind them in their blocks.
fn full_field(random: &mut Random, parameters: &Parameters) -> Field {
    let length = random.within(LEAST, MOST);
    let field = Field::of_codes_somehow(random, parameters);
    field.stretched(random, length, something)
}
