//! Each single parameter, permitted or not, as own table and as wish.

use super::drawn::{field, is_permitted, record, PERMITTED};
use super::requests::check;
use crate::bench::{Case, Check};
use crate::message::{Code, Parameters};
use crate::message_checks::near_front;
use crate::random::Random;

pub fn checks() -> Vec<Check> {
    vec![
        Check::of_cases("own table: each single parameter", own_table),
        Check::of_cases("wishes: each single parameter", wish),
        Check::of_cases("wishes: each single parameter outside", outside),
        Check::of_cases("own table and wishes: one missing", one_missing),
    ]
}

fn alone(code: Code) -> Vec<u8> {
    field(&Parameters::from([code]))
}

fn own_table(_: &mut Random) -> Vec<Case> {
    let case = |code: Code| {
        let due = if is_permitted(&code) { 0 } else { 2 };
        check(&alone(code), &[]).due(due)
    };
    near_front(2).map(case).collect()
}

fn wish(random: &mut Random) -> Vec<Case> {
    let everything = field(&PERMITTED);
    let case = |code: Code| {
        let due = if is_permitted(&code) { 0 } else { 3 };
        let ready = u8::from(random.bit());
        check(&everything, &record(ready, &alone(code))).due(due)
    };
    near_front(2).map(case).collect()
}

/// The parameter in the wish alone, while the own table has what is above it.
fn outside(random: &mut Random) -> Vec<Case> {
    let case = |&code: &Code| {
        let ready = u8::from(random.bit());
        let above = field(&code.parents().collect());
        check(&above, &record(ready, &alone(code))).due(4)
    };
    PERMITTED.iter().map(case).collect()
}

/// Each parameter missing in an own table that has all others but those below
/// it. A wish for everything is outside; one for the own table is not.
fn one_missing(random: &mut Random) -> Vec<Case> {
    let mut cases = Vec::new();
    for missing in PERMITTED.iter() {
        let goes = |code: &&Code| *code == missing || code.parents().any(|above| above == *missing);
        let others = PERMITTED.iter().filter(|code| !goes(code));
        let own = field(&others.copied().collect());
        let ready = u8::from(random.bit());
        cases.push(check(&own, &record(ready, &field(&PERMITTED))).due(4));
        cases.push(check(&own, &record(ready, &own)).due(0));
    }
    cases
}
