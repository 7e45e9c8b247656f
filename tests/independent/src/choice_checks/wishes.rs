//! Wishes, good ones, bad ones of every kind, and some outside the own table.

use super::drawn::*;
use super::requests::check;
use crate::bench::{Case, Check};
use crate::message_checks::each_bit_inverted;
use crate::random::Random;

pub fn checks() -> Vec<Check> {
    vec![
        Check::of_cases("wishes: every number of records", counts),
        Check::of_cases("wishes: all equal", all_equal),
        Check::of_cases("wishes: one outside the own table", one_outside),
        Check::of_cases("wishes: not minimal", not_minimal),
        Check::of_cases("wishes: unnamed or non-standard", forbidden),
        Check::of_cases("wishes: no SPar(1)", no_mode),
        Check::of_cases("wishes: neither ready nor not", ready_octets),
        Check::of_cases("wishes: wrong length octets", length_octets),
        Check::of_cases("wishes: bad ones and some outside", bad_and_outside),
        Check::of_cases("wishes: cut at every length", cut),
        Check::of_cases("wishes: octets behind the last record", left_over),
        Check::of_cases("wishes: one bit inverted, every bit", one_inverted),
        Check::of_cases("wishes: random octets", random_octets),
        Check::of_cases("wishes: the longest records", longest),
    ]
}

fn counts(random: &mut Random) -> Vec<Case> {
    let mut cases = Vec::new();
    for count in 0..=MOST_WISHES + 4 {
        let due = if count > MOST_WISHES { 3 } else { 0 };
        for _ in 0..60 {
            cases.push(Drawn::inside(random, count).check().due(due));
        }
    }
    cases
}

fn all_equal(random: &mut Random) -> Vec<Case> {
    let mut cases = Vec::new();
    for count in 2..=MOST_WISHES {
        for _ in 0..20 {
            let mut drawn = Drawn::inside(random, 1);
            let wish = drawn.wishes[0].clone();
            drawn.wishes = vec![wish; count];
            cases.push(drawn.check().due(0));
        }
    }
    cases
}

/// Some wishes of which one, at any place, goes beyond the own table.
fn with_one_outside(random: &mut Random) -> Drawn {
    Drawn::some_wishes(random).reaching_outside(random)
}

fn one_outside(random: &mut Random) -> Vec<Case> {
    let case = |_| with_one_outside(random).check().due(4);
    (0..2000).map(case).collect()
}

/// Wishes of which one record, at any place, was replaced.
fn with_record(
    random: &mut Random,
    drawn: &Drawn,
    replace: impl Fn(&mut Random, &Wanted) -> Vec<u8>,
) -> Vec<u8> {
    let mut records = drawn.records();
    let chosen = random.below(records.len());
    records[chosen] = replace(random, &drawn.wishes[chosen]);
    records.concat()
}

/// Wishes of which one record is bad.
fn bad(
    random: &mut Random,
    count: usize,
    replace: impl Fn(&mut Random, &Wanted) -> Vec<u8>,
) -> Vec<Case> {
    let case = |_| {
        let drawn = Drawn::some_wishes(random);
        let run = with_record(random, &drawn, &replace);
        check(&drawn.own_octets(), &run).due(3)
    };
    (0..count).map(case).collect()
}

fn loose_record(random: &mut Random, wish: &Wanted) -> Vec<u8> {
    let field = loose_field(random, &wish.parameters);
    record(u8::from(wish.is_ready), &field)
}

fn forbidden_record(random: &mut Random, wish: &Wanted) -> Vec<u8> {
    let parameters = with_forbidden(random, &wish.parameters);
    record(u8::from(wish.is_ready), &field(&parameters))
}

fn not_minimal(random: &mut Random) -> Vec<Case> {
    bad(random, 1500, loose_record)
}

fn forbidden(random: &mut Random) -> Vec<Case> {
    bad(random, 2000, forbidden_record)
}

/// An empty field, with and without its octets.
fn no_mode(random: &mut Random) -> Vec<Case> {
    bad(random, 300, |random, wish| {
        let ready = u8::from(wish.is_ready);
        match random.bit() {
            true => record(ready, &[0x80, 0x80]),
            false => record(ready, &[]),
        }
    })
}

fn ready_octets(random: &mut Random) -> Vec<Case> {
    let mut cases = Vec::new();
    for ready in 2..=255 {
        cases.extend(bad(random, 2, |_, wish| {
            record(ready, &field(&wish.parameters))
        }));
    }
    cases
}

/// Every length octet but the true one: the field then ends too early, or
/// reaches into the next record or past the end.
fn length_octets(random: &mut Random) -> Vec<Case> {
    let mut cases = Vec::new();
    for wrong_by in 1..=255 {
        cases.extend(bad(random, 4, |_, wish| {
            let mut record = wish.record();
            record[1] = record[1].wrapping_add(wrong_by);
            record
        }));
    }
    cases
}

fn bad_and_outside(random: &mut Random) -> Vec<Case> {
    let case = |turn: usize| {
        let drawn = with_one_outside(random);
        let run = match turn % 3 {
            0 => with_record(random, &drawn, loose_record),
            1 => with_record(random, &drawn, forbidden_record),
            _ => [drawn.run(), vec![1]].concat(),
        };
        check(&drawn.own_octets(), &run).due(3)
    };
    (0..600).map(case).collect()
}

/// Good where a record ends, bad elsewhere.
fn cut(random: &mut Random) -> Vec<Case> {
    let mut cases = Vec::new();
    for _ in 0..60 {
        let drawn = Drawn::some_wishes(random);
        let records = drawn.records();
        let ends = (0..=records.len()).map(|count| records[..count].concat().len());
        let ends: Vec<usize> = ends.collect();
        let run = drawn.run();
        for length in 0..=run.len() {
            let due = if ends.contains(&length) { 0 } else { 3 };
            cases.push(check(&drawn.own_octets(), &run[..length]).due(due));
        }
    }
    cases
}

/// One octet more, and two that begin a record.
fn left_over(random: &mut Random) -> Vec<Case> {
    let mut cases = Vec::new();
    for octet in 0..=255 {
        let drawn = Drawn::some(random);
        let (own, run) = (drawn.own_octets(), drawn.run());
        cases.push(check(&own, &[&run[..], &[octet]].concat()).due(3));
        let begun = [u8::from(random.bit()), octet];
        cases.push(check(&own, &[run, begun.to_vec()].concat()).due(3));
    }
    cases
}

fn one_inverted(random: &mut Random) -> Vec<Case> {
    let mut cases = Vec::new();
    for count in [1, 1, 2, 2, 3, 4, 5, 6] {
        for _ in 0..4 {
            let drawn = Drawn::inside(random, count);
            let own = drawn.own_octets();
            cases.extend(each_bit_inverted(&drawn.run()).map(|run| check(&own, &run)));
        }
    }
    cases
}

fn random_octets(random: &mut Random) -> Vec<Case> {
    let own = field(&PERMITTED);
    let mut cases = Vec::new();
    for length in 0..=80 {
        for _ in 0..4 {
            let run = random.octets(length);
            cases.push(check(&own, &run));
        }
    }
    cases
}

/// Records of 255 octets with no sense, 16 of which are the longest run.
fn longest(random: &mut Random) -> Vec<Case> {
    let case = |turn: usize| {
        let drawn = Drawn::some_wishes(random);
        let records = (0..1 + turn % MOST_WISHES).map(|_| record(1, &random.octets(255)));
        let run: Vec<u8> = records.flatten().collect();
        check(&drawn.own_octets(), &run).due(3)
    };
    (0..64).map(case).collect()
}
