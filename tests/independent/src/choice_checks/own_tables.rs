//! Own tables, good ones and bad ones of every kind.

use super::drawn::*;
use super::requests::check;
use crate::bench::{Case, Check};
use crate::message_checks::each_bit_inverted;
use crate::message_checks::layout::{something, Field, Layout};
use crate::random::Random;
use crate::wire::MOST_LENT;

pub fn checks() -> Vec<Check> {
    vec![
        Check::of_cases("own table: good", good),
        Check::of_cases("own table: nothing set", nothing_set),
        Check::of_cases("own table: not minimal", not_minimal),
        Check::of_cases("own table: unnamed or non-standard", forbidden),
        Check::of_cases("own table: cut at every length", cut),
        Check::of_cases("own table: octets left over", left_over),
        Check::of_cases("own table: longer than 61 octets", too_long),
        Check::of_cases("own table: one bit inverted, every bit", one_inverted),
        Check::of_cases("own table: random octets", random_octets),
        Check::of_cases("own table: any tree", any_tree),
    ]
}

fn good(random: &mut Random) -> Vec<Case> {
    (0..3000)
        .map(|_| Drawn::some(random).check().due(0))
        .collect()
}

/// Good with no wishes, and everything else is then outside.
fn nothing_set(random: &mut Random) -> Vec<Case> {
    let mut cases = vec![check(&[0x80, 0x80], &[]).due(0)];
    for _ in 0..200 {
        let run = Drawn::some_wishes(random).run();
        cases.push(check(&[0x80, 0x80], &run).due(4));
    }
    cases
}

/// Wishes that the own table does not depend on: good, outside, bad or none.
fn any_run(random: &mut Random, drawn: &Drawn) -> Vec<u8> {
    match random.below(4) {
        0 => Drawn::some_wishes(random).run(),
        1 => [drawn.run(), vec![2]].concat(),
        2 => Vec::new(),
        _ => drawn.run(),
    }
}

/// Bad own tables with wishes of any kind, made from good ones.
fn bad(
    random: &mut Random,
    count: usize,
    spoil: impl Fn(&mut Random, &Drawn) -> Vec<u8>,
) -> Vec<Case> {
    let case = |_| {
        let drawn = Drawn::some(random);
        let own = spoil(random, &drawn);
        check(&own, &any_run(random, &drawn)).due(2)
    };
    (0..count).map(case).collect()
}

fn not_minimal(random: &mut Random) -> Vec<Case> {
    bad(random, 1500, |random, drawn| {
        loose_field(random, &drawn.own)
    })
}

fn forbidden(random: &mut Random) -> Vec<Case> {
    bad(random, 2000, |random, drawn| {
        field(&with_forbidden(random, &drawn.own))
    })
}

/// No part of a field is a field; no octets at all are none either.
fn cut(random: &mut Random) -> Vec<Case> {
    let mut cases = Vec::new();
    for _ in 0..120 {
        let drawn = Drawn::some(random);
        let own = drawn.own_octets();
        for length in 0..own.len() {
            let run = any_run(random, &drawn);
            cases.push(check(&own[..length], &run).due(2));
        }
    }
    cases
}

fn left_over(random: &mut Random) -> Vec<Case> {
    bad(random, 800, |random, drawn| {
        let octet = random.octet();
        let octet = random.pick(&[0x00, 0x40, 0x80, 0xC0, octet]);
        let more = vec![octet; random.pick(&[1, 1, 2, 4, 20])];
        [drawn.own_octets(), more].concat()
    })
}

/// Minimal fields of 62 octets and more, and octets of no sense.
fn too_long(random: &mut Random) -> Vec<Case> {
    let mut cases = Vec::new();
    for length in 62..=MOST_LENT {
        let drawn = Drawn::some(random);
        let own = Field::of_codes(&drawn.own);
        let long = own.stretched(random, length, something).octets();
        cases.push(check(&long, &any_run(random, &drawn)).due(2));
        cases.push(check(&random.octets(length), &[]));
    }
    cases
}

fn one_inverted(random: &mut Random) -> Vec<Case> {
    let mut cases = Vec::new();
    for _ in 0..60 {
        let drawn = Drawn::some(random);
        let run = drawn.run();
        cases.extend(each_bit_inverted(&drawn.own_octets()).map(|own| check(&own, &run)));
    }
    cases
}

fn random_octets(random: &mut Random) -> Vec<Case> {
    let mut cases = Vec::new();
    for length in 0..=70 {
        for _ in 0..10 {
            let own = random.octets(length);
            cases.push(check(&own, &[]));
        }
    }
    cases
}

/// Well-formed fields of all kinds, hardly any of them permitted.
fn any_tree(random: &mut Random) -> Vec<Case> {
    let case = |_| {
        let own = Layout::any(random).standard.octets();
        let run = Drawn::some(random).run();
        check(&own, &run)
    };
    (0..1000).map(case).collect()
}
