//! The writer's refusals 5, 6 and 7: lists spoiled in every way.

use super::layout::Layout;
use super::requests::*;
use super::shapes;
use crate::bench::{Case, Check};
use crate::message::{Code, Meaning};
use crate::random::Random;
use std::collections::BTreeSet;

pub fn checks() -> Vec<Check> {
    vec![
        Check::of_cases("message writer: codes of no field", no_field),
        Check::of_cases("message writer: codes with t and no s", t_alone),
        Check::of_cases("message writer: codes that name nothing", nothing_named),
        Check::of_cases(
            "message writer: impossible code anywhere",
            impossible_anywhere,
        ),
        Check::of_cases("message writer: equal neighbours", equal_neighbours),
        Check::of_cases("message writer: neighbours exchanged", exchanged_neighbours),
        Check::of_cases("message writer: lists in another order", other_orders),
        Check::of_cases("message writer: one code removed, every code", one_removed),
        Check::of_cases("message writer: one code added", one_added),
        Check::of_cases(
            "message writer: parents missing at every level",
            parents_missing,
        ),
        Check::of_cases("message writer: one bit of a code inverted", one_inverted),
        Check::of_cases("message writer: random numbers as codes", random_numbers),
    ]
}

/// What a message with at least so many codes carries.
pub fn meaning_with(random: &mut Random, fewest: usize) -> Meaning {
    loop {
        let meaning = Layout::any(random).meaning();
        if (fewest..=80).contains(&meaning.codes.len()) {
            return meaning;
        }
    }
}

/// Puts the code where it belongs in an ascending list.
pub fn insert_in_order(codes: &mut Vec<u32>, code: u32) {
    let place = codes.partition_point(|&other| other < code);
    codes.insert(place, code);
}

/// The code in its place in a good list, and alone.
fn in_its_place(random: &mut Random, code: Code, due: u8) -> [Case; 2] {
    let mut meaning = meaning_with(random, 1);
    insert_in_order(&mut meaning.codes, code.number());
    let among_others = told(random, &meaning).due(due);
    meaning.codes = vec![code.number()];
    [among_others, told(random, &meaning).due(due)]
}

fn no_field(random: &mut Random) -> Vec<Case> {
    let mut cases = Vec::new();
    for f in [0].into_iter().chain(3..32) {
        for farthest in [7, 60, 511] {
            let good = shapes::random_code(random, farthest);
            cases.extend(in_its_place(random, Code { f, ..good }, 5));
        }
        cases.extend(in_its_place(random, Code::new(f, 0, 0, 0), 5));
        cases.extend(in_its_place(random, Code::new(f, 0, 0, 7), 5));
    }
    cases
}

fn t_alone(random: &mut Random) -> Vec<Case> {
    let mut cases = Vec::new();
    for t in (1..20).chain([63, 64, 127, 128, 255, 256, 510, 511]) {
        for f in [1, 2] {
            let n = random.within(1, 511) as u32;
            cases.extend(in_its_place(random, Code::new(f, 0, t, 0), 5));
            cases.extend(in_its_place(random, Code::new(f, 0, t, n), 5));
        }
    }
    cases
}

fn nothing_named(random: &mut Random) -> Vec<Case> {
    let mut cases = Vec::new();
    for turn in 0..60 {
        let code = Code::new(1 + turn % 2, 0, 0, 0);
        cases.extend(in_its_place(random, code, 5));
    }
    cases
}

pub fn impossible_code(random: &mut Random) -> Code {
    let good = shapes::random_code(random, 511);
    let (f, t) = (random.within(3, 31) as u32, random.within(1, 511) as u32);
    match random.below(4) {
        0 => Code { f: 0, ..good },
        1 => Code { f, ..good },
        2 => Code { s: 0, t, ..good },
        _ => Code::new(good.f, 0, 0, 0),
    }
}

/// An impossible code out of order too, first and last and between.
fn impossible_anywhere(random: &mut Random) -> Vec<Case> {
    let mut cases = Vec::new();
    for _ in 0..100 {
        let good = meaning_with(random, 2);
        let last = good.codes.len();
        for place in [0, last, random.within(1, last - 1)] {
            let mut meaning = good.clone();
            let code = impossible_code(random).number();
            meaning.codes.insert(place, code);
            cases.push(told(random, &meaning).due(5));
        }
    }
    cases
}

/// Meanings made of good ones by a change at each place of their list.
fn changed_at_each_place(
    random: &mut Random,
    count: usize,
    change: impl Fn(&mut Vec<u32>, usize),
) -> Vec<Case> {
    let mut cases = Vec::new();
    for _ in 0..count {
        let good = meaning_with(random, 2);
        for place in 0..good.codes.len() - 1 {
            let mut meaning = good.clone();
            change(&mut meaning.codes, place);
            cases.push(told(random, &meaning).due(6));
        }
    }
    cases
}

fn equal_neighbours(random: &mut Random) -> Vec<Case> {
    changed_at_each_place(random, 40, |codes, place| {
        codes.insert(place, codes[place]);
    })
}

fn exchanged_neighbours(random: &mut Random) -> Vec<Case> {
    changed_at_each_place(random, 40, |codes, place| codes.swap(place, place + 1))
}

/// Backwards, S before I, one code moved to the end or the front, begun
/// anywhere, and the whole list twice.
fn other_orders(random: &mut Random) -> Vec<Case> {
    let mut cases = Vec::new();
    for _ in 0..60 {
        let good = meaning_with(random, 2);
        let last = good.codes.len() - 1;
        let of_identification = good.codes.partition_point(|&code| Code::of(code).f == 1);
        let mut lists = vec![
            good.codes.iter().rev().copied().collect(),
            good.codes.repeat(2),
        ];
        for places in [1, last, of_identification, random.within(1, last)] {
            let mut codes = good.codes.clone();
            codes.rotate_left(places.clamp(1, last));
            lists.push(codes);
        }
        for codes in lists {
            let meaning = Meaning {
                codes,
                ..good.clone()
            };
            cases.push(told(random, &meaning).due(6));
        }
    }
    cases
}

/// Without a parent the list is refused, without any other code it is good;
/// only the code that announces NS must not go alone.
fn one_removed(random: &mut Random) -> Vec<Case> {
    let mut cases = Vec::new();
    for _ in 0..120 {
        let good = meaning_with(random, 1);
        let codes = good.codes.iter().copied().map(Code::of);
        let parents: BTreeSet<Code> = codes.flat_map(Code::parents).collect();
        for place in 0..good.codes.len() {
            let mut meaning = good.clone();
            let removed = Code::of(meaning.codes.remove(place));
            let due = match removed {
                Code::NON_STANDARD_FIELD => 9,
                _ if parents.contains(&removed) => 7,
                _ => 0,
            };
            cases.push(told(random, &meaning).due(due));
        }
    }
    cases
}

fn one_added(random: &mut Random) -> Vec<Case> {
    let mut cases = Vec::new();
    for _ in 0..1500 {
        let mut meaning = Layout::any(random).meaning();
        let farthest = random.pick(&[7, 14, 30, 511]);
        let code = shapes::random_code(random, farthest).number();
        insert_in_order(&mut meaning.codes, code);
        cases.push(told(random, &meaning));
    }
    cases
}

/// A parameter with only some of those above it, or with those above its
/// counterparts in the other field and beside it.
fn without_parents([f, s, t, n]: [u32; 4]) -> [Vec<Code>; 11] {
    let spar_1 = Code::new(f, s, 0, 0);
    let spar_2 = Code::new(f, s, t, 0);
    let npar_2 = Code::new(f, s, 0, n);
    let npar_3 = Code::new(f, s, t, n);
    let in_other_field = Code { f: 3 - f, ..spar_1 };
    let beside = Code { t: t + 1, ..spar_2 };
    let next = Code { s: s + 1, ..spar_1 };
    [
        vec![npar_2],
        vec![spar_2],
        vec![npar_3],
        vec![spar_2, npar_3],
        vec![spar_1, npar_3],
        vec![npar_2, spar_2, npar_3],
        vec![in_other_field, npar_2],
        vec![next, npar_2],
        vec![spar_1, npar_2, npar_3],
        vec![spar_1, npar_2, beside, npar_3],
        vec![next, spar_2, npar_3],
    ]
}

fn parents_missing(random: &mut Random) -> Vec<Case> {
    let mut cases = Vec::new();
    for _ in 0..40 {
        let parts = [2, 12, 12, 12].map(|most| random.within(1, most) as u32);
        for mut list in without_parents(parts) {
            list.sort();
            let codes = list.into_iter().map(Code::number).collect();
            let meaning = with_list(random, codes);
            cases.push(told(random, &meaning).due(7));
        }
    }
    cases
}

fn one_inverted(random: &mut Random) -> Vec<Case> {
    let mut cases = Vec::new();
    for _ in 0..8 {
        let good = meaning_with(random, 3);
        for place in 0..good.codes.len() {
            for bit in 0..32 {
                let mut meaning = good.clone();
                meaning.codes[place] ^= 1 << bit;
                cases.push(told(random, &meaning));
            }
        }
    }
    cases
}

fn random_numbers(random: &mut Random) -> Vec<Case> {
    let mut cases = Vec::new();
    for _ in 0..400 {
        let mut meaning = Layout::any(random).meaning();
        let count = random.pick(&[1, 1, 2, 3, 10, 100, MOST_NUMBERS]);
        let number = |_| random.number() as u32 >> random.pick(&[0, 0, 3, 4]);
        meaning.codes = (0..count).map(number).collect();
        if random.bit() {
            meaning.codes.sort();
        }
        cases.push(told(random, &meaning));
    }
    cases
}
