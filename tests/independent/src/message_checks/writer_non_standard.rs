//! The writer's refusal 9: NS that is badly formed, or does not agree with
//! its code.

use super::drawn::non_standard_field;
use super::layout::Layout;
use super::requests::*;
use crate::bench::{Case, Check};
use crate::message::{Code, Meaning};
use crate::random::Random;
use crate::wire::MOST_LENT;

pub fn checks() -> Vec<Check> {
    vec![
        Check::of_cases("message writer: NS of every length", lengths),
        Check::of_cases("message writer: NS with every length octet", length_octets),
        Check::of_cases("message writer: NS ending in a wrong place", wrong_ends),
        Check::of_cases(
            "message writer: one NS block of several wrong",
            wrong_blocks,
        ),
        Check::of_cases("message writer: NS without its code", without_code),
        Check::of_cases("message writer: NS announced but missing", missing),
        Check::of_cases("message writer: random octets as NS", random_octets),
    ]
}

/// A list that leaves as many octets for NS as it can, with or without the
/// code that announces it.
fn small_list(random: &mut Random, announcing: bool) -> Meaning {
    let layout = Layout::within(random, 2, 8);
    match announcing {
        true => layout.announcing(Vec::new()).meaning(),
        false => layout.meaning(),
    }
}

fn announced(random: &mut Random, non_standard: Vec<u8>) -> Case {
    let meaning = Meaning {
        non_standard,
        ..small_list(random, true)
    };
    told(random, &meaning)
}

fn lengths(random: &mut Random) -> Vec<Case> {
    let mut cases = Vec::new();
    for length in 3..=56 {
        for _ in 0..4 {
            let field = non_standard_field(random, length);
            cases.push(announced(random, field).due(0));
        }
    }
    cases
}

/// A block whose length octet tells the truth is well formed for 2 to 63
/// octets, though from 59 on the message is too long.
fn length_octets(random: &mut Random) -> Vec<Case> {
    let mut cases = Vec::new();
    for length in 0..=254 {
        let block = [vec![length], random.octets(usize::from(length))].concat();
        let case = announced(random, block.clone());
        cases.push(match length {
            ..2 | 64.. => case.due(9),
            ..=55 => case.due(0),
            59.. => case.due(10),
            _ => case,
        });
        let not_last = [block, non_standard_field(random, 3)].concat();
        if not_last.len() <= MOST_LENT {
            cases.push(announced(random, not_last));
        }
    }
    cases
}

/// Octets too many or too few, and length octets changed.
fn wrong_ends(random: &mut Random) -> Vec<Case> {
    let mut cases = Vec::new();
    for length in 3..=60 {
        let field = non_standard_field(random, length);
        let one_more = [&field[..], &random.octets(1)].concat();
        cases.push(announced(random, one_more).due(9));
        for fewer in 1..=3 {
            cases.push(announced(random, field[..length - fewer].to_vec()));
        }
        let mut too_high = field.clone();
        too_high[0] = random.within(length, 255) as u8;
        cases.push(announced(random, too_high).due(9));
        let mut any = field.clone();
        any[0] = random.octet();
        cases.push(announced(random, any));
    }
    cases
}

fn wrong_blocks(random: &mut Random) -> Vec<Case> {
    let mut cases = Vec::new();
    for turn in 0..240 {
        let lengths = [random.within(3, 20), random.within(3, 20)];
        let [before, behind] = lengths.map(|length| non_standard_field(random, length));
        let past_the_end = random.within(behind.len() + 1, 255) as u8;
        let wrong = match turn % 4 {
            0 => vec![0],
            1 => vec![1, random.octet()],
            2 => [vec![64], random.octets(64)].concat(),
            _ => vec![past_the_end],
        };
        let field = [before, wrong, behind].concat();
        cases.push(announced(random, field).due(9));
    }
    cases
}

/// NS with no code, or with codes that only resemble its own.
fn without_code(random: &mut Random) -> Vec<Case> {
    let resembling = [
        Code::new(1, 0, 0, 6),
        Code::new(1, 0, 0, 14),
        Code::new(1, 7, 0, 0),
        Code::new(2, 0, 0, 7),
    ];
    let mut cases = Vec::new();
    for length in [1, 2, 3, 4, 10, 30, 50, 64, 100, 255] {
        for code in resembling {
            let non_standard = match length {
                ..3 => random.octets(length),
                _ => non_standard_field(random, length),
            };
            let unannounced = Meaning {
                non_standard,
                ..small_list(random, false)
            };
            cases.push(told(random, &unannounced).due(9));
            let meaning = Meaning {
                codes: vec![code.number()],
                ..unannounced
            };
            cases.push(told(random, &meaning).due(9));
        }
    }
    cases
}

fn missing(random: &mut Random) -> Vec<Case> {
    let mut cases = Vec::new();
    for _ in 0..100 {
        let small = small_list(random, true);
        cases.push(told(random, &small).due(9));
        let layout = Layout::within(random, 3, MOST_OCTETS);
        let meaning = layout.announcing(Vec::new()).meaning();
        cases.push(told(random, &meaning).due(9));
    }
    cases
}

fn random_octets(random: &mut Random) -> Vec<Case> {
    let mut cases = Vec::new();
    for length in 0..=MOST_LENT {
        let octets = random.octets(length);
        cases.push(announced(random, octets));
        let small: Vec<u8> = (0..length).map(|_| random.below(5) as u8).collect();
        cases.push(announced(random, small));
    }
    cases
}
