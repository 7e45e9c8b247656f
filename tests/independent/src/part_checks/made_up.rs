//! Answers that are made up: NS is said to lie anywhere, inside the message
//! and outside.

use super::requests::{made_up, Span};
use crate::bench::{Case, Check};
use crate::message_checks::layout::Layout;
use crate::random::Random;
use crate::wire::MOST_LENT;

pub fn checks() -> Vec<Check> {
    vec![
        Check::of_cases("NS part made up: every place and length", every_span),
        Check::of_cases("NS part made up: inside", inside),
        Check::of_cases("NS part made up: ends behind the message", ends_behind),
        Check::of_cases("NS part made up: begins behind the message", begins_behind),
        Check::of_cases("NS part made up: beyond the highest number", beyond_highest),
        Check::of_cases("NS part made up: any numbers", any_numbers),
        Check::of_cases("NS part made up: refusals", refusals),
    ]
}

/// Octets of any length, a message or not.
fn some_octets(random: &mut Random) -> Vec<u8> {
    match random.bit() {
        true => Layout::any(random).octets(),
        false => {
            let length = random.below(MOST_LENT + 1);
            random.octets(length)
        }
    }
}

/// A number from 0 to this, both included.
fn up_to(random: &mut Random, highest: usize) -> u64 {
    random.below(highest + 1) as u64
}

/// A number from 1 on, small or of any size.
fn positive(random: &mut Random) -> u64 {
    let number = random.number() >> random.pick(&[0, 1, 16, 31, 32, 33, 55, 56, 60, 62]);
    number.max(1)
}

fn every_span(random: &mut Random) -> Vec<Case> {
    let mut cases = Vec::new();
    for size in 0..=12 {
        let message = random.octets(size);
        for place in 0..=size as u64 + 2 {
            for length in 0..=size as u64 + 2 {
                cases.push(made_up(0, Span { place, length }, &message).due(0));
            }
        }
    }
    cases
}

fn inside(random: &mut Random) -> Vec<Case> {
    let case = |_| {
        let message = some_octets(random);
        let place = up_to(random, message.len());
        let length = up_to(random, message.len() - place as usize);
        made_up(0, Span { place, length }, &message).due(0)
    };
    (0..4000).map(case).collect()
}

fn ends_behind(random: &mut Random) -> Vec<Case> {
    let case = |_| {
        let message = some_octets(random);
        let place = up_to(random, message.len());
        let left = message.len() as u64 - place;
        let length = left.saturating_add(positive(random));
        made_up(0, Span { place, length }, &message).due(0)
    };
    (0..3000).map(case).collect()
}

fn begins_behind(random: &mut Random) -> Vec<Case> {
    let case = |turn: usize| {
        let message = some_octets(random);
        let place = (message.len() as u64).saturating_add(positive(random));
        let length = match turn % 3 {
            0 => 0,
            1 => up_to(random, MOST_LENT),
            _ => positive(random),
        };
        made_up(0, Span { place, length }, &message).due(0)
    };
    (0..3000).map(case).collect()
}

/// Place and length whose sum, without its highest bit, lies in the message.
fn beyond_highest(random: &mut Random) -> Vec<Case> {
    let case = |turn: usize| {
        let message = some_octets(random);
        let end = up_to(random, message.len());
        let place = match turn % 3 {
            0 => end + 1 + up_to(random, MOST_LENT),
            1 => u64::MAX - up_to(random, MOST_LENT),
            _ => end.saturating_add(positive(random)),
        };
        let length = end.wrapping_sub(place);
        made_up(0, Span { place, length }, &message).due(0)
    };
    (0..2000).map(case).collect()
}

fn any_numbers(random: &mut Random) -> Vec<Case> {
    let case = |_| {
        let message = some_octets(random);
        let [place, length] = [0, 1].map(|_| random.number() >> random.below(64));
        made_up(0, Span { place, length }, &message).due(0)
    };
    (0..3000).map(case).collect()
}

/// Every refusal, on octets that may well be a message with NS.
fn refusals(random: &mut Random) -> Vec<Case> {
    let mut cases = Vec::new();
    for _ in 0..500 {
        let message = some_octets(random);
        let place = up_to(random, message.len());
        let length = up_to(random, message.len() - place as usize);
        for number in 1..=4 {
            cases.push(made_up(number, Span { place, length }, &message).due(number));
        }
    }
    cases
}
