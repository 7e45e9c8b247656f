//! The writer's rooms, and several causes of refusal at once: the writer must
//! name the first of them in its order.

use super::drawn::non_standard_field;
use super::layout::Layout;
use super::requests::*;
use super::writer_spoiled::{impossible_code, insert_in_order, meaning_with};
use crate::bench::{Case, Check};
use crate::message::{Code, Meaning};
use crate::random::Random;
use crate::wire::MOST_LENT;

pub fn checks() -> Vec<Check> {
    vec![
        Check::of_cases("message writer: every room", rooms),
        Check::of_cases("message writer: several causes at once", several),
    ]
}

fn rooms(random: &mut Random) -> Vec<Case> {
    let mut cases = Vec::new();
    for room in 0..=MOST_LENT {
        let due = if room < MESSAGE_ROOM { 1 } else { 0 };
        let kind = random.pick(&BARE);
        for meaning in [bare(random, kind), Layout::any(random).meaning()] {
            let out = random.octets(room);
            cases.push(writer_case(&meaning, &out).due(due));
        }
    }
    cases
}

const CAUSES: [u8; 8] = [1, 3, 5, 6, 7, 8, 9, 10];

/// Every set of causes, eight times.
fn several(random: &mut Random) -> Vec<Case> {
    let mut cases = Vec::new();
    for set in 0..8 << CAUSES.len() {
        let chosen = |(place, number): (usize, &u8)| (set >> place & 1 == 1).then_some(*number);
        let causes: Vec<u8> = CAUSES.iter().enumerate().filter_map(chosen).collect();
        let mut meaning = meaning_with(random, 3);
        // The causes are brought in from the last to the first, so that none
        // is undone by the next.
        for &cause in causes.iter().rev() {
            spoil(random, &mut meaning, cause);
        }
        let room = match causes.contains(&1) {
            true => random.pick(&[0, 1, 5, 62, 63]),
            false => random.pick(&[64, 65, MOST_LENT]),
        };
        let case = writer_case(&meaning, &random.octets(room));
        cases.push(case.due(causes.first().copied().unwrap_or(0)));
    }
    cases
}

/// Brings this cause of refusal into the meaning, and none before it.
fn spoil(random: &mut Random, meaning: &mut Meaning, cause: u8) {
    match cause {
        3 if random.bit() => meaning.kind = random.pick(&UNKNOWN),
        3 => meaning.revision = random.within(16, 255) as u8,
        5 => insert_in_order(&mut meaning.codes, impossible_code(random).number()),
        6 if random.bit() => meaning.codes.swap(0, 1),
        6 => meaning.codes.insert(1, meaning.codes[0]),
        7 => {
            let orphan = Code::new(2, 511, 0, random.within(1, 511) as u32);
            meaning.codes.push(orphan.number());
        }
        8 => meaning.kind = random.pick(&BARE),
        9 => spoil_non_standard(random, meaning),
        10 => {
            let far = Code::new(2, random.within(450, 510) as u32, 0, 0);
            meaning.codes.push(far.number());
        }
        _ => {}
    }
}

/// NS without its code, the code without NS, or a badly formed NS with it.
fn spoil_non_standard(random: &mut Random, meaning: &mut Meaning) {
    let announcing = Code::NON_STANDARD_FIELD.number();
    meaning.codes.retain(|&code| code != announcing);
    meaning.non_standard = match random.below(3) {
        0 => non_standard_field(random, 4),
        1 => Vec::new(),
        _ => vec![1, 2],
    };
    if meaning.non_standard.len() < 3 {
        insert_in_order(&mut meaning.codes, announcing);
    }
}
