//! The writer's first octet: every type, every revision, and ACK and NAK with
//! what they must not have.

use super::drawn::non_standard_field;
use super::layout::Layout;
use super::requests::*;
use super::writer_spoiled::meaning_with;
use crate::bench::{Case, Check};
use crate::message::Meaning;
use crate::random::Random;

pub fn checks() -> Vec<Check> {
    vec![
        Check::of_cases("message writer: every type", types),
        Check::of_cases("message writer: every revision", revisions),
        Check::of_cases(
            "message writer: every known type and revision",
            first_octets,
        ),
        Check::of_cases("message writer: ACK and NAK with a list", bare_with_list),
        Check::of_cases(
            "message writer: ACK and NAK with NS",
            bare_with_non_standard,
        ),
    ]
}

fn types(random: &mut Random) -> Vec<Case> {
    let mut cases = Vec::new();
    for kind in 0..=255 {
        let known = kind < 16 && !UNKNOWN.contains(&kind);
        let bare = bare(random, kind);
        cases.push(told(random, &bare).due(if known { 0 } else { 3 }));
        let with_list = Meaning {
            kind,
            ..meaning_with(random, 1)
        };
        let due = match known {
            false => 3,
            true if BARE.contains(&kind) => 8,
            true => 0,
        };
        cases.push(told(random, &with_list).due(due));
    }
    cases
}

fn revisions(random: &mut Random) -> Vec<Case> {
    let mut cases = Vec::new();
    for revision in 0..=255 {
        let due = if revision > 15 { 3 } else { 0 };
        let kind = random.pick(&BARE);
        for good in [bare(random, kind), Layout::any(random).meaning()] {
            let meaning = Meaning { revision, ..good };
            cases.push(told(random, &meaning).due(due));
        }
    }
    cases
}

fn first_octets(random: &mut Random) -> Vec<Case> {
    let mut cases = Vec::new();
    for revision in 0..16 {
        for kind in BARE {
            let meaning = Meaning {
                revision,
                ..bare(random, kind)
            };
            cases.push(told(random, &meaning).due(0));
        }
        for kind in WITH_FIELDS {
            let meaning = Meaning {
                kind,
                revision,
                ..Layout::any(random).meaning()
            };
            cases.push(told(random, &meaning).due(0));
        }
    }
    cases
}

fn bare_with_list(random: &mut Random) -> Vec<Case> {
    let mut cases = Vec::new();
    for kind in BARE {
        for _ in 0..15 {
            let meaning = Meaning {
                kind,
                ..meaning_with(random, 1)
            };
            let list_alone = Meaning {
                non_standard: Vec::new(),
                ..meaning.clone()
            };
            let one_code = Meaning {
                codes: vec![1 << 27 | 1],
                ..list_alone.clone()
            };
            for meaning in [meaning, list_alone, one_code] {
                cases.push(told(random, &meaning).due(8));
            }
        }
    }
    cases
}

/// NS well formed, malformed and too long.
fn bare_with_non_standard(random: &mut Random) -> Vec<Case> {
    let mut cases = Vec::new();
    for kind in BARE {
        for length in [3, 5, 40, 63, 64, 100, 255] {
            for non_standard in [non_standard_field(random, length), random.octets(length)] {
                let meaning = Meaning {
                    non_standard,
                    ..bare(random, kind)
                };
                cases.push(told(random, &meaning).due(8));
            }
        }
        let single_octet = Meaning {
            non_standard: random.octets(1),
            ..bare(random, kind)
        };
        cases.push(told(random, &single_octet).due(8));
    }
    cases
}
