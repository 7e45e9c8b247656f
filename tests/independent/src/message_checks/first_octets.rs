//! The first octet: types known and unknown, every revision, and what may
//! stand behind.

use super::layout::Layout;
use super::requests::*;
use crate::bench::Case;
use crate::random::Random;

pub const FAMILIES: [(&str, Family); 4] = [
    ("every first octet alone", alone),
    ("every first octet with fields", with_fields),
    ("every first octet with anything", with_anything),
    ("octets behind ACK and NAK", behind_bare),
];

/// The number due to a message whose octets behind the first are well-formed
/// fields, or none.
fn due(first: u8, behind: &[u8]) -> u8 {
    let kind = first & 15;
    let is_among = |kinds: &[u8]| kinds.contains(&kind);
    match (is_among(&UNKNOWN), is_among(&BARE), behind.is_empty()) {
        (true, _, _) => 3,
        (_, bare, empty) if bare == empty => 0,
        _ => 4,
    }
}

fn case(random: &mut Random, put: Put, first: u8, behind: &[u8]) -> Case {
    put(random, &[&[first], behind].concat())
}

fn alone(random: &mut Random, put: Put) -> Vec<Case> {
    let firsts = 0..=255;
    firsts
        .map(|first| case(random, put, first, &[]).due(due(first, &[])))
        .collect()
}

fn with_fields(random: &mut Random, put: Put) -> Vec<Case> {
    let mut cases = Vec::new();
    for first in 0..=255 {
        let smallest = vec![0x80; 4];
        let any = Layout::any(random).octets().split_off(1);
        let any_more = Layout::any(random).octets().split_off(1);
        for behind in [smallest, any, any_more] {
            cases.push(case(random, put, first, &behind).due(due(first, &behind)));
        }
    }
    cases
}

fn with_anything(random: &mut Random, put: Put) -> Vec<Case> {
    let mut cases = Vec::new();
    for first in 0..=255 {
        for length in [1, random.within(2, 6), random.within(7, 63)] {
            let behind = random.octets(length);
            cases.push(case(random, put, first, &behind));
        }
    }
    cases
}

fn behind_bare(random: &mut Random, put: Put) -> Vec<Case> {
    let mut cases = Vec::new();
    for kind in BARE {
        for octet in [0x00, 0x40, 0x80, 0xC0, 0xFF, random.octet()] {
            for length in [1, 2, 3, 4, 5, 63] {
                let first = (random.octet() << 4) | kind;
                cases.push(case(random, put, first, &vec![octet; length]).due(4));
            }
        }
    }
    cases
}
