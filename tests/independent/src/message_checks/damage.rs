//! Messages damaged at every place, and octets made at random.

use super::layout::Layout;
use super::requests::*;
use crate::bench::Case;
use crate::random::Random;

pub const FAMILIES: [(&str, Family); 9] = [
    ("one bit inverted, every bit", one_inverted),
    ("two bits inverted", two_inverted),
    ("cut at every length", cut),
    ("one octet removed, every octet", one_removed),
    ("one octet added, every place", one_added),
    ("two octets exchanged", exchanged),
    ("random octets of every length", random_octets),
    ("random fields of every length", random_fields),
    ("all short Par(2) blocks", short_par_2),
];

/// Whole messages, many of them not minimal, some of 64 octets.
fn some_layouts(random: &mut Random, count: usize) -> Vec<Layout> {
    let layout = |turn: usize| {
        let layout = Layout::any(random);
        match turn % 12 {
            0 => layout.stretched(random, MOST_OCTETS, |random| random.octet() & 0x3F),
            _ => layout,
        }
    };
    (0..count).map(layout).collect()
}

fn some_messages(random: &mut Random, count: usize) -> Vec<Vec<u8>> {
    let layouts = some_layouts(random, count);
    layouts.iter().map(Layout::octets).collect()
}

/// The octets with one bit inverted, each in turn.
pub fn each_bit_inverted(octets: &[u8]) -> impl Iterator<Item = Vec<u8>> + '_ {
    (0..8 * octets.len()).map(|place| {
        let mut damaged = octets.to_vec();
        damaged[place / 8] ^= 1 << (place % 8);
        damaged
    })
}

fn one_inverted(random: &mut Random, put: Put) -> Vec<Case> {
    let mut cases = Vec::new();
    for message in some_messages(random, 100) {
        for damaged in each_bit_inverted(&message) {
            cases.push(put(random, &damaged));
        }
    }
    cases
}

fn two_inverted(random: &mut Random, put: Put) -> Vec<Case> {
    let mut cases = Vec::new();
    for message in some_messages(random, 150) {
        for _ in 0..15 {
            let mut damaged = message.clone();
            for _ in 0..2 {
                damaged[random.below(message.len())] ^= 1 << random.below(8);
            }
            cases.push(put(random, &damaged));
        }
    }
    cases
}

/// What is cut before the end of NS is no message, unless one of its blocks
/// ends there.
fn cut(random: &mut Random, put: Put) -> Vec<Case> {
    let mut cases = Vec::new();
    for layout in some_layouts(random, 150) {
        let message = layout.octets();
        let end_of_fields = message.len() - layout.non_standard.len();
        for length in 0..message.len() {
            let case = put(random, &message[..length]);
            cases.push(match length {
                0 => case.due(2),
                _ if length <= end_of_fields => case.due(4),
                _ => case,
            });
        }
    }
    cases
}

fn one_removed(random: &mut Random, put: Put) -> Vec<Case> {
    let mut cases = Vec::new();
    for message in some_messages(random, 100) {
        for place in 0..message.len() {
            let mut damaged = message.clone();
            damaged.remove(place);
            cases.push(put(random, &damaged));
        }
    }
    cases
}

fn one_added(random: &mut Random, put: Put) -> Vec<Case> {
    let mut cases = Vec::new();
    for message in some_messages(random, 110) {
        for place in 0..=message.len() {
            let mut damaged = message.clone();
            let any = random.octet();
            damaged.insert(place, random.pick(&[0x00, 0x40, 0x80, 0xC0, any]));
            cases.push(put(random, &damaged));
        }
    }
    cases
}

fn exchanged(random: &mut Random, put: Put) -> Vec<Case> {
    let mut cases = Vec::new();
    for message in some_messages(random, 100) {
        for _ in 0..10 {
            let mut damaged = message.clone();
            damaged.swap(random.below(message.len()), random.below(message.len()));
            cases.push(put(random, &damaged));
        }
    }
    cases
}

fn random_octets(random: &mut Random, put: Put) -> Vec<Case> {
    let mut cases = Vec::new();
    for length in 0..=70 {
        for _ in 0..25 {
            let octets = random.octets(length);
            cases.push(put(random, &octets));
        }
    }
    cases
}

/// An octet as it often stands in a message: with few parameters, and with
/// marks more often than not.
fn likely_octet(random: &mut Random) -> u8 {
    let marks = random.pick(&[0x00, 0x40, 0x40, 0x80, 0x80, 0xC0, 0xC0]);
    let few = 1 << random.below(6);
    marks | random.pick(&[0, 0, few])
}

/// A good first octet and likely ones behind it, so that many are messages.
fn random_fields(random: &mut Random, put: Put) -> Vec<Case> {
    let mut cases = Vec::new();
    for length in 1..=70 {
        let turns = if length < 20 { 140 } else { 20 };
        for _ in 0..turns {
            let first = (random.octet() << 4) | random.pick(&WITH_FIELDS);
            let mut octets = vec![first];
            octets.extend((1..length).map(|_| likely_octet(random)));
            cases.push(put(random, &octets));
        }
    }
    cases
}

/// Every row of one to four octets, each with one of a few contents and any
/// marks, as the only Par(2) block of S.
fn short_par_2(random: &mut Random, put: Put) -> Vec<Case> {
    const OCTETS: [u8; 8] = [0x00, 0x01, 0x40, 0x41, 0x80, 0x81, 0xC0, 0xC1];
    let mut cases = Vec::new();
    for length in 1..=4 {
        for number in 0..OCTETS.len().pow(length) {
            let mut octets = vec![0x22, 0x80, 0x80, 0x80, 0x81];
            octets.extend((0..length).map(|place| OCTETS[number >> (3 * place) & 7]));
            cases.push(put(random, &octets));
        }
    }
    cases
}
