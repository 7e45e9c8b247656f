//! Frames damaged on the line at every place, and runs made at random.

use super::runs::*;
use crate::bench::{Case, Requests};
use crate::random::Random;

pub const FAMILIES: [(&str, Requests); 9] = [
    ("frame reader: one bit inverted, every bit", one_inverted),
    ("frame reader: two bits inverted", two_inverted),
    ("frame reader: one bit removed, every bit", one_removed),
    ("frame reader: one bit inserted, every place", one_inserted),
    ("frame reader: cut at every length", cut),
    ("frame reader: begun at every place", begun_late),
    ("frame reader: random runs", random_runs),
    ("frame reader: random contents", random_contents),
    ("frame reader: runs of random pieces", random_pieces),
];

/// A few frames of lengths from shortest to longest.
fn some_frames(random: &mut Random) -> Vec<Bits> {
    const LENGTHS: [usize; 9] = [1, 1, 2, 3, 5, 9, 17, 33, 64];
    let frame = |length| {
        let (opening, closing) = flag_pair(random);
        frame_bits(opening, &information(random, length), closing)
    };
    LENGTHS.into_iter().map(frame).collect()
}

fn one_inverted(random: &mut Random) -> Vec<Case> {
    let mut cases = Vec::new();
    for frame in some_frames(random) {
        for place in 0..frame.len() {
            let mut damaged = frame.clone();
            damaged[place] ^= true;
            cases.push(heard(random, &damaged));
        }
    }
    cases
}

fn two_inverted(random: &mut Random) -> Vec<Case> {
    let mut cases = Vec::new();
    for frame in some_frames(random) {
        for _ in 0..120 {
            let mut damaged = frame.clone();
            damaged[random.below(frame.len())] ^= true;
            damaged[random.below(frame.len())] ^= true;
            cases.push(heard(random, &damaged));
        }
    }
    cases
}

fn one_removed(random: &mut Random) -> Vec<Case> {
    let mut cases = Vec::new();
    for frame in some_frames(random) {
        for place in 0..frame.len() {
            let mut damaged = frame.clone();
            damaged.remove(place);
            cases.push(heard(random, &damaged));
        }
    }
    cases
}

fn one_inserted(random: &mut Random) -> Vec<Case> {
    let mut cases = Vec::new();
    for frame in some_frames(random) {
        for place in 0..=frame.len() {
            for bit in [false, true] {
                let mut damaged = frame.clone();
                damaged.insert(place, bit);
                cases.push(heard(random, &damaged));
            }
        }
    }
    cases
}

fn cut(random: &mut Random) -> Vec<Case> {
    let mut cases = Vec::new();
    for frame in some_frames(random) {
        let lengths = 0..frame.len();
        cases.extend(lengths.map(|length| heard(random, &frame[..length])));
    }
    cases
}

fn begun_late(random: &mut Random) -> Vec<Case> {
    let mut cases = Vec::new();
    for frame in some_frames(random) {
        let places = 1..frame.len();
        cases.extend(places.map(|place| heard(random, &frame[place..])));
    }
    cases
}

/// Bits of which one in two, or nearly all, are ones.
fn random_runs(random: &mut Random) -> Vec<Case> {
    let mut cases = Vec::new();
    for _ in 0..800 {
        let count = random.within(0, 704);
        let seldom = random.pick(&[2, 2, 7, 20]);
        let bits: Bits = (0..count).map(|_| random.below(seldom) > 0).collect();
        cases.push(heard(random, &bits));
    }
    cases
}

/// Random contents between good flags, with their zeros inserted.
fn random_contents(random: &mut Random) -> Vec<Case> {
    let mut cases = Vec::new();
    for _ in 0..1200 {
        let octets = random.within(1, 72);
        let count = 8 * octets + random.pick(&[0, 0, 0, 1, 5]);
        let (opening, closing) = flag_pair(random);
        let mut plain = random.bits(count);
        if random.bit() {
            plain = with_fcs(&plain[..count - count.min(16)]);
        }
        cases.push(heard(
            random,
            &between_flags(opening, &with_zeros(&plain), closing),
        ));
    }
    cases
}

/// A piece of which frames, and much that resembles them, can be put together.
fn piece(random: &mut Random) -> Bits {
    match random.below(10) {
        0..=2 => flag_bits(1),
        3 => flag_bits(1)[1..].to_vec(),
        4 => flag_bits(1)[..7].to_vec(),
        5 => vec![true; 5],
        6 => vec![random.bit()],
        7 => {
            let length = random.within(1, 3);
            with_zeros(&octet_bits(&information(random, length)))
        }
        _ => {
            let length = random.within(1, 6);
            content(&information(random, length))
        }
    }
}

fn random_pieces(random: &mut Random) -> Vec<Case> {
    let mut cases = Vec::new();
    for _ in 0..5000 {
        let mut bits = flag_bits(random.pick(&[0, 1, 2, 2, 2, 3, 4, 5]));
        for _ in 0..random.within(1, 6) {
            bits.extend(piece(random));
        }
        bits.extend(flag_bits(random.pick(&[0, 1, 1, 2])));
        cases.push(heard(random, &bits));
    }
    cases
}
