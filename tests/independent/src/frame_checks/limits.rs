//! The reader's refusal 1: bit counts and rooms out of limits.

use super::runs::*;
use crate::bench::{Case, Requests};
use crate::frame;
use crate::random::Random;

pub const FAMILIES: [(&str, Requests); 5] = [
    ("frame reader: every room too small", small_rooms),
    ("frame reader: bit counts above 704", high_counts),
    ("frame reader: bit counts up to 704", counts_within),
    ("frame reader: bit counts above the run's", counts_beyond),
    ("frame reader: very large bit counts", huge_counts),
];

fn small_rooms(random: &mut Random) -> Vec<Case> {
    let mut cases = Vec::new();
    for room in 0..64 {
        for length in [1, 64, room.max(1), random.within(1, 64)] {
            let (opening, closing) = flag_pair(random);
            let bits = frame_bits(opening, &information(random, length), closing);
            let run = lent(random, &bits);
            let out = random.octets(room);
            cases.push(reader_case(bits.len() as u32, &run, &out).due(1));
        }
    }
    cases
}

/// A run of 255 octets, so that only the bit count itself is too high.
fn high_counts(random: &mut Random) -> Vec<Case> {
    let mut cases = Vec::new();
    for count in (705..=760).chain((761..=2040).step_by(11)).chain([2040]) {
        let mut run = frame::packed(&any_frame(random));
        run.resize(MOST_LENT, random.pick(&[0x00, 0x7E, 0xFF]));
        let out = random.octets(64);
        cases.push(reader_case(count, &run, &out).due(1));
    }
    cases
}

/// The highest counts that are looked at: faultless flags around content that
/// is too long or no whole number of octets.
fn counts_within(random: &mut Random) -> Vec<Case> {
    let mut cases = Vec::new();
    for count in 690..=704 {
        for (opening, closing) in flag_pairs() {
            // Alternating bits need no inserted zeros, so the count is exact.
            let inside = count - 8 * (opening + closing);
            let content: Bits = (0..inside).map(|place| place % 2 == 0).collect();
            let bits = between_flags(opening, &content, closing);
            let due = if inside % 8 == 0 { 5 } else { 3 };
            cases.push(heard(random, &bits).due(due));
        }
    }
    cases
}

fn counts_beyond(random: &mut Random) -> Vec<Case> {
    let mut cases = Vec::new();
    for _ in 0..40 {
        let bits = any_frame(random);
        let run = frame::packed(&bits);
        let end = 8 * run.len() as u32;
        for more in [1, 2, 3, 7, 8, 9, 64, 300] {
            let out = random.octets(64);
            cases.push(reader_case(end + more, &run, &out).due(1));
        }
        let shortened = &run[..run.len() - 1];
        let out = random.octets(64);
        cases.push(reader_case(bits.len() as u32, shortened, &out).due(1));
    }
    for count in 1..=16 {
        let out = random.octets(64);
        cases.push(reader_case(count, &[], &out).due(1));
    }
    cases
}

/// Counts that are right in their low bits only, and the largest ones.
fn huge_counts(random: &mut Random) -> Vec<Case> {
    let mut cases = Vec::new();
    for _ in 0..20 {
        let bits = any_frame(random);
        let count = bits.len() as u32;
        let aliases = (10..32).map(|place| count + (1 << place));
        let ends = [u32::MAX, u32::MAX - 7, 1 << 31, (1 << 31) - 1, 1 << 29];
        let eighths = [count + (1 << 29), (1 << 29) + 1, u32::MAX / 8];
        for count in aliases.chain(ends).chain(eighths) {
            let run = lent(random, &bits);
            let out = random.octets(64);
            cases.push(reader_case(count, &run, &out).due(1));
        }
    }
    cases
}
