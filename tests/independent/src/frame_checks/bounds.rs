//! The reader's refusal 2: flags missing, too few or too many, ones without
//! their zero, bits left over.

use super::runs::*;
use crate::bench::{Case, Requests};
use crate::random::Random;

pub const FAMILIES: [(&str, Requests); 12] = [
    ("frame reader: wrong number of opening flags", opening_flags),
    ("frame reader: wrong number of closing flags", closing_flags),
    ("frame reader: opening flags sharing a zero", opening_shared),
    ("frame reader: closing flags sharing a zero", closing_shared),
    (
        "frame reader: a flag sharing a zero with the content",
        content_shared,
    ),
    ("frame reader: flags only", flags_only),
    ("frame reader: six or more ones inside", many_ones),
    ("frame reader: an inserted zero turned to one", zero_to_one),
    (
        "frame reader: last zero left out behind the FCS",
        fcs_zero_missing,
    ),
    (
        "frame reader: last zero left out behind any content",
        zero_missing,
    ),
    ("frame reader: bits left over", left_over),
    ("frame reader: abort sequences", aborts),
];

fn short_content(random: &mut Random) -> Bits {
    let length = random.within(1, 20);
    content(&information(random, length))
}

fn opening_flags(random: &mut Random) -> Vec<Case> {
    let mut cases = Vec::new();
    for opening in [0, 1, 6, 7, 8, 9, 10, 20, 40] {
        for closing in 1..=3 {
            for _ in 0..12 {
                let bits = between_flags(opening, &short_content(random), closing);
                cases.push(heard(random, &bits).due(2));
            }
        }
    }
    cases
}

fn closing_flags(random: &mut Random) -> Vec<Case> {
    let mut cases = Vec::new();
    for closing in [0, 4, 5, 6, 7, 8, 20, 40] {
        for opening in 2..=5 {
            for _ in 0..10 {
                let bits = between_flags(opening, &short_content(random), closing);
                cases.push(heard(random, &bits).due(2));
            }
        }
    }
    cases
}

/// Flags of which one, not the first, lacks its own first zero.
fn flags_with_shared_zero(count: usize, sharing: usize) -> Bits {
    let mut bits = flag_bits(count);
    bits.remove(8 * sharing);
    bits
}

fn opening_shared(random: &mut Random) -> Vec<Case> {
    let mut cases = Vec::new();
    for count in 2..=7 {
        for sharing in 1..count {
            for closing in 1..=3 {
                let opening = flags_with_shared_zero(count, sharing);
                let content = short_content(random);
                let bits = [opening, content, flag_bits(closing)].concat();
                cases.push(heard(random, &bits).due(2));
            }
        }
    }
    cases
}

fn closing_shared(random: &mut Random) -> Vec<Case> {
    let mut cases = Vec::new();
    for opening in 2..=5 {
        for count in 2..=5 {
            for sharing in 1..count {
                let closing = flags_with_shared_zero(count, sharing);
                let content = short_content(random);
                let bits = [flag_bits(opening), content, closing].concat();
                cases.push(heard(random, &bits).due(2));
            }
        }
    }
    cases
}

/// The content's first or last bit does duty as the neighbouring flag's zero
/// as well, or a flag lacks its zero where the content has a one.
fn content_shared(random: &mut Random) -> Vec<Case> {
    let mut cases = Vec::new();
    for _ in 0..120 {
        let (opening, closing) = flag_pair(random);
        let content = short_content(random);
        let mut at_start = between_flags(opening, &content, closing);
        at_start.remove(8 * opening);
        cases.push(heard(random, &at_start));
        let mut at_end = between_flags(opening, &content, closing);
        at_end.remove(8 * opening + content.len());
        cases.push(heard(random, &at_end));
    }
    cases
}

fn flags_only(random: &mut Random) -> Vec<Case> {
    let mut cases = Vec::new();
    for count in 0..=87 {
        let bits = flag_bits(count);
        cases.push(heard(random, &bits).due(2));
        let part = random.within(1, 8);
        let more = [bits, flag_bits(1)[..part].to_vec()].concat();
        cases.push(heard(random, &more).due(2));
    }
    cases
}

/// Six to sixteen ones put into a frame's content, its ends included. Six
/// between two zeros make a flag, and if the content ends there a closing one
/// in the right place; so nothing is said beforehand about six.
fn many_ones(random: &mut Random) -> Vec<Case> {
    let mut cases = Vec::new();
    for ones in 6..=16 {
        for closing in 1..=3 {
            let opening = random.within(2, 5);
            let content = short_content(random);
            let middle = random.below(content.len());
            for place in [0, 1, middle, content.len() - 1, content.len()] {
                let (before, behind) = content.split_at(place);
                let broken = [before, &vec![true; ones], behind].concat();
                let case = heard(random, &between_flags(opening, &broken, closing));
                cases.push(if ones > 6 { case.due(2) } else { case });
            }
        }
    }
    cases
}

/// The places of the inserted zeros in a content.
fn inserted_zeros(content: &[bool]) -> Vec<usize> {
    let after_five = |&place: &usize| content[place - 5..place] == [true; 5];
    (5..content.len()).filter(after_five).collect()
}

/// The six ones break the content, unless they make its first bits one more
/// opening flag.
fn zero_to_one(random: &mut Random) -> Vec<Case> {
    let mut cases = Vec::new();
    for length in [1, 2, 3, 5, 9, 17, 64] {
        for information in [vec![0xFF; length], ending_with_five_ones(random, length)] {
            let (opening, closing) = flag_pair(random);
            let content = content(&information);
            for place in inserted_zeros(&content) {
                let mut broken = content.clone();
                broken[place] = true;
                let case = heard(random, &between_flags(opening, &broken, closing));
                let flag_made = broken.starts_with(&flag_bits(1));
                cases.push(if flag_made { case } else { case.due(2) });
            }
        }
    }
    cases
}

fn fcs_zero_missing(random: &mut Random) -> Vec<Case> {
    let mut cases = Vec::new();
    for length in 1..=64 {
        for _ in 0..3 {
            let information = ending_with_five_ones(random, length);
            let (opening, closing) = flag_pair(random);
            let mut content = content(&information);
            content.pop();
            let bits = between_flags(opening, &content, closing);
            cases.push(heard(random, &bits).due(2));
        }
    }
    cases
}

/// Contents of any number of bits that end with five ones.
fn zero_missing(random: &mut Random) -> Vec<Case> {
    let mut cases = Vec::new();
    for count in (0..80).chain([500, 515, 523, 524, 531, 600]) {
        let mut plain = random.bits(count);
        plain.push(false);
        let content = [with_zeros(&plain), vec![true; 5]].concat();
        let (opening, closing) = flag_pair(random);
        let bits = between_flags(opening, &content, closing);
        if bits.len() <= 704 {
            cases.push(heard(random, &bits).due(2));
        }
    }
    cases
}

/// One to 24 bits behind the closing flags that complete no further flag.
fn left_over(random: &mut Random) -> Vec<Case> {
    let mut cases = Vec::new();
    for count in 1..=24 {
        for closing in 1..=3 {
            let part_of_flag = flag_bits(3)[..count].to_vec();
            let tails = [
                vec![false; count],
                vec![true; count],
                random.bits(count),
                part_of_flag,
            ];
            for tail in tails
                .into_iter()
                .filter(|tail| *tail != flag_bits(count / 8))
            {
                let opening = random.within(2, 5);
                let frame = between_flags(opening, &short_content(random), closing);
                cases.push(heard(random, &[frame, tail].concat()).due(2));
            }
        }
    }
    cases
}

/// Seven to fifteen ones before the frame, behind its opening flags, inside,
/// instead of its closing flags and behind them.
fn aborts(random: &mut Random) -> Vec<Case> {
    let mut cases = Vec::new();
    for ones in 7..=15 {
        for _ in 0..4 {
            let abort = vec![true; ones];
            let (opening, closing) = flag_pair(random);
            let content = short_content(random);
            let frame = between_flags(opening, &content, closing);
            let inside = random.within(1, content.len() - 1);
            let end = 8 * opening + content.len();
            for place in [0, 8 * opening, 8 * opening + inside, end, frame.len()] {
                let (before, behind) = frame.split_at(place);
                cases.push(heard(random, &[before, &abort, behind].concat()).due(2));
            }
            cases.push(heard(random, &[&frame[..end], &abort].concat()).due(2));
        }
    }
    cases
}
