//! Runs with several causes of refusal at once: the reader must name the
//! first of them in its order.

use super::runs::*;
use crate::bench::{Case, Requests};
use crate::random::Random;

pub const FAMILIES: [(&str, Requests); 1] = [("frame reader: several causes at once", several)];

/// A run that is bounded well or badly, with the number due for that.
fn bounded(content: &[bool], way: usize) -> (Bits, Option<u8>) {
    let ones_at_end = [content, &[false, true, true, true, true, true]].concat();
    let bits = match way {
        0 => between_flags(2, content, 1),
        1 => between_flags(4, content, 3),
        2 => between_flags(1, content, 1),
        3 => between_flags(6, content, 1),
        4 => between_flags(2, content, 0),
        5 => between_flags(2, content, 4),
        6 => [between_flags(2, content, 1), vec![false]].concat(),
        7 => between_flags(2, &[&[true; 7], content].concat(), 1),
        _ => between_flags(2, &ones_at_end, 1),
    };
    (bits, if way < 2 { None } else { Some(2) })
}

/// The first cause of refusal that plain content of so many bits has.
fn content_due(count: usize, fcs_right: bool) -> u8 {
    match (count % 8, count / 8) {
        (1.., _) => 3,
        (_, ..3) => 4,
        (_, 67..) => 5,
        _ if fcs_right => 0,
        _ => 6,
    }
}

/// Plain content of so many bits, 16 at least, whose FCS is right or wrong.
/// Few ones keep the longest within 704 bits.
fn plain_content(random: &mut Random, count: usize, fcs_right: bool) -> Bits {
    let bits: Bits = (16..count).map(|_| random.below(4) == 0).collect();
    let mut plain = with_fcs(&bits);
    if !fcs_right {
        plain[random.below(count)] ^= true;
    }
    plain
}

/// The bits lent in each good or bad way, with the number due.
fn lendings(random: &mut Random, bits: &[bool], due: u8) -> Vec<Case> {
    let mut cases = Vec::new();
    for room in [0, 63, 64] {
        for count_too_high in [false, true] {
            let run = lent(random, bits);
            let above = 8 * run.len() as u32 + 1;
            let count = if count_too_high {
                above
            } else {
                bits.len() as u32
            };
            let due = if count_too_high || room < 64 { 1 } else { due };
            cases.push(reader_case(count, &run, &random.octets(room)).due(due));
        }
    }
    cases
}

fn several(random: &mut Random) -> Vec<Case> {
    let mut cases = Vec::new();
    for count in [16, 17, 19, 23, 24, 25, 64, 67, 528, 531, 536, 537, 600] {
        for fcs_right in [true, false] {
            for way in 0..9 {
                let plain = plain_content(random, count, fcs_right);
                let (bits, due) = bounded(&with_zeros(&plain), way);
                let due = due.unwrap_or(content_due(count, fcs_right));
                cases.extend(lendings(random, &bits, due));
            }
        }
    }
    cases
}
