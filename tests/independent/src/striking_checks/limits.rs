//! Outputs of every size, several causes of refusal at once, and messages of
//! one octet.

use super::requests::case;
use crate::bench::{Case, Check};
use crate::message_checks::layout::Layout;
use crate::message_checks::requests::{BARE, MESSAGE_ROOM};
use crate::message_checks::with_all_sets_of_causes;
use crate::random::Random;
use crate::wire::MOST_LENT;

pub fn checks() -> Vec<Check> {
    vec![
        Check::of_cases("striking: every room", rooms),
        Check::of_cases("striking: several causes at once", several),
        Check::of_cases("striking: ACK and NAK", bare),
    ]
}

fn rooms(random: &mut Random) -> Vec<Case> {
    let mut cases = Vec::new();
    for room in 0..=MOST_LENT {
        let due = if room < MESSAGE_ROOM { 1 } else { 0 };
        for _ in 0..12 {
            let message = Layout::mixed(random).octets();
            cases.push(case(&message, &random.octets(room)).due(due));
        }
    }
    cases
}

fn several(random: &mut Random) -> Vec<Case> {
    let mut cases = Vec::new();
    for room in [0, 1, 63, 64, 65, MOST_LENT] {
        for _ in 0..60 {
            for (octets, number) in with_all_sets_of_causes(random) {
                let due = if room < MESSAGE_ROOM { 1 } else { number };
                cases.push(case(&octets, &random.octets(room)).due(due));
            }
        }
    }
    cases
}

/// Each type and revision, with one octet changed in outputs of many sizes.
fn bare(random: &mut Random) -> Vec<Case> {
    let mut cases = Vec::new();
    for kind in BARE {
        for revision in 0..16 {
            for room in MESSAGE_ROOM..2 * MESSAGE_ROOM {
                let message = [revision << 4 | kind];
                cases.push(case(&message, &random.octets(room)).due(0));
            }
        }
    }
    cases
}
