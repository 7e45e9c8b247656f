//! Requests to striking that are no well-formed requests.

use super::requests::{case, put, request};
use crate::bench::{Case, Check};
use crate::message_checks::layout::Layout;
use crate::message_checks::requests::MESSAGE_ROOM;
use crate::random::Random;
use crate::wire::MOST_LENT;
use crate::wire_checks::{self, TOO_LONG};

pub fn checks() -> Vec<Check> {
    vec![
        Check::of_cases("striking requests: cut short", cut_short),
        Check::of_cases("striking requests: octets left over", left_over),
        Check::of_cases("striking requests: lengths above the limit", above_limit),
        Check::of_cases("striking requests: lengths at the limit", at_limit),
    ]
}

fn samples(random: &mut Random) -> [Vec<u8>; 2] {
    [MESSAGE_ROOM, MOST_LENT].map(|room| {
        let message = Layout::mixed(random).octets();
        request(&message, &random.octets(room))
    })
}

fn well_formed(random: &mut Random) -> Vec<Case> {
    let message = Layout::mixed(random).octets();
    vec![put(random, &message).due(0)]
}

fn cut_short(random: &mut Random) -> Vec<Case> {
    let malformed = wire_checks::cut_short(&samples(random));
    wire_checks::between(random, malformed, well_formed)
}

fn left_over(random: &mut Random) -> Vec<Case> {
    let requests = samples(random);
    let malformed = wire_checks::with_octets_left_over(random, &requests);
    wire_checks::between(random, malformed, well_formed)
}

/// All octets present; then lengths with nothing behind them.
fn above_limit(random: &mut Random) -> Vec<Case> {
    let mut requests = vec![vec![5, 0xFF, 0xFF], vec![5, 1, 0, 0x24, 0xFF, 0xFF]];
    for length in TOO_LONG {
        let long = random.octets(length);
        let message = Layout::mixed(random).octets();
        requests.push(request(&long, &random.octets(MESSAGE_ROOM)));
        requests.push(request(&message, &long));
        requests.push(request(&long, &long));
    }
    let malformed = requests.into_iter().map(wire_checks::malformed).collect();
    wire_checks::between(random, malformed, well_formed)
}

/// The longest messages and outputs are no malformed requests.
fn at_limit(random: &mut Random) -> Vec<Case> {
    let mut cases = Vec::new();
    for _ in 0..20 {
        let [longest, out] = [0, 1].map(|_| random.octets(MOST_LENT));
        cases.push(case(&longest, &out).due(2));
    }
    cases
}
