//! Calls of the message reader.

use super::calls::Call;
use super::families::Family;
use super::trial::Trial;
use crate::message_checks::layout::Layout;
use crate::message_checks::{families as message_families, requests, READER_LIMITS};
use crate::random::Random;

/// The least room for a list, in octets.
const ROOM: usize = 1792;

const MOST_OCTETS: usize = 64;

/// Octets lent for a list: far too few, one too few, enough, more than that,
/// and no whole number of codes.
const ROOMS: [usize; 13] = [
    0, 1, 3, 448, 1788, 1791, ROOM, 1793, 1794, 1795, 1796, 1800, 2048,
];

pub fn families() -> Vec<Family> {
    let on_messages = message_families().map(|&(messages, family)| {
        let name = format!("message reader: {messages}");
        Family::of_requests(&name, move |random| family(random, requests::heard))
    });
    let limits = READER_LIMITS.iter();
    let limits = limits.map(|&(name, family)| Family::of_requests(name, family));
    let own = [
        Family::new("message reader: messages drawn at random", drawn),
        Family::new("message reader: the same in minimal form", minimal),
        Family::new("message reader: parameters named and unnamed", mixed),
        Family::new("message reader: messages damaged at random", damaged),
        Family::new("message reader: sizes 0 to 70 and 300", sizes),
        Family::new(
            "message reader: every first octet with every size",
            first_octets,
        ),
        Family::new(
            "message reader: lists of every size around the least",
            lists,
        ),
        Family::new(
            "message reader: lists that are no whole number of codes",
            rooms,
        ),
    ];
    on_messages.chain(limits).chain(own).collect()
}

/// Room enough, mostly no more than that.
fn room(random: &mut Random) -> usize {
    random.pick(&[ROOM, ROOM, ROOM, ROOM, 1793, 1794, 1795, 1800])
}

fn heard(random: &mut Random, message: &[u8]) -> Call {
    let room = room(random);
    Call::read_message(random, message, room)
}

fn drawn(random: &mut Random, trial: &mut Trial) {
    for _ in 0..12_000 {
        let octets = Layout::any(random).octets();
        trial.put_due(&heard(random, &octets), 0);
    }
}

fn minimal(random: &mut Random, trial: &mut Trial) {
    for _ in 0..4_000 {
        let octets = Layout::any(random).trimmed().octets();
        trial.put_due(&heard(random, &octets), 0);
    }
}

fn mixed(random: &mut Random, trial: &mut Trial) {
    for _ in 0..4_000 {
        let octets = Layout::mixed(random).octets();
        trial.put_due(&heard(random, &octets), 0);
    }
}

/// One to three faults: a bit inverted, an octet changed, removed or added,
/// or the end cut off.
fn damaged(random: &mut Random, trial: &mut Trial) {
    for _ in 0..12_000 {
        let mut octets = Layout::any(random).octets();
        for _ in 0..random.pick(&[1, 1, 1, 2, 3]) {
            let place = random.below(octets.len());
            match random.below(6) {
                0 | 1 => octets[place] ^= 1 << random.below(8),
                2 => octets[place] = random.octet(),
                3 => octets.insert(place, random.octet()),
                4 => octets.truncate(place.max(3)),
                _ => {
                    octets.remove(place);
                }
            }
        }
        trial.put(&heard(random, &octets));
    }
}

fn sizes(random: &mut Random, trial: &mut Trial) {
    for size in (0..=70).chain([300]) {
        for turn in 0..60 {
            let mut octets = random.octets(size);
            if turn % 2 == 0 {
                octets.iter_mut().take(1).for_each(|first| *first = 0x22);
            }
            let call = heard(random, &octets);
            match size {
                0 | 65.. => trial.put_due(&call, 2),
                _ => trial.put(&call),
            }
        }
    }
}

/// Empty fields, and anything behind them.
fn first_octets(random: &mut Random, trial: &mut Trial) {
    for first in 0..=255 {
        for size in [1, 2, 3, 4, 5, 6, 7, 20, 63, 64, 65] {
            let mut octets = [vec![first], vec![0x80; 4], random.octets(60)].concat();
            octets.truncate(size);
            trial.put(&heard(random, &octets));
        }
    }
}

fn lists(random: &mut Random, trial: &mut Trial) {
    for room in (0..40).chain(1760..=1830) {
        for _ in 0..6 {
            let octets = Layout::any(random).octets();
            let call = Call::read_message(random, &octets, room);
            trial.put_due(&call, if room < ROOM { 1 } else { 0 });
        }
    }
}

/// Each of them with good and bad messages, the longest lists among them.
fn rooms(random: &mut Random, trial: &mut Trial) {
    for room in ROOMS {
        for _ in 0..60 {
            let good = Layout::any(random);
            let longest = good.clone().stretched(random, MOST_OCTETS, |_| 0x3F);
            let cut = good.octets()[..4].to_vec();
            let unknown = vec![random.octet() | 0x0F; 3];
            let too_long = vec![0x80; 65];
            let messages = [
                (good.octets(), 0),
                (longest.octets(), 0),
                (cut, 4),
                (unknown, 3),
                (too_long, 2),
                (Vec::new(), 2),
            ];
            for (octets, number) in messages {
                let call = Call::read_message(random, &octets, room);
                trial.put_due(&call, if room < ROOM { 1 } else { number });
            }
        }
    }
}
