//! Calls of the frame writer.

use super::calls::Call;
use super::families::{far_too_large, Family};
use super::trial::Trial;
use crate::frame_checks::runs::*;
use crate::frame_checks::writer_families;
use crate::random::Random;

/// The least room for a frame.
const ROOM: usize = 88;

pub fn families() -> Vec<Family> {
    let shared = writer_families().map(|&(name, family)| Family::of_requests(name, family));
    let own = [
        Family::new("frame writer: frames of every length and flag count", whole),
        Family::new("frame writer: FCS that ends with five ones", five_ones),
        Family::new(
            "frame writer: lengths 0 to 70 and 300, flags 0 to 7",
            near_bounds,
        ),
        Family::new(
            "frame writer: flag counts up to the largest number",
            large_counts,
        ),
        Family::new("frame writer: every output up to 130 octets", outputs),
        Family::new("frame writer: nothing lent at all", nothing_lent),
    ];
    shared.chain(own).collect()
}

/// The number due, by the rules in their order.
fn due(length: usize, (opening, closing): (usize, usize), room: usize) -> u8 {
    match (room, length, opening, closing) {
        (..ROOM, _, _, _) => 1,
        (_, 0 | 65.., _, _) => 7,
        (_, _, 2..=5, 1..=3) => 0,
        _ => 8,
    }
}

fn put(random: &mut Random, trial: &mut Trial, length: usize, flags: (usize, usize), room: usize) {
    let information = information(random, length);
    let call = Call::write_frame(random, &information, flags, room);
    trial.put_due(&call, due(length, flags, room));
}

fn whole(random: &mut Random, trial: &mut Trial) {
    for length in 1..=64 {
        for flags in flag_pairs() {
            for _ in 0..46 {
                let room = random.pick(&[ROOM, ROOM, ROOM, 89, 96, 300]);
                put(random, trial, length, flags, room);
            }
        }
    }
}

fn five_ones(random: &mut Random, trial: &mut Trial) {
    for length in 1..=64 {
        let information = ending_with_five_ones(random, length);
        for flags in flag_pairs() {
            let call = Call::write_frame(random, &information, flags, ROOM);
            trial.put_due(&call, 0);
        }
    }
}

fn near_bounds(random: &mut Random, trial: &mut Trial) {
    for length in (0..=70).chain([300]) {
        for flags in (0..8).flat_map(|opening| (0..8).map(move |closing| (opening, closing))) {
            for room in [0, 1, 63, 64, 87, ROOM, ROOM, ROOM, 89, 128, 300] {
                put(random, trial, length, flags, room);
            }
        }
    }
}

/// Either count, or both, far above what is allowed.
fn large_counts(random: &mut Random, trial: &mut Trial) {
    for _ in 0..40 {
        let (opening, closing) = flag_pair(random);
        for (large, larger) in far_too_large(opening).zip(far_too_large(closing)) {
            for flags in [(large, closing), (opening, larger), (large, larger)] {
                let length = random.pick(&[0, 1, 7, 64, 64, 65]);
                let room = random.pick(&[87, ROOM, ROOM, ROOM]);
                put(random, trial, length, flags, room);
            }
        }
    }
}

fn outputs(random: &mut Random, trial: &mut Trial) {
    for room in 0..=130 {
        for length in (0..=70).step_by(5).chain([1, 64, 300]) {
            let good = flag_pair(random);
            for flags in [good, (1, 1), (5, 4)] {
                put(random, trial, length, flags, room);
            }
        }
    }
}

fn nothing_lent(random: &mut Random, trial: &mut Trial) {
    for flags in [(2, 1), (0, 0), (usize::MAX, usize::MAX)] {
        for _ in 0..20 {
            put(random, trial, 0, flags, 0);
            put(random, trial, 0, flags, ROOM);
            put(random, trial, 1, flags, 0);
        }
    }
}
