//! Calls of the frame reader.

use super::calls::Call;
use super::families::{far_too_large, Family};
use super::trial::Trial;
use crate::frame;
use crate::frame_checks::reader_families;
use crate::frame_checks::runs::*;
use crate::random::Random;

/// The least room for the information.
const ROOM: usize = 64;

/// The most bits that are looked at.
const MOST_BITS: usize = 704;

pub fn families() -> Vec<Family> {
    let shared = reader_families().map(|&(name, family)| Family::of_requests(name, family));
    let own = [
        Family::new("frame reader: frames of every length and flag count", whole),
        Family::new(
            "frame reader: the same bits with anything behind them",
            behind,
        ),
        Family::new("frame reader: frames damaged at random", damaged),
        Family::new("frame reader: too few or too many octets", too_few_or_many),
        Family::new("frame reader: bits at random", random_bits),
        Family::new(
            "frame reader: octets at random with any count",
            random_octets,
        ),
        Family::new("frame reader: counts near the right one", near_counts),
        Family::new(
            "frame reader: counts up to the largest number",
            large_counts,
        ),
        Family::new("frame reader: every count of a long run", every_count),
        Family::new("frame reader: every output up to 130 octets", outputs),
    ];
    shared.chain(own).collect()
}

/// Room enough, mostly no more than that.
fn room(random: &mut Random) -> usize {
    random.pick(&[ROOM, ROOM, ROOM, 65, 66, 88, 300])
}

fn heard(random: &mut Random, bits: &[bool]) -> Call {
    let run = lent(random, bits);
    let room = room(random);
    Call::read_frame(random, &run, bits.len(), room)
}

fn whole(random: &mut Random, trial: &mut Trial) {
    for length in 1..=64 {
        for (opening, closing) in flag_pairs() {
            for _ in 0..14 {
                let bits = frame_bits(opening, &information(random, length), closing);
                trial.put_due(&heard(random, &bits), 0);
            }
        }
    }
}

/// Zeros, ones, flags and anything, in the last octet and in octets more.
fn behind(random: &mut Random, trial: &mut Trial) {
    for turn in 0..1_200 {
        let bits = match turn % 2 {
            0 => any_frame(random),
            _ => damaged_frame(random),
        };
        let number = heard(random, &bits).due().numbers[0] as u8;
        let missing = 8 * bits.len().div_ceil(8) - bits.len();
        for octets in [0, 1, 40] {
            let more = missing + 8 * octets;
            let flags = flag_bits(octets + 1)[..more].to_vec();
            for tail in [
                vec![false; more],
                vec![true; more],
                flags,
                random.bits(more),
            ] {
                let run = frame::packed(&[&bits[..], &tail].concat());
                let call = Call::read_frame(random, &run, bits.len(), ROOM);
                trial.put_due(&call, number);
            }
        }
    }
}

fn damage(random: &mut Random, bits: &mut Bits) {
    let place = random.below(bits.len());
    match random.below(6) {
        0 | 1 => bits[place] ^= true,
        2 => {
            bits.remove(place);
        }
        3 => bits.insert(place, random.bit()),
        4 => bits.truncate(place.max(8)),
        _ => {
            let ones = random.within(5, 8);
            bits.splice(place..place, vec![true; ones]);
        }
    }
}

/// A frame with one to three faults.
fn damaged_frame(random: &mut Random) -> Bits {
    let mut bits = any_frame(random);
    for _ in 0..random.pick(&[1, 1, 1, 2, 3]) {
        damage(random, &mut bits);
    }
    bits
}

fn damaged(random: &mut Random, trial: &mut Trial) {
    for _ in 0..16_000 {
        let bits = damaged_frame(random);
        trial.put(&heard(random, &bits));
    }
}

/// Whole octets between good flags, one or two of them, or more than 66; in
/// half of these the FCS is right.
fn too_few_or_many(random: &mut Random, trial: &mut Trial) {
    for _ in 0..600 {
        let few = random.within(1, 2);
        let many = random.within(67, 76);
        for (octets, number) in [(few, 4), (many, 5)] {
            // Few ones keep the longest within 704 bits.
            let octet = |_| random.pick(&[0x00, 0x55, 0x81]);
            let octets: Vec<u8> = (0..octets).map(octet).collect();
            let any = octet_bits(&octets);
            let right = with_fcs(&any[..any.len().saturating_sub(16)]);
            for plain in [any, right] {
                let (opening, closing) = flag_pair(random);
                let bits = between_flags(opening, &with_zeros(&plain), closing);
                trial.put_due(&heard(random, &bits), number);
            }
        }
    }
}

/// Bits that nothing bounds, and the same between flags.
fn random_bits(random: &mut Random, trial: &mut Trial) {
    for turn in 0..8_000 {
        let count = random.within(0, 600);
        let seldom = random.pick(&[2, 2, 3, 9]);
        let bits: Bits = (0..count).map(|_| random.below(seldom) == 0).collect();
        let bits = match turn % 4 {
            0 => bits,
            1 => between_flags(random.below(7), &bits, random.below(5)),
            _ => {
                let (opening, closing) = flag_pair(random);
                between_flags(opening, &with_zeros(&bits[..count.min(500)]), closing)
            }
        };
        trial.put(&heard(random, &bits));
    }
}

fn random_octets(random: &mut Random, trial: &mut Trial) {
    for _ in 0..5_000 {
        let length = random.pick(&[0, 1, 5, 20, 87, 88, 89, 300]);
        let octets = random.octets(length);
        let count = random.within(0, 8 * length + 9);
        let room = random.pick(&[0, 63, ROOM, ROOM, ROOM]);
        trial.put(&Call::read_frame(random, &octets, count, room));
    }
}

fn near_counts(random: &mut Random, trial: &mut Trial) {
    for _ in 0..450 {
        let bits = any_frame(random);
        let run = frame::packed(&bits);
        for count in bits.len() - 20..=bits.len() + 20 {
            let call = Call::read_frame(random, &run, count, ROOM);
            match count {
                _ if count > 8 * run.len() => trial.put_due(&call, 1),
                _ if count == bits.len() => trial.put_due(&call, 0),
                _ => trial.put(&call),
            }
        }
    }
}

fn large_counts(random: &mut Random, trial: &mut Trial) {
    for _ in 0..60 {
        let bits = any_frame(random);
        for count in far_too_large(bits.len()) {
            let run = lent(random, &bits);
            let room = room(random);
            trial.put_due(&Call::read_frame(random, &run, count, room), 1);
        }
    }
}

/// Runs longer than any frame, so that the count alone decides.
fn every_count(random: &mut Random, trial: &mut Trial) {
    for filler in [0x00, 0x7E, 0xFF, 0x55] {
        let mut run = frame::packed(&any_frame(random));
        run.resize(300, filler);
        for count in 0..=8 * run.len() + 1 {
            let call = Call::read_frame(random, &run, count, ROOM);
            match count {
                ..=MOST_BITS => trial.put(&call),
                _ => trial.put_due(&call, 1),
            }
        }
    }
}

fn outputs(random: &mut Random, trial: &mut Trial) {
    for room in 0..=130 {
        for length in [1, 2, 30, 63, 64] {
            let (opening, closing) = flag_pair(random);
            let bits = frame_bits(opening, &information(random, length), closing);
            let broken = damaged_frame(random);
            let runs = [&bits, &broken].map(|bits| lent(random, bits));
            let call = Call::read_frame(random, &runs[0], bits.len(), room);
            trial.put_due(&call, if room < ROOM { 1 } else { 0 });
            let call = Call::read_frame(random, &runs[1], broken.len(), room);
            match room {
                ..ROOM => trial.put_due(&call, 1),
                _ => trial.put(&call),
            }
        }
    }
}
