//! The reader's refusals 3 to 6: content between good flags that is no whole
//! number of octets, too short, too long, or has a wrong FCS.

use super::runs::*;
use crate::bench::{Case, Requests};
use crate::frame::FcsRegister;
use crate::random::Random;

pub const FAMILIES: [(&str, Requests); 8] = [
    ("frame reader: content of 0 to 23 bits", few_bits),
    ("frame reader: all contents of 1 to 10 bits", all_short),
    ("frame reader: no whole number of octets", part_octets),
    ("frame reader: content of 1 to 3 octets", few_octets),
    ("frame reader: content of 64 octets and more", many_octets),
    ("frame reader: FCS wrong in every bit", fcs_bits),
    ("frame reader: FCS wrong in many bits", fcs_many_bits),
    ("frame reader: FCS made in another way", fcs_variants),
];

/// The plain bits with their zeros inserted, between any good flags.
fn between_good_flags(random: &mut Random, plain: &[bool]) -> Case {
    let (opening, closing) = flag_pair(random);
    heard(random, &between_flags(opening, &with_zeros(plain), closing))
}

fn few_bits(random: &mut Random) -> Vec<Case> {
    let mut cases = Vec::new();
    for count in 0..=23 {
        let due = match count {
            0 => 2,
            8 | 16 => 4,
            _ => 3,
        };
        for _ in 0..12 {
            let plain = random.bits(count);
            cases.push(between_good_flags(random, &plain).due(due));
        }
        cases.push(between_good_flags(random, &vec![true; count]).due(due));
        cases.push(between_good_flags(random, &vec![false; count]).due(due));
    }
    cases
}

/// Every row of bits between two flags and one, whether or not zeros are
/// missing in it.
fn all_short(random: &mut Random) -> Vec<Case> {
    let mut cases = Vec::new();
    for count in 1..=10 {
        for number in 0..1 << count {
            let content: Bits = (0..count).map(|place| number >> place & 1 == 1).collect();
            cases.push(heard(random, &between_flags(2, &content, 1)));
        }
    }
    cases
}

fn part_octets(random: &mut Random) -> Vec<Case> {
    let mut cases = Vec::new();
    for length in (0..=20).chain(55..=66) {
        for more in 1..=7 {
            let plain = random.bits(8 * length + more);
            cases.push(between_good_flags(random, &with_fcs(&plain)).due(3));
        }
    }
    cases
}

/// One octet, the FCS of nothing alone, one octet with FCS; and the same
/// number of octets with anything in them.
fn few_octets(random: &mut Random) -> Vec<Case> {
    let mut cases = Vec::new();
    for _ in 0..40 {
        let octet = octet_bits(&random.octets(1));
        cases.push(between_good_flags(random, &octet).due(4));
        cases.push(between_good_flags(random, &with_fcs(&[])).due(4));
        cases.push(between_good_flags(random, &with_fcs(&octet)).due(0));
        let two = random.bits(16);
        cases.push(between_good_flags(random, &two).due(4));
        let three = [octet.clone(), two].concat();
        let due = if three == with_fcs(&octet) { 0 } else { 6 };
        cases.push(between_good_flags(random, &three).due(due));
    }
    cases
}

/// Contents up to the 85 octets that fit 704 bits, with the right and with a
/// wrong FCS.
fn many_octets(random: &mut Random) -> Vec<Case> {
    let mut cases = Vec::new();
    for octets in 64..=85 {
        for _ in 0..12 {
            let few_ones: Vec<u8> = (2..octets)
                .map(|_| random.pick(&[0x00, 0x55, 0x81]))
                .collect();
            let right = with_fcs(&octet_bits(&few_ones));
            let mut wrong = right.clone();
            wrong[random.below(8 * octets)] ^= true;
            for (plain, number) in [(right, 0), (wrong, 6)] {
                let bits = between_flags(2, &with_zeros(&plain), 1);
                if bits.len() <= 704 {
                    let due = if octets > 66 { 5 } else { number };
                    cases.push(heard(random, &bits).due(due));
                }
            }
        }
    }
    cases
}

fn fcs_bits(random: &mut Random) -> Vec<Case> {
    let mut cases = Vec::new();
    for length in [1, 1, 2, 3, 4, 7, 12, 20, 31, 32, 47, 62, 63, 64, 64] {
        let right = with_fcs(&octet_bits(&information(random, length)));
        for place in 8 * length..right.len() {
            let mut wrong = right.clone();
            wrong[place] ^= true;
            cases.push(between_good_flags(random, &wrong).due(6));
        }
    }
    cases
}

fn fcs_many_bits(random: &mut Random) -> Vec<Case> {
    let mut cases = Vec::new();
    for length in 1..=64 {
        for _ in 0..6 {
            let bits = octet_bits(&information(random, length));
            let any = [bits.clone(), random.bits(16)].concat();
            let due = if any == with_fcs(&bits) { 0 } else { 6 };
            cases.push(between_good_flags(random, &any).due(due));
        }
    }
    cases
}

/// The FCS in orders and by ways that are easily mistaken for the right ones.
fn mistaken_fcs(octets: &[u8]) -> Vec<Bits> {
    let bits = octet_bits(octets);
    let fcs = |bits: &[bool]| FcsRegister::after(bits.iter().copied()).fcs();
    let right = fcs(&bits);
    let lowest_first: Bits = right.iter().rev().copied().collect();
    let not_complemented: Bits = right.iter().map(|bit| !bit).collect();
    let swapped = [&right[8..], &right[..8]].concat();
    let swapped_lowest_first = swapped.iter().rev().copied().collect();
    // A preset of ones is the same as the first sixteen bits complemented.
    let preset_zero: Bits = (bits.iter().enumerate())
        .map(|(place, bit)| bit ^ (place < 16))
        .collect();
    let bit_8_first: Vec<u8> = octets.iter().map(|octet| octet.reverse_bits()).collect();
    vec![
        lowest_first.iter().map(|bit| !bit).collect(),
        lowest_first,
        not_complemented,
        swapped,
        swapped_lowest_first,
        fcs(&preset_zero).to_vec(),
        fcs(&with_zeros(&bits)).to_vec(),
        fcs(&octet_bits(&bit_8_first)).to_vec(),
        vec![false; 16],
        vec![true; 16],
    ]
}

fn fcs_variants(random: &mut Random) -> Vec<Case> {
    let mut cases = Vec::new();
    for length in 2..=64 {
        let octets = information(random, length);
        let bits = octet_bits(&octets);
        for fcs in mistaken_fcs(&octets) {
            let plain = [&bits[..], &fcs].concat();
            let due = if plain == with_fcs(&bits) { 0 } else { 6 };
            cases.push(between_good_flags(random, &plain).due(due));
        }
    }
    cases
}
