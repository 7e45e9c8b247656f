//! Far blocks about as long as they may be: 73 octets at level 1, below it 86,
//! the last of them with nothing but its bit 1.

use super::super::choices::due_if;
use super::super::drawn::*;
use super::drawn::*;
use crate::bench::{Case, Check};
use crate::message_checks::layout::{ones, Block, Field, Par2};
use crate::random::Random;

pub fn checks() -> Vec<Check> {
    vec![
        Check::of_cases("choice: far NPar(1) about 73 octets", npar_1),
        Check::of_cases("choice: far SPar(1) about 73 octets", spar_1),
        Check::of_cases("choice: far NPar(2) about 86 octets", npar_2),
        Check::of_cases("choice: far SPar(2) about 86 octets", spar_2),
        Check::of_cases("choice: far NPar(3) about 86 octets", npar_3),
    ]
}

/// Makes a block of this length in a field, with these bits in its last octet.
type Lengthen<T> = fn(&mut Random, &mut T, usize, u8);

/// The choice from a far field that has everything and such a block.
fn case(random: &mut Random, lengthen: impl Fn(&mut Random, &mut Field)) -> [Case; 2] {
    let drawn = Drawn::some_wishes(random).all_ready(true);
    let mut field = Field::of_codes(&drawn.own);
    lengthen(random, &mut field);
    at_places(random, &field).map(|far| drawn.choice(&far))
}

/// Blocks of level 1, of 72 to 75 octets.
fn of_level_1(random: &mut Random, lengthen: Lengthen<Field>) -> Vec<Case> {
    let mut cases = Vec::new();
    for length in 72..=75 {
        for last in [0, 0, 1, 2, 0x20, 0x40, 0x41, 0x7F] {
            for _ in 0..4 {
                let both = case(random, |random, field| {
                    lengthen(random, field, length, last)
                });
                let due = due_if(length <= 73);
                cases.extend(both.map(|case| case.due(due)));
            }
        }
    }
    cases
}

/// Blocks of one of the Par(2)s, of 84 to 88 octets.
fn of_par_2(random: &mut Random, lengthen: Lengthen<Par2>) -> Vec<Case> {
    let mut cases = Vec::new();
    for length in 84..=88 {
        for last in [0, 0, 1, 1, 2, 3, 0x20, 0x21, 0x3F] {
            for _ in 0..4 {
                let both = case(random, |random, field| {
                    let chosen = random.below(field.below.len());
                    lengthen(random, &mut field.below[chosen], length, last);
                });
                let due = due_if(length <= 85 || length == 86 && last <= 1);
                cases.extend(both.map(|case| case.due(due)));
            }
        }
    }
    cases
}

/// The block with octets behind it, empty but for the last.
fn lengthen(block: &mut Block, length: usize, last: u8) {
    block.resize(length - 1, 0);
    block.push(last);
}

/// The block with any octets behind it, or empty ones, and this last one.
fn lengthen_somehow(random: &mut Random, block: &mut Block, length: usize, last: u8) {
    let mask = random.pick(&[0, 0x3F]);
    let more = random.octets(length - 1 - block.len()).into_iter();
    block.extend(more.map(|octet| octet & mask));
    block.push(last);
}

fn npar_1(random: &mut Random) -> Vec<Case> {
    of_level_1(random, |random, field, length, last| {
        lengthen_somehow(random, &mut field.npars, length, last);
    })
}

fn spar_1(random: &mut Random) -> Vec<Case> {
    of_level_1(random, |random, field, length, last| {
        lengthen(&mut field.spars, length, last);
        let below = |_| Par2::of_bits(random.octet() & 0x3F);
        field.below.extend((0..ones(&[last])).map(below));
    })
}

fn npar_2(random: &mut Random) -> Vec<Case> {
    of_par_2(random, |random, par_2, length, last| {
        lengthen_somehow(random, &mut par_2.npars, length, last);
    })
}

fn spar_2(random: &mut Random) -> Vec<Case> {
    of_par_2(random, |random, par_2, length, last| {
        lengthen(&mut par_2.spars, length, last);
        let below = |_| vec![random.octet() & 0x3F];
        par_2.below.extend((0..ones(&[last])).map(below));
    })
}

/// Below an SPar(2) that is there, or else below a new one.
fn npar_3(random: &mut Random) -> Vec<Case> {
    of_par_2(random, |random, par_2, length, last| {
        if par_2.below.is_empty() {
            par_2.spars = vec![1 << random.below(6)];
            par_2.below = vec![Vec::new()];
        }
        lengthen_somehow(random, &mut par_2.below[0], length, last);
    })
}
