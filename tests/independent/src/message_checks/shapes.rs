//! Messages of particular shapes: single parameters, many branches, full
//! blocks, empty blocks.

use super::layout::{ones, Field, Layout, Par2};
use crate::message::Code;
use crate::random::Random;
use std::collections::BTreeSet;

/// Each place a parameter can have in a tree, with each position that a code
/// can name: NPar(1), SPar(1), NPar(2), SPar(2) and NPar(3) in both fields.
/// Those above have positions near the front.
pub fn single_parameters() -> impl Iterator<Item = Code> {
    let in_field = |f, position| {
        let (s, t) = (1 + position % 9, 1 + position % 8);
        [
            Code::new(f, 0, 0, position),
            Code::new(f, position, 0, 0),
            Code::new(f, s, 0, position),
            Code::new(f, s, position, 0),
            Code::new(f, s, t, position),
        ]
    };
    (1..512).flat_map(move |position| [in_field(1, position), in_field(2, position)].concat())
}

/// A message with the field as I or as S, the other field being empty.
fn in_either_field(random: &mut Random, field: Field) -> Layout {
    match random.bit() {
        true => Layout::of_fields(random, field, Field::empty()),
        false => Layout::of_fields(random, Field::empty(), field),
    }
}

fn few_npars(random: &mut Random) -> u8 {
    random.octet() & 0x3F
}

/// One to four Par(2) blocks, each with or without an SPar(2) block of one to
/// three octets in which nothing is set.
pub fn nothing_set(random: &mut Random) -> Vec<Layout> {
    let layout = |_| {
        let count = random.within(1, 4);
        let par_2 = |random: &mut Random| Par2 {
            spars: vec![0; random.below(4)],
            ..Par2::of_bits(few_npars(random))
        };
        let field = Field {
            spars: vec![(1 << count) - 1],
            below: (0..count).map(|_| par_2(random)).collect(),
            ..Field::empty()
        };
        in_either_field(random, field)
    };
    (0..400).map(layout).collect()
}

/// SPar(1) blocks with all set, up to 49 of them, and with 52 set, which is
/// the most that 64 octets hold; SPar(2) blocks with up to 48.
pub fn many_branches(random: &mut Random) -> Vec<Layout> {
    let layout = |turn: usize| {
        let field = match turn % 20 {
            octets @ 1..=7 => broad_field(random, vec![0x7F; octets]),
            octets @ 8..=15 => deep_field(random, vec![0x3F; octets - 7]),
            _ => broad_field_of(random, 52),
        };
        in_either_field(random, field)
    };
    (0..200).map(layout).collect()
}

/// The same with 53 to 56 SPar(1)s, longer than 64 octets.
pub fn too_many_branches(random: &mut Random) -> Vec<Layout> {
    let layout = |turn: usize| {
        let field = broad_field_of(random, 53 + turn % 4);
        in_either_field(random, field)
    };
    (0..40).map(layout).collect()
}

/// A field with so many SPar(1)s, at least 50, set anywhere in eight octets.
fn broad_field_of(random: &mut Random, count: usize) -> Field {
    let mut spars = vec![0x7F; 8];
    let mut left_to_clear = 56 - count;
    while left_to_clear > 0 {
        let (place, bit) = (random.below(8), 1 << random.below(7));
        left_to_clear -= usize::from(spars[place] & bit != 0);
        spars[place] &= !bit;
    }
    broad_field(random, spars)
}

/// A field with this SPar(1) block and one octet below each SPar(1).
fn broad_field(random: &mut Random, spars: Vec<u8>) -> Field {
    let par_2 = |_| Par2::of_bits(few_npars(random));
    Field {
        npars: vec![0],
        below: (0..ones(&spars)).map(par_2).collect(),
        spars,
    }
}

/// A field with one SPar(1) that has this SPar(2) block.
fn deep_field(random: &mut Random, spars: Vec<u8>) -> Field {
    let npar_3 = |_| vec![few_npars(random)];
    let par_2 = Par2 {
        npars: vec![0],
        below: (0..ones(&spars)).map(npar_3).collect(),
        spars,
    };
    Field {
        npars: vec![0],
        spars: vec![1 << random.below(7)],
        below: vec![par_2],
    }
}

/// NPar(1) blocks with everything set but what announces NS, up to 60 octets
/// and 420 numbers.
pub fn full_blocks(random: &mut Random) -> Vec<Layout> {
    let mut layouts = Vec::new();
    for octets in 1..=60 {
        let full = Field {
            npars: vec![0x7F; octets],
            ..Field::empty()
        };
        let mut unannounced = full.clone();
        unannounced.npars[0] = 0x3F;
        layouts.push(Layout::of_fields(random, Field::empty(), full));
        layouts.push(Layout::of_fields(random, unannounced, Field::empty()));
    }
    layouts
}

/// Up to so many codes in ascending order, each with its parents, and none
/// that announces NS.
pub fn random_list(random: &mut Random, farthest: usize, most: usize) -> Vec<u32> {
    let mut set = BTreeSet::new();
    for _ in 0..most {
        let code = random_code(random, farthest);
        let with_parents: Vec<Code> = code.parents().chain([code]).collect();
        if set.len() + with_parents.len() <= most {
            set.extend(with_parents);
        }
    }
    set.remove(&Code::NON_STANDARD_FIELD);
    set.into_iter().map(Code::number).collect()
}

/// A parameter of any level that a code can name.
pub fn random_code(random: &mut Random, farthest: usize) -> Code {
    let mut part = || random.within(1, farthest) as u32;
    let [s, t, n] = [part(), part(), part()];
    let f = random.pick(&[1, 2]);
    match random.below(5) {
        0 => Code::new(f, 0, 0, n),
        1 => Code::new(f, s, 0, 0),
        2 => Code::new(f, s, 0, n),
        3 => Code::new(f, s, t, 0),
        _ => Code::new(f, s, t, n),
    }
}

/// Every parameter of a field that stands near the front, those of all tables
/// among them.
pub fn near_front(f: u32) -> impl Iterator<Item = Code> {
    let parts = |s| (0..=3).flat_map(move |t| (0..=40).map(move |n| (s, t, n)));
    let codes = (0..=12).flat_map(parts);
    let codes = codes.map(move |(s, t, n)| Code::new(f, s, t, n));
    codes.filter(|code| code.is_possible())
}
