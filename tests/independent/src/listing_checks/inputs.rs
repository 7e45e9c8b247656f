//! The inputs of the listing program, in families.

use super::child::Feeding;
use super::known;
use crate::message::Code;
use crate::message_checks::layout::Layout;
use crate::message_checks::random_code;
use crate::message_checks::requests::MOST_OCTETS;
use crate::random::Random;
use crate::wire::hex;

pub struct Input {
    pub octets: Vec<u8>,
    /// What is printed, where that is known on paper.
    pub known: Option<String>,
}

impl Input {
    pub fn of(octets: Vec<u8>) -> Input {
        Input {
            octets,
            known: None,
        }
    }

    pub fn fault(&self, words: &str) -> String {
        format!("input {}: {words}", hex(&self.octets))
    }
}

type Family = fn(&mut Random) -> Vec<Input>;

pub const FAMILIES: [(&str, Feeding, Family); 12] = [
    ("listing: known beforehand", Feeding::Whole, known::inputs),
    (
        "listing: every first octet alone",
        Feeding::Whole,
        first_alone,
    ),
    (
        "listing: every first octet with fields",
        Feeding::Whole,
        first_with_fields,
    ),
    ("listing: messages drawn at random", Feeding::Whole, drawn),
    ("listing: the same in minimal form", Feeding::Whole, minimal),
    (
        "listing: named and unnamed parameters",
        Feeding::Whole,
        mixed,
    ),
    (
        "listing: single parameters far and near",
        Feeding::Whole,
        single,
    ),
    ("listing: longest messages", Feeding::Whole, longest),
    ("listing: damaged messages", Feeding::Whole, damaged),
    (
        "listing: random octets of 0 to 70 and 300",
        Feeding::Whole,
        sizes,
    ),
    (
        "listing: more than 65 octets, input not ended",
        Feeding::LeftOpen,
        not_ended,
    ),
    ("listing: input in pieces", Feeding::InPieces, in_pieces),
];

fn first_alone(_: &mut Random) -> Vec<Input> {
    (0..=255).map(|first| Input::of(vec![first])).collect()
}

fn first_with_fields(random: &mut Random) -> Vec<Input> {
    let with_fields = |first| {
        let mut octets = Layout::any(random).octets();
        octets[0] = first;
        Input::of(octets)
    };
    (0..=255).map(with_fields).collect()
}

fn laid_out(
    random: &mut Random,
    count: usize,
    layout: impl Fn(&mut Random) -> Layout,
) -> Vec<Input> {
    let input = |_| Input::of(layout(random).octets());
    (0..count).map(input).collect()
}

fn drawn(random: &mut Random) -> Vec<Input> {
    laid_out(random, 350, Layout::any)
}

fn minimal(random: &mut Random) -> Vec<Input> {
    laid_out(random, 120, |random| Layout::any(random).trimmed())
}

fn mixed(random: &mut Random) -> Vec<Input> {
    laid_out(random, 120, Layout::mixed)
}

/// Positions up to three digits; some of these are longer than 64 octets.
fn single(random: &mut Random) -> Vec<Input> {
    let parameter = |random: &mut Random| {
        let farthest = random.pick(&[9, 60, 420]);
        let code: Code = random_code(random, farthest);
        Layout::with(random, code)
    };
    laid_out(random, 120, parameter)
}

/// The longest lists are longer than most buffers for a line.
fn longest(random: &mut Random) -> Vec<Input> {
    let all_set = |random: &mut Random| {
        let layout = Layout::any(random);
        layout.stretched(random, MOST_OCTETS, |_| 0x3F)
    };
    laid_out(random, 60, all_set)
}

fn damaged(random: &mut Random) -> Vec<Input> {
    let input = |_| {
        let mut octets = Layout::any(random).octets();
        let place = random.below(octets.len());
        match random.below(4) {
            0 | 1 => octets[place] ^= 1 << random.below(8),
            2 => octets.insert(place, random.octet()),
            _ => octets.truncate(place),
        }
        Input::of(octets)
    };
    (0..200).map(input).collect()
}

/// Any octets, and the same behind the first octet of a CL.
fn sizes(random: &mut Random) -> Vec<Input> {
    let mut inputs = Vec::new();
    for size in (0..=70).chain([300]) {
        let any = random.octets(size);
        let mut list = any.clone();
        list.iter_mut().take(1).for_each(|first| *first = 0x22);
        inputs.extend([any, list].map(Input::of));
    }
    inputs
}

/// More is not waited for once 65 octets have come.
fn not_ended(random: &mut Random) -> Vec<Input> {
    let sizes = [65, 65, 66, 70, 128, 300, 4096];
    let inputs = sizes.map(|size| Input::of(random.octets(size)));
    inputs.into()
}

/// What has come is not taken for all there is.
fn in_pieces(random: &mut Random) -> Vec<Input> {
    let mut inputs = laid_out(random, 25, Layout::any);
    inputs.extend([60, 64, 65, 66, 100].map(|size| Input::of(random.octets(size))));
    inputs
}
