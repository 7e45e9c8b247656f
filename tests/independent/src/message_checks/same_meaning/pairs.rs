//! Pairs of messages with the same first octet, drawn at random, each message
//! in minimal form or with needless octets.

use crate::message::Code;
use crate::message_checks::drawn::non_standard_field;
use crate::message_checks::layout::{Field, Layout};
use crate::message_checks::mixed::FIELDS;
use crate::message_checks::random_code;
use crate::message_checks::requests::MOST_OCTETS;
use crate::random::Random;
use std::collections::BTreeSet;

/// What tells the two messages of a pair apart.
#[derive(Clone, Copy, Debug, PartialEq)]
pub enum Difference {
    /// Needless octets and nothing else.
    Octets,
    /// The one parameter that is in one list and not in the other.
    Parameter(Code),
    /// NS, the lists being the same.
    NonStandard,
}

#[derive(Clone, Debug)]
pub struct Pair {
    pub messages: [Vec<u8>; 2],
    pub difference: Difference,
}

pub fn other_octets(random: &mut Random) -> Pair {
    let layout = some_message(random, 1);
    loop {
        let messages = laid_out(random, &[layout.clone(), layout.clone()]);
        if messages[0] != messages[1] {
            return Pair {
                messages,
                difference: Difference::Octets,
            };
        }
    }
}

pub fn one_parameter_apart(random: &mut Random) -> Pair {
    loop {
        let layout = some_message(random, 0);
        let codes = parameters(&layout);
        let code = some_parameter(random, &codes);
        let is_leaf = !codes.iter().any(|&other| is_above(code, other));
        let mut minimal = without_and_with(&layout, code);
        let has_room = minimal[1].length() <= MOST_OCTETS;
        if is_leaf && has_room && code != Code::NON_STANDARD_FIELD {
            if random.bit() {
                minimal.reverse();
            }
            return Pair {
                messages: laid_out(random, &minimal),
                difference: Difference::Parameter(code),
            };
        }
    }
}

pub fn another_non_standard(random: &mut Random) -> Pair {
    let layout = Layout {
        non_standard: Vec::new(),
        ..some_message(random, SHORTEST_NON_STANDARD + 1)
    };
    let most = MOST_OCTETS - layout.length();
    let length = random.within(SHORTEST_NON_STANDARD, most);
    let non_standard = non_standard_field(random, length);
    let other = another(random, &non_standard, most);
    let announcing = |non_standard| layout.clone().announcing(non_standard);
    Pair {
        messages: laid_out(random, &[announcing(non_standard), announcing(other)]),
        difference: Difference::NonStandard,
    }
}

const SHORTEST_NON_STANDARD: usize = 3;

/// Another NS of at most so many octets: of the same length or not, with one
/// bit inverted, or with one block more.
fn another(random: &mut Random, non_standard: &[u8], most: usize) -> Vec<u8> {
    let length = non_standard.len();
    loop {
        let other = match random.below(4) {
            0 => with_last_inverted(random, non_standard),
            1 => non_standard_field(random, length),
            2 if length + SHORTEST_NON_STANDARD <= most => {
                let more = non_standard_field(random, SHORTEST_NON_STANDARD);
                [non_standard, &more].concat()
            }
            _ => {
                let length = random.within(SHORTEST_NON_STANDARD, most);
                non_standard_field(random, length)
            }
        };
        if other != non_standard {
            return other;
        }
    }
}

/// The octets with one bit of the last inverted, which is no length octet.
fn with_last_inverted(random: &mut Random, octets: &[u8]) -> Vec<u8> {
    let mut octets = octets.to_vec();
    if let Some(last) = octets.last_mut() {
        *last ^= 1 << random.below(8);
    }
    octets
}

/// Any message in minimal form that leaves room for so many octets.
fn some_message(random: &mut Random, room: usize) -> Layout {
    loop {
        let layout = match random.below(4) {
            0 => Layout::mixed(random),
            1 => far_parameter(random),
            _ => Layout::any(random),
        };
        let minimal = layout.trimmed();
        if minimal.length() + room <= MOST_OCTETS {
            return minimal;
        }
    }
}

/// The smallest message with one parameter that may stand far behind.
fn far_parameter(random: &mut Random) -> Layout {
    loop {
        let code = random_code(random, 300);
        let layout = Layout::with(random, code);
        if layout.length() <= MOST_OCTETS {
            return layout.perhaps_announcing(random);
        }
    }
}

fn parameters(layout: &Layout) -> BTreeSet<Code> {
    let codes = layout.meaning().codes.into_iter();
    codes.map(Code::of).collect()
}

/// The message without the parameter and with it, both with those above it
/// and in minimal form.
fn without_and_with(layout: &Layout, code: Code) -> [Layout; 2] {
    let mut codes = parameters(layout);
    codes.extend(code.parents());
    codes.remove(&code);
    let without = with_parameters(layout, &codes);
    codes.insert(code);
    [without, with_parameters(layout, &codes)]
}

/// The message with these parameters instead of its own, in minimal form.
fn with_parameters(layout: &Layout, codes: &BTreeSet<Code>) -> Layout {
    let [identification, standard] = FIELDS.map(|f| {
        let of_field = codes.iter().filter(|code| code.f == f);
        Field::of_codes(&of_field.copied().collect())
    });
    Layout {
        identification,
        standard,
        ..layout.clone()
    }
}

fn is_above(code: Code, other: Code) -> bool {
    other.parents().any(|parent| parent == code)
}

/// A parameter of any level, half the time in a branch that is there.
fn some_parameter(random: &mut Random, codes: &BTreeSet<Code>) -> Code {
    let farthest = random.pick(&[7, 14, 40, 200]);
    let code = random_code(random, farthest);
    let is_beside = |other: &&Code| other.f == code.f && other.s > 0;
    let beside: Vec<Code> = codes.iter().filter(is_beside).copied().collect();
    if beside.is_empty() || random.bit() {
        return code;
    }
    in_branch_of(random.pick(&beside), code)
}

/// The parameter in the other's branch, at the level it has.
fn in_branch_of(other: Code, code: Code) -> Code {
    match (code.s, code.t, code.n) {
        (0, ..) | (_, 0, 0) => code,
        (_, 1.., 1..) if other.t > 0 => Code { n: code.n, ..other },
        _ => Code { s: other.s, ..code },
    }
}

/// The octets of both messages with needless octets or without, so that they
/// have one length or two.
fn laid_out(random: &mut Random, minimal: &[Layout; 2]) -> [Vec<u8>; 2] {
    let lengths = minimal.each_ref().map(Layout::length);
    let longer = lengths[0].max(lengths[1]);
    let of_both = random.bit().then(|| some_length(random, longer));
    minimal.each_ref().map(|layout| {
        let length = of_both.unwrap_or_else(|| some_length(random, layout.length()));
        layout.loosened(random, length).octets()
    })
}

fn some_length(random: &mut Random, least: usize) -> usize {
    let more = random.pick(&[0, 0, 1, 2, 4, 8, 16, MOST_OCTETS]);
    MOST_OCTETS.min(least + more)
}

impl Layout {
    /// The message with needless octets and SPar(2) blocks, so that it has
    /// this length.
    fn loosened(&self, random: &mut Random, length: usize) -> Layout {
        let loose = Layout {
            identification: self.identification.clone().loosened(random),
            standard: self.standard.clone().loosened(random),
            ..self.clone()
        };
        match loose.length() <= length {
            true => loose.padded(random, length),
            false => self.clone().padded(random, length),
        }
    }

    /// The message with needless octets at the ends of any blocks, so that it
    /// has this length.
    fn padded(self, random: &mut Random, length: usize) -> Layout {
        let needless = length - self.length();
        let of_identification = random.below(needless + 1);
        let mut pad = |field: Field, more: usize| {
            let length = field.octets().len() + more;
            field.padded(random, length)
        };
        Layout {
            identification: pad(self.identification, of_identification),
            standard: pad(self.standard, needless - of_identification),
            ..self
        }
    }
}

#[cfg(test)]
mod tests {
    use super::*;

    #[test]
    fn a_parameter_goes_into_a_branch_at_its_own_level() {
        let other = Code::new(2, 5, 6, 7);
        let moved = |s, t, n| in_branch_of(other, Code::new(2, s, t, n));
        assert_eq!(moved(0, 0, 1), Code::new(2, 0, 0, 1));
        assert_eq!(moved(1, 0, 0), Code::new(2, 1, 0, 0));
        assert_eq!(moved(1, 0, 3), Code::new(2, 5, 0, 3));
        assert_eq!(moved(1, 2, 0), Code::new(2, 5, 2, 0));
        assert_eq!(moved(1, 2, 3), Code::new(2, 5, 6, 3));
        let without_spar_2 = Code::new(2, 5, 0, 7);
        let moved = in_branch_of(without_spar_2, Code::new(2, 1, 2, 3));
        assert_eq!(moved, Code::new(2, 5, 2, 3));
    }

    #[test]
    fn loosened_has_its_length_and_is_the_same() {
        let mut random = Random::named("loosened to a length");
        for _ in 0..1000 {
            let minimal = some_message(&mut random, 0);
            let length = some_length(&mut random, minimal.length());
            let loosened = minimal.loosened(&mut random, length);
            assert_eq!(loosened.length(), length);
            assert_eq!(loosened.meaning(), minimal.meaning());
            assert_eq!(loosened.trimmed().octets(), minimal.octets());
        }
    }

    #[test]
    fn another_non_standard_field_is_another() {
        let mut random = Random::named("another");
        for most in 4..=60 {
            let length = random.within(SHORTEST_NON_STANDARD, most);
            let field = non_standard_field(&mut random, length);
            let other = another(&mut random, &field, most);
            assert!(other != field && other.len() <= most);
        }
    }
}
