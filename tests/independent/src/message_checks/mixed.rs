//! Messages drawn at random in which named and unnamed parameters stand side
//! by side.

use super::layout::{Field, Layout};
use super::requests::MOST_OCTETS;
use super::shapes::{near_front, random_code};
use crate::message::Code;
use crate::random::Random;
use std::collections::BTreeSet;
use std::sync::LazyLock;

/// I and S, as codes have them.
pub const FIELDS: [u32; 2] = [1, 2];

/// The named parameters of I and of S.
static NAMED: LazyLock<[Vec<Code>; 2]> =
    LazyLock::new(|| FIELDS.map(|f| near_front(f).filter(|code| code.is_named()).collect()));

/// Some named parameters of a field and some of any kind, none of which
/// announces NS.
pub fn some_codes(random: &mut Random, f: u32) -> BTreeSet<Code> {
    let named = &NAMED[f as usize - 1];
    let farthest = random.pick(&[9, 10, 14, 32]);
    let some = [random.below(8), random.below(6)];
    let mut codes: BTreeSet<Code> = (0..some[0]).map(|_| random.pick(named)).collect();
    codes.extend((0..some[1]).map(|_| Code {
        f,
        ..random_code(random, farthest)
    }));
    codes.remove(&Code::NON_STANDARD_FIELD);
    codes
}

impl Field {
    /// The field with these parameters, in minimal form or not.
    pub fn of_codes_somehow(random: &mut Random, codes: &BTreeSet<Code>) -> Field {
        let field = Field::of_codes(codes);
        match random.bit() {
            true => field.loosened(random),
            false => field,
        }
    }
}

impl Layout {
    /// A message with named and unnamed parameters, minimal or not, with or
    /// without NS.
    pub fn mixed(random: &mut Random) -> Layout {
        loop {
            let [identification, standard] = FIELDS.map(|f| {
                let codes = some_codes(random, f);
                Field::of_codes_somehow(random, &codes)
            });
            let layout = Layout::of_fields(random, identification, standard);
            if layout.length() <= MOST_OCTETS {
                return layout.perhaps_announcing(random);
            }
        }
    }
}

#[cfg(test)]
mod tests {
    use super::*;
    use crate::message;

    /// The message laid out with its named parameters only, minimal.
    fn named_only(layout: &Layout) -> Layout {
        let meaning = layout.meaning();
        let kept = |f| {
            let codes = meaning.codes.iter().map(|&code| Code::of(code));
            let of_field = codes.filter(|code| code.f == f);
            let is_kept = |code: &Code| code.is_named() || layout.kind == 1 && f == 2;
            Field::of_codes(&of_field.filter(is_kept).collect())
        };
        Layout {
            identification: kept(1),
            standard: kept(2),
            ..layout.clone()
        }
    }

    #[test]
    fn striking_leaves_what_is_named() {
        let mut random = Random::named("left by striking");
        for _ in 0..4000 {
            let layout = Layout::mixed(&mut random);
            let due = named_only(&layout).octets();
            assert_eq!(message::struck(&layout.octets()), Some(due.clone()));
            assert_eq!(message::struck(&due), Some(due));
        }
    }

    #[test]
    fn loosened_is_the_same_in_more_octets() {
        let mut random = Random::named("loosened");
        let mut longer = 0;
        for _ in 0..1000 {
            let codes = some_codes(&mut random, 2);
            let minimal = Field::of_codes(&codes).octets();
            let loosened = Field::of_codes(&codes).loosened(&mut random).octets();
            let meant = message::parameters_in_front(&minimal);
            assert!(meant.is_some());
            assert_eq!(message::parameters_in_front(&loosened), meant);
            assert_eq!(message::minimal_parameters(&minimal), meant);
            longer += usize::from(loosened.len() > minimal.len());
        }
        assert!(longer > 500);
    }
}
