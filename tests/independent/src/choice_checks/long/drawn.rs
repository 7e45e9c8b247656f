//! Long far fields drawn at random.

use super::super::drawn::{field, with_forbidden_of, with_parents};
use super::super::requests::Far;
use crate::message::{Code, Parameters};
use crate::message_checks::layout::{Block, Field, Par2};
use crate::random::Random;

/// The least length of a long field, and the most octets of a far run.
pub const LEAST: usize = 65;
pub const MOST: usize = 255;

/// The last position that a code can name.
pub const LAST: u32 = 511;

/// Where a parameter stands in a tree.
#[derive(Clone, Copy)]
pub enum Kind {
    Npar1,
    Spar1,
    Npar2,
    Spar2,
    Npar3,
}

impl Kind {
    pub const ALL: [Kind; 5] = [
        Kind::Npar1,
        Kind::Spar1,
        Kind::Npar2,
        Kind::Spar2,
        Kind::Npar3,
    ];

    /// The S parameter of this kind at this position, with the SPar(1) and the
    /// SPar(2) that are above it, if any are.
    pub fn at(self, position: u32, [s, t]: [u32; 2]) -> Code {
        match self {
            Kind::Npar1 => Code::new(2, 0, 0, position),
            Kind::Spar1 => Code::new(2, position, 0, 0),
            Kind::Npar2 => Code::new(2, s, 0, position),
            Kind::Spar2 => Code::new(2, s, position, 0),
            Kind::Npar3 => Code::new(2, s, t, position),
        }
    }
}

/// An SPar(1) and an SPar(2) with positions up to this one.
pub fn above(random: &mut Random, farthest: usize) -> [u32; 2] {
    [0; 2].map(|_| random.within(1, farthest) as u32)
}

/// Whether there may be positions above 511 in one of the field's blocks.
pub fn may_pass_last(field: &Field) -> bool {
    let mut level_1 = [&field.npars, &field.spars].into_iter();
    let mut lower = field.below.iter().flat_map(lower_blocks);
    level_1.any(|block| block.len() > 73) || lower.any(may_pass_last_below)
}

fn lower_blocks(par_2: &Par2) -> impl Iterator<Item = &Block> {
    [&par_2.npars, &par_2.spars].into_iter().chain(&par_2.below)
}

fn may_pass_last_below(block: &Block) -> bool {
    block.len() > 86 || block.len() == 86 && block[85] > 1
}

/// The parameters and others that no wish has, in a field of at most so many
/// octets.
fn grown(random: &mut Random, parameters: &Parameters, length: usize) -> Parameters {
    let kinds = [0; 2].map(|_| random.pick(&Kind::ALL));
    let near = random.pick(&[9, 12, 60]);
    let farthest = random.pick(&[12, 40, 120, 511]);
    let mut count = random.pick(&[3, 10, 30, 100, 300]);
    let same_above = random.bit().then(|| above(random, near));
    loop {
        let code = |_| {
            let above = same_above.unwrap_or_else(|| above(random, near));
            let position = random.within(1, farthest) as u32;
            random.pick(&kinds).at(position, above)
        };
        let others = with_parents((0..count).map(code));
        let grown = with_forbidden_of(&others, parameters);
        if field(&grown).len() <= length {
            return grown;
        }
        count /= 2;
    }
}

/// A long field with these parameters and others that no wish has, minimal or
/// not.
pub fn any_long_field(random: &mut Random, parameters: &Parameters) -> Field {
    let length = random.within(LEAST, MOST);
    let grown = grown(random, parameters, length);
    let loose = Field::of_codes_somehow(random, &grown);
    let field = match loose.octets().len() <= MOST {
        true => loose,
        false => Field::of_codes(&grown),
    };
    let least = random.pick(&[LEAST, length]);
    field.padded(random, least)
}

/// The same with no block that may pass position 511.
pub fn long_field(random: &mut Random, parameters: &Parameters) -> Field {
    loop {
        let field = any_long_field(random, parameters);
        if !may_pass_last(&field) {
            return field;
        }
    }
}

/// The octets behind so many others.
pub fn placed(random: &mut Random, place: usize, octets: &[u8]) -> Far {
    let octets = [&random.octets(place)[..], octets].concat();
    Far { octets, place }
}

/// The field at the front of a run, and at any place that it can have.
pub fn at_places(random: &mut Random, field: &Field) -> [Far; 2] {
    let octets = field.octets();
    let place = random.within(0, MOST - octets.len());
    [0, place].map(|place| placed(random, place, &octets))
}

#[cfg(test)]
mod tests {
    use super::super::super::drawn::some_parameters;
    use super::*;
    use crate::message::far_parameters;

    #[test]
    fn long_fields_have_their_parameters() {
        let mut random = Random::named("long fields");
        for _ in 0..1000 {
            let parameters = some_parameters(&mut random);
            let field = long_field(&mut random, &parameters);
            let octets = field.octets();
            assert!((LEAST..=MOST).contains(&octets.len()));
            let found = far_parameters(&octets).expect("a well-formed field");
            assert!(parameters.is_subset(&found));
            assert_eq!(with_forbidden_of(&found, &parameters), found);
        }
    }

    #[test]
    fn no_parameters_where_a_block_passes() {
        let mut random = Random::named("passing");
        let mut passing = 0;
        for _ in 0..1000 {
            let parameters = some_parameters(&mut random);
            let field = any_long_field(&mut random, &parameters);
            let found = far_parameters(&field.octets()).expect("a well-formed field");
            assert_eq!(found.is_empty(), may_pass_last(&field));
            passing += usize::from(found.is_empty());
        }
        assert!((50..500).contains(&passing), "{passing}");
    }

    #[test]
    fn a_field_stands_at_its_place() {
        let mut random = Random::named("places");
        for _ in 0..200 {
            let parameters = some_parameters(&mut random);
            let field = any_long_field(&mut random, &parameters);
            for far in at_places(&mut random, &field) {
                assert!(far.octets.len() <= MOST);
                assert_eq!(far.octets[far.place..], field.octets());
            }
        }
    }
}
