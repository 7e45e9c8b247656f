//! Own tables, wishes and far messages drawn at random.

use super::requests::{self, Far};
use crate::bench::Case;
use crate::message::{Code, Parameters};
use crate::message_checks::layout::{Field, Layout};
use crate::message_checks::mixed::some_codes;
use crate::message_checks::requests::MOST_OCTETS;
use crate::message_checks::{near_front, random_code};
use crate::random::Random;
use std::sync::LazyLock;

/// The type of an MS, and those of CL and CLR.
pub const MODE_SELECT: u8 = 1;
pub const LISTS: [u8; 2] = [2, 3];

pub const MOST_WISHES: usize = 16;

pub fn is_permitted(code: &Code) -> bool {
    code.is_named() && !code.is_non_standard()
}

/// All that own tables and wishes may hold.
pub static PERMITTED: LazyLock<Parameters> =
    LazyLock::new(|| near_front(2).filter(is_permitted).collect());

/// What neither an own table nor a wish may hold.
static FORBIDDEN: LazyLock<Vec<Code>> =
    LazyLock::new(|| near_front(2).filter(|code| !is_permitted(code)).collect());

pub fn with_parents(codes: impl Iterator<Item = Code>) -> Parameters {
    codes
        .flat_map(|code| code.parents().chain([code]))
        .collect()
}

/// Permitted parameters of one to four modes.
pub fn some_parameters(random: &mut Random) -> Parameters {
    let modes: Vec<u32> = (0..random.within(1, 4))
        .map(|_| random.within(1, 9) as u32)
        .collect();
    let chance = random.pick(&[1, 2, 3, 5]);
    let of_modes = PERMITTED.iter().filter(|code| modes.contains(&code.s));
    let drawn = of_modes.filter(|code| (code.t, code.n) == (0, 0) || random.below(5) < chance);
    with_parents(drawn.copied())
}

/// One or more of the parameters, with those above them.
pub fn part_of(random: &mut Random, whole: &Parameters) -> Parameters {
    let all: Vec<Code> = whole.iter().copied().collect();
    let count = random.pick(&[1, 2, 3, 5, 8, 20]);
    with_parents((0..count).map(|_| random.pick(&all)))
}

/// Those of the parameters that have no other below them.
pub fn ends(whole: &Parameters) -> Vec<Code> {
    let is_above = |code: &Code| {
        whole
            .iter()
            .any(|below| below.parents().any(|p| p == *code))
    };
    whole
        .iter()
        .copied()
        .filter(|code| !is_above(code))
        .collect()
}

/// The parameters without one of their ends, and which one it is.
pub fn without_one(random: &mut Random, whole: &Parameters) -> (Parameters, Code) {
    let missing = random.pick(&ends(whole));
    let mut others = whole.clone();
    others.remove(&missing);
    (others, missing)
}

/// The parameters and something that is not permitted.
pub fn with_forbidden(random: &mut Random, whole: &Parameters) -> Parameters {
    let mut more = whole.clone();
    more.extend(with_parents([random.pick(&FORBIDDEN)].into_iter()));
    more
}

pub fn field(parameters: &Parameters) -> Vec<u8> {
    Field::of_codes(parameters).octets()
}

/// A field with these parameters that is not in minimal form.
pub fn loose_field(random: &mut Random, parameters: &Parameters) -> Vec<u8> {
    let minimal = field(parameters);
    loop {
        let loosened = Field::of_codes(parameters).loosened(random).octets();
        if loosened != minimal {
            return loosened;
        }
    }
}

pub fn record(ready: u8, field: &[u8]) -> Vec<u8> {
    [&[ready, field.len() as u8], field].concat()
}

#[derive(Clone)]
pub struct Wanted {
    pub is_ready: bool,
    pub parameters: Parameters,
}

impl Wanted {
    pub fn new(is_ready: bool, parameters: &Parameters) -> Wanted {
        Wanted {
            is_ready,
            parameters: parameters.clone(),
        }
    }

    pub fn record(&self) -> Vec<u8> {
        record(u8::from(self.is_ready), &field(&self.parameters))
    }
}

/// A good own table and good wishes, inside it or not.
#[derive(Clone)]
pub struct Drawn {
    pub own: Parameters,
    pub wishes: Vec<Wanted>,
}

impl Drawn {
    /// So many wishes inside the own table, some of them equal.
    pub fn inside(random: &mut Random, count: usize) -> Drawn {
        let own = some_parameters(random);
        let mut wishes: Vec<Wanted> = Vec::new();
        for _ in 0..count {
            let parameters = match wishes.last() {
                Some(equal) if random.below(5) == 0 => equal.parameters.clone(),
                _ => part_of(random, &own),
            };
            wishes.push(Wanted::new(random.bit(), &parameters));
        }
        Drawn { own, wishes }
    }

    /// Any number of wishes inside the own table.
    pub fn some(random: &mut Random) -> Drawn {
        let count = random.pick(&[0, 1, 1, 2, 2, 3, 3, 4, 5, 8, MOST_WISHES]);
        Drawn::inside(random, count)
    }

    /// Some wishes, and one at least.
    pub fn some_wishes(random: &mut Random) -> Drawn {
        let count = random.pick(&[1, 2, 2, 3, 4, 8, MOST_WISHES]);
        Drawn::inside(random, count)
    }

    pub fn all_ready(mut self, is_ready: bool) -> Drawn {
        for wish in &mut self.wishes {
            wish.is_ready = is_ready;
        }
        self
    }

    /// One of the wishes, which there must be, goes beyond the own table.
    pub fn reaching_outside(mut self, random: &mut Random) -> Drawn {
        let beyond: Vec<Code> = PERMITTED.difference(&self.own).copied().collect();
        let chosen = random.below(self.wishes.len());
        let more = with_parents([random.pick(&beyond)].into_iter());
        self.wishes[chosen].parameters.extend(more);
        self
    }

    pub fn own_octets(&self) -> Vec<u8> {
        field(&self.own)
    }

    pub fn records(&self) -> Vec<Vec<u8>> {
        self.wishes.iter().map(Wanted::record).collect()
    }

    pub fn run(&self) -> Vec<u8> {
        self.records().concat()
    }

    pub fn check(&self) -> Case {
        requests::check(&self.own_octets(), &self.run())
    }

    pub fn first_ready(&self) -> Case {
        requests::first_ready(&self.own_octets(), &self.run())
    }

    pub fn choice(&self, far: &Far) -> Case {
        requests::choice(&self.own_octets(), &self.run(), far)
    }

    pub fn verdict(&self, far: &Far) -> Case {
        requests::verdict(&self.own_octets(), &self.run(), far)
    }
}

/// The whole of a wish's parameters, or some of them.
pub fn from_wish(random: &mut Random, wish: &Wanted) -> Parameters {
    match random.bit() {
        true => wish.parameters.clone(),
        false => part_of(random, &wish.parameters),
    }
}

/// Far lists that have much in common with the wishes, or nothing.
pub fn any_list(random: &mut Random, drawn: &Drawn) -> Layout {
    let far = match random.below(4) {
        0 => return far_list_of_any_kind(random),
        1 => some_parameters(random),
        2 => part_of(random, &drawn.own),
        _ => without_one(random, &drawn.own).0,
    };
    let noisy = with_noise(random, &far);
    far_list(random, &noisy)
}

fn far_list_of_any_kind(random: &mut Random) -> Layout {
    let standard = Layout::mixed(random).standard;
    Layout {
        kind: random.pick(&LISTS),
        ..Layout::of_fields(random, Field::empty(), standard)
    }
}

/// A CL or CLR with these S parameters.
pub fn far_list(random: &mut Random, standard: &Parameters) -> Layout {
    let kind = random.pick(&LISTS);
    far_message(random, kind, standard)
}

/// An MS with these S parameters.
pub fn far_selection(random: &mut Random, standard: &Parameters) -> Layout {
    far_message(random, MODE_SELECT, standard)
}

/// A message with these S parameters, anything in I, minimal or not, with or
/// without NS.
fn far_message(random: &mut Random, kind: u8, standard: &Parameters) -> Layout {
    loop {
        let codes = some_codes(random, 1);
        let identification = Field::of_codes_somehow(random, &codes);
        let standard = Field::of_codes_somehow(random, standard);
        let layout = Layout {
            kind,
            ..Layout::of_fields(random, identification, standard)
        };
        if layout.length() <= MOST_OCTETS {
            return layout.perhaps_announcing(random);
        }
    }
}

/// The parameters with up to three more that are forbidden in wishes.
pub fn with_noise(random: &mut Random, parameters: &Parameters) -> Parameters {
    let drawn = (0..random.below(4)).map(|_| Code {
        f: 2,
        ..random_code(random, 12)
    });
    with_forbidden_of(&with_parents(drawn), parameters)
}

/// The parameters with those others that are forbidden in wishes. No permitted
/// parameter comes in with them.
pub fn with_forbidden_of(others: &Parameters, parameters: &Parameters) -> Parameters {
    let is_noise = |code: &&Code| {
        let mut way = code.parents();
        !is_permitted(code) && way.all(|above| !is_permitted(&above) || parameters.contains(&above))
    };
    let noise = others.iter().filter(is_noise);
    parameters.iter().chain(noise).copied().collect()
}

#[cfg(test)]
mod tests {
    use super::*;
    use crate::tables;

    #[test]
    fn drawn_inside_is_good() {
        let mut random = Random::named("inside");
        for _ in 0..500 {
            let drawn = Drawn::some(&mut random);
            assert_eq!(tables::check(&drawn.own_octets(), &drawn.run()), 0);
        }
    }

    #[test]
    fn ends_have_nothing_below() {
        let codes = [(1, 0, 0), (1, 0, 2), (3, 0, 0), (3, 1, 0), (6, 0, 0)];
        let codes = codes.map(|(s, t, n)| Code::new(2, s, t, n));
        let due = [codes[1], codes[3], codes[4]];
        assert_eq!(ends(&Parameters::from(codes)), due);
    }

    #[test]
    fn noise_is_not_permitted() {
        let mut random = Random::named("noise");
        let mut added = 0;
        for _ in 0..500 {
            let parameters = some_parameters(&mut random);
            let noisy = with_noise(&mut random, &parameters);
            let more = noisy.difference(&parameters);
            added += more.clone().count();
            assert!(more.clone().all(|code| !is_permitted(code)));
            assert!(parameters.is_subset(&noisy));
            assert_eq!(with_parents(noisy.iter().copied()), noisy);
        }
        assert!(added > 200);
    }
}
