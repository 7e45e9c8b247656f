//! Same meaning, same octets: pairs of messages with the same first octet go
//! through the probe's reader and its writer. Where NS is the same, the lists
//! read must be equal exactly if the octets written are; and what was written
//! must come through both once more as it is.

mod answers;
mod known;
mod pairs;
mod variety;
mod verdicts;

use crate::bench::{Bench, Check};
use crate::random::Random;
use answers::asked;
use pairs::Pair;
use verdicts::all_as_due;

/// A family of so many pairs, drawn at random, in which each of the kinds has
/// to occur.
struct Family {
    name: &'static str,
    size: usize,
    draw: fn(&mut Random) -> Pair,
    kinds: fn() -> Vec<String>,
}

static FAMILIES: [Family; 3] = [
    Family {
        name: "same meaning: other octets",
        size: 10_000,
        draw: pairs::other_octets,
        kinds: variety::of_other_octets,
    },
    Family {
        name: "same meaning: one parameter apart",
        size: 10_000,
        draw: pairs::one_parameter_apart,
        kinds: variety::of_one_parameter_apart,
    },
    Family {
        name: "same meaning: another NS",
        size: 1_000,
        draw: pairs::another_non_standard,
        kinds: variety::of_another_non_standard,
    },
];

pub fn checks() -> Vec<Check> {
    let known = Check::new(known::NAME, known::check);
    let put = |family: &'static Family| Check::new(family.name, |bench| family.put(bench));
    [known]
        .into_iter()
        .chain(FAMILIES.iter().map(put))
        .collect()
}

impl Family {
    fn drawn(&self, random: &mut Random) -> Result<Vec<Pair>, String> {
        let pairs: Vec<Pair> = (0..self.size).map(|_| (self.draw)(random)).collect();
        variety::each_often_enough(&(self.kinds)(), &pairs)?;
        Ok(pairs)
    }

    fn put(&self, bench: &mut Bench) -> Result<(), String> {
        let random = &mut Random::named(self.name);
        let pairs = self.drawn(random)?;
        let messages: Vec<Vec<u8>> = pairs
            .iter()
            .flat_map(|pair| pair.messages.clone())
            .collect();
        let answers = asked(bench, random, &messages)?;
        all_as_due(&pairs, &answers)
    }
}

#[cfg(test)]
mod tests {
    use super::*;

    #[test]
    fn every_family_is_rich() {
        for family in &FAMILIES {
            let random = &mut Random::named(family.name);
            let drawn = family.drawn(random).map(|pairs| pairs.len());
            assert_eq!(drawn, Ok(family.size));
        }
    }
}
