//! Far parameters with positions above 511 whose codes, if they had any, would
//! be those of other parameters.

use super::super::drawn::*;
use super::drawn::{at_places, LAST};
use crate::bench::{Case, Check};
use crate::message::Code;
use crate::message_checks::layout::Field;
use crate::random::Random;

pub fn checks() -> Vec<Check> {
    vec![Check::of_cases(
        "choice: far positions that have another's code",
        in_its_place,
    )]
}

/// The parameter with a position above 511 that would have this one's code, if
/// there is one.
fn namesake(code: Code) -> Option<Code> {
    match (code.s, code.t) {
        (0 | 1, 0) => None,
        (s, 0) => Some(Code::new(code.f, s - 1, LAST + 1, code.n)),
        (s, t) => Some(Code::new(code.f, s, t - 1, LAST + 1 + code.n)),
    }
}

/// A ready wish for a parameter, and perhaps one for the rest of the own
/// table. The far side has that rest and, in the parameter's place, the other
/// one with its code.
fn in_its_place(random: &mut Random) -> Vec<Case> {
    let mut cases = Vec::new();
    for &code in PERMITTED.iter() {
        for _ in 0..3 {
            let both = namesake(code).map(|other| instead(random, code, other));
            cases.extend(both.into_iter().flatten());
        }
    }
    cases
}

fn instead(random: &mut Random, code: Code, other: Code) -> [Case; 2] {
    let wanted = with_parents([code].into_iter());
    let own = wanted.union(&some_parameters(random)).copied().collect();
    let mut drawn = Drawn {
        own,
        wishes: vec![Wanted::new(true, &wanted)],
    };
    let mut far = drawn.own.clone();
    far.retain(|kept| *kept != code && kept.parents().all(|above| above != code));
    if far.iter().any(|kept| kept.s > 0) && random.bit() {
        drawn.wishes.push(Wanted::new(true, &far));
    }
    far.extend(with_parents([other].into_iter()));
    let field = Field::of_codes(&far);
    at_places(random, &field).map(|far| drawn.choice(&far).due(11))
}

#[cfg(test)]
mod tests {
    use super::*;

    #[test]
    fn namesakes_have_equal_numbers() {
        let mut found = 0;
        for &code in PERMITTED.iter() {
            let Some(other) = namesake(code) else {
                continue;
            };
            assert_ne!(other, code);
            assert_eq!(other.number(), code.number());
            found += 1;
        }
        assert_eq!(found, PERMITTED.iter().filter(|code| code.s > 1).count());
    }
}
