//! The listing program, compared with the formatter here: what it prints, and
//! how much it reads. Each input has a process of its own.

mod child;
mod inputs;
mod known;

use crate::listing::{listing, MOST_READ};
use crate::message;
use crate::random::Random;
use crate::score::{Outcome, Required, Score};
use crate::station::words::Kind;
use child::{Child, Feeding};
use inputs::Input;
use std::path::Path;

const LISTING: &str = "listing";

/// How often each refusal has to be met, and each type listed: with every
/// revision there is.
const FEWEST_REFUSED: usize = 50;
const FEWEST_LISTED: usize = 16;
const FEWEST_INPUTS: usize = 1_500;

/// Compares all inputs. True if nothing failed.
pub fn compare(program: &Path) -> bool {
    let mut score = Score::of("inputs");
    let mut inputs = 0;
    for &(name, feeding, family) in &inputs::FAMILIES {
        let family = family(&mut Random::named(name));
        inputs += family.len();
        let outcomes = family.iter().map(|input| outcome(&input.octets));
        outcomes.for_each(|outcome| score.meet(outcome));
        let mut all = family.iter();
        let result = all.try_for_each(|input| check(program, feeding, input));
        score.family(name, family.len(), result);
    }
    let enough = if inputs >= FEWEST_INPUTS {
        Ok(())
    } else {
        Err(format!("only {inputs} inputs"))
    };
    score.demand(&format!("at least {FEWEST_INPUTS} inputs"), enough);
    score.finish(&required())
}

fn required() -> Vec<Required> {
    let of_listing = |number| Outcome {
        operation: LISTING,
        number,
    };
    let often = |times| move |outcome| Required { outcome, times };
    let refusals = [2, 3, 4].map(of_listing).map(often(FEWEST_REFUSED));
    let types = Kind::ALL.map(listed).map(often(FEWEST_LISTED));
    refusals.into_iter().chain(types).collect()
}

/// The outcome of a message of this type that is listed.
fn listed(kind: Kind) -> Outcome {
    Outcome {
        operation: kind.name(),
        number: 0,
    }
}

fn outcome(octets: &[u8]) -> Outcome {
    let octets = &octets[..octets.len().min(MOST_READ)];
    match message::refusal(octets) {
        Some(number) => Outcome {
            operation: LISTING,
            number,
        },
        None => Kind::of_octet(octets[0]).map(listed).expect("a known type"),
    }
}

fn check(program: &Path, feeding: Feeding, input: &Input) -> Result<(), String> {
    let octets = &input.octets;
    let expected = listing(octets);
    if input.known.as_ref().is_some_and(|known| *known != expected) {
        return Err(input.fault(&format!(
            "the comparing program itself is wrong, it has {expected:?}"
        )));
    }
    let child = Child::run(program, octets, feeding);
    let child = child.map_err(|error| input.fault(&error.to_string()))?;
    let read = octets.len() - child.left;
    if child.output != expected.as_bytes() {
        let got = String::from_utf8_lossy(&child.output);
        return Err(input.fault(&format!("expected {expected:?}, got {got:?}")));
    }
    if read > MOST_READ {
        return Err(input.fault(&format!("{read} octets were read")));
    }
    // Nothing is said about how it ends after a refusal.
    let ended_well = match outcome(octets).number {
        0 => child.status.success(),
        _ => child.status.code().is_some(),
    };
    if !ended_well {
        return Err(input.fault(&format!("it ended with {}", child.status)));
    }
    Ok(())
}
