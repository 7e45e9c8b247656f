//! Random steps from every phase, with a tally of what was met.

use super::cells::{likely_in, Tally};
use super::drawn;
use super::requests::case_of;
use crate::bench::{Bench, Case, Check};
use crate::choice_checks::drawn::Drawn;
use crate::random::Random;
use crate::station::words::Phase;

const STEPS: &str = "station: random steps from every phase, every cell met";

/// So many steps from each phase, and so many more for each of its cells.
const STEPS_PER_PHASE: usize = 4_000;
const STEPS_PER_CELL: usize = 170;

/// The most requests put to the program at a time.
const ROW: usize = 4_000;

pub fn checks() -> Vec<Check> {
    vec![Check::new(STEPS, steps)]
}

fn steps(bench: &mut Bench) -> Result<(), String> {
    let random = &mut Random::named(STEPS);
    let mut tally = Tally::default();
    for phase in Phase::ALL {
        let likely = likely_in(phase);
        let mut left = STEPS_PER_PHASE + STEPS_PER_CELL * likely.len();
        while left > 0 {
            let count = left.min(ROW);
            let tables: Vec<Drawn> = (0..count / 10 + 1).map(|_| Drawn::some(random)).collect();
            let step = |turn: usize| {
                let drawn = &tables[turn % tables.len()];
                let situation = drawn::any(random, phase, &likely, drawn);
                let answer = situation.step();
                tally.count(&situation, &answer);
                case_of(&situation, &answer)
            };
            let cases: Vec<Case> = (0..count).map(step).collect();
            bench.compare(&cases)?;
            left -= count;
        }
    }
    tally.complete()
}
