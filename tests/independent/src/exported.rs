//! The functions that the static library gives to C, compared with the
//! implementation here: every answer, and the whole of every buffer lent.

mod calls;
mod families;
mod frame_reader;
mod frame_writer;
mod functions;
mod lent;
mod message_reader;
mod trial;

use crate::score::{Outcome, Required, Score};
use calls::{FRAME_READER, FRAME_WRITER, MESSAGE_READER};
use families::Family;
use trial::Trial;

/// How often each function has to be called, and each of its refusals met.
const FEWEST_CALLS: usize = 100_000;
const FEWEST_MET: usize = 1_000;

/// A function, its answer numbers, and the calls made of it.
struct Part {
    operation: &'static str,
    numbers: &'static [u8],
    families: Vec<Family>,
}

/// Compares all calls. True if nothing failed.
pub fn compare() -> bool {
    let parts = [
        Part {
            operation: FRAME_READER,
            numbers: &[0, 1, 2, 3, 4, 5, 6],
            families: frame_reader::families(),
        },
        Part {
            operation: FRAME_WRITER,
            numbers: &[0, 1, 7, 8],
            families: frame_writer::families(),
        },
        Part {
            operation: MESSAGE_READER,
            numbers: &[0, 1, 2, 3, 4],
            families: message_reader::families(),
        },
    ];
    let mut score = Score::of("calls");
    let mut required = Vec::new();
    for part in parts {
        required.extend(part.required());
        part.compare(&mut score);
    }
    score.finish(&required)
}

impl Part {
    fn required(&self) -> impl Iterator<Item = Required> + use<> {
        let operation = self.operation;
        let outcome = move |&number: &u8| Outcome { operation, number };
        self.numbers.iter().map(outcome).map(|outcome| Required {
            outcome,
            times: FEWEST_MET,
        })
    }

    fn compare(self, score: &mut Score) {
        let mut calls = 0;
        for family in self.families {
            let mut trial = Trial::new(score);
            family.run(&mut trial);
            let (size, result) = trial.result();
            calls += size;
            score.family(&family.name, size, result);
        }
        let enough = if calls >= FEWEST_CALLS {
            Ok(())
        } else {
            Err(format!("only {calls} calls"))
        };
        let demand = format!("{}: at least {FEWEST_CALLS} calls", self.operation);
        score.demand(&demand, enough);
    }
}
