//! Families of calls: those made for the functions here, and those that the
//! probe is put to as well.

use super::calls::Call;
use super::trial::Trial;
use crate::bench::Case;
use crate::random::Random;

type Run = Box<dyn Fn(&mut Random, &mut Trial)>;

pub struct Family {
    pub name: String,
    run: Run,
}

impl Family {
    pub fn new(name: &str, run: fn(&mut Random, &mut Trial)) -> Family {
        Family {
            name: name.to_string(),
            run: Box::new(run),
        }
    }

    /// The requests that the probe gets under the same name, as calls.
    pub fn of_requests(
        name: &str,
        requests: impl Fn(&mut Random) -> Vec<Case> + 'static,
    ) -> Family {
        let run = move |random: &mut Random, trial: &mut Trial| {
            for case in requests(random) {
                let call = Call::of_request(random, &case.request);
                let call = call.expect("a request of the three functions");
                trial.put_due(&call, case.outcome.number);
            }
        };
        Family {
            name: name.to_string(),
            run: Box::new(run),
        }
    }

    pub fn run(&self, trial: &mut Trial) {
        (self.run)(&mut Random::named(&self.name), trial);
    }
}

/// Numbers that are right in their low bits only, and the largest ones: what
/// is lost where a number is taken for a narrower one or multiplied by 8.
pub fn far_too_large(number: usize) -> impl Iterator<Item = usize> {
    let aliases = (10..usize::BITS).map(move |place| number + (1 << place));
    let ends = (0..16).map(|less| usize::MAX - less);
    let halves = [
        usize::MAX / 2,
        usize::MAX / 2 + 1,
        usize::MAX / 8,
        usize::MAX / 8 + 1,
    ];
    aliases.chain(ends).chain(halves)
}
