//! The bench: checks are put to the probe one by one, differences are
//! reported, and the outcomes met are counted.

pub use crate::score::Outcome;

use crate::probe::{Ended, Probe};
use crate::random::Random;
use crate::score::{Required, Score};
use crate::wire;

/// One request with the reply it must get.
pub struct Case {
    pub request: Vec<u8>,
    pub expected: Vec<u8>,
    pub outcome: Outcome,
    counted_too: Option<Outcome>,
    due: Option<u8>,
}

impl Case {
    pub fn new(request: Vec<u8>, expected: Vec<u8>, outcome: Outcome) -> Case {
        Case {
            request,
            expected,
            outcome,
            counted_too: None,
            due: None,
        }
    }

    /// Has the case counted under a second outcome as well.
    pub fn counted_too(mut self, outcome: Option<Outcome>) -> Case {
        self.counted_too = outcome;
        self
    }

    /// States the answer number that follows from the way the request was
    /// made. It guards the expected reply itself against a mistake.
    pub fn due(mut self, number: u8) -> Case {
        self.due = Some(number);
        self
    }

    /// The case, if the expected reply is the one known beforehand.
    pub fn known(self, reply: &[u8]) -> Result<Case, String> {
        if self.expected == reply {
            return Ok(self);
        }
        Err(format!(
            "the comparing program itself is wrong: request {}, known {}, expected {}",
            wire::hex(&self.request),
            wire::hex(reply),
            wire::hex(&self.expected)
        ))
    }

    fn is_as_due(&self) -> bool {
        self.due.is_none_or(|number| number == self.outcome.number)
    }
}

/// A family of requests that are all known beforehand.
pub type Requests = fn(&mut Random) -> Vec<Case>;

type Work = Box<dyn FnOnce(&mut Bench) -> Result<(), String>>;

/// A named family of requests.
pub struct Check {
    name: String,
    work: Work,
}

impl Check {
    pub fn new(name: &str, work: impl FnOnce(&mut Bench) -> Result<(), String> + 'static) -> Check {
        Check {
            name: name.to_string(),
            work: Box::new(work),
        }
    }

    /// A check whose requests are all known beforehand.
    pub fn of_cases(name: &str, family: impl FnOnce(&mut Random) -> Vec<Case> + 'static) -> Check {
        let mut random = Random::named(name);
        Check::new(name, move |bench| bench.compare(&family(&mut random)))
    }
}

/// The checks of one part of the product, and the outcomes they must meet.
pub struct Layer {
    pub checks: Vec<Check>,
    pub outcomes: Vec<Outcome>,
    /// How often each of the outcomes has to be met in a run.
    pub often_enough: usize,
}

impl Layer {
    fn required(&self) -> impl Iterator<Item = Required> + '_ {
        let times = self.often_enough;
        let outcomes = self.outcomes.iter();
        outcomes.map(move |&outcome| Required { outcome, times })
    }
}

pub struct Bench {
    probe: Probe,
    score: Score,
    requests: usize,
}

impl Bench {
    pub fn new(probe: Probe) -> Bench {
        Bench {
            probe,
            score: Score::of("requests"),
            requests: 0,
        }
    }

    /// The probe's replies, one for each request.
    pub fn ask(&mut self, requests: &[Vec<u8>]) -> Result<Vec<Vec<u8>>, String> {
        self.requests += requests.len();
        self.probe.ask(requests)
    }

    /// All that the probe makes of an input that is no row of whole requests.
    pub fn converse(&mut self, input: Vec<u8>) -> Result<Ended, String> {
        self.requests += 1;
        self.probe.converse(input)
    }

    /// Puts the cases to the probe; every reply must be the expected one.
    pub fn compare(&mut self, cases: &[Case]) -> Result<(), String> {
        for case in cases {
            for outcome in [case.outcome].into_iter().chain(case.counted_too) {
                self.score.meet(outcome);
            }
        }
        if let Some(case) = cases.iter().find(|case| !case.is_as_due()) {
            return Err(format!(
                "the comparing program itself is wrong: {} where the request was made for {:?}: request {}",
                case.outcome,
                case.due,
                wire::hex(&case.request)
            ));
        }
        let requests: Vec<Vec<u8>> = cases.iter().map(|case| case.request.clone()).collect();
        let replies = self.ask(&requests)?;
        let expected: Vec<Vec<u8>> = cases.iter().map(|case| case.expected.clone()).collect();
        same_replies(&requests, &expected, &replies)
    }

    /// Runs the checks of all layers, then says whether all outcomes were met.
    /// True if nothing failed.
    pub fn run(mut self, layers: Vec<Layer>) -> bool {
        let mut required = Vec::new();
        for layer in layers {
            required.extend(layer.required());
            for check in layer.checks {
                self.requests = 0;
                let result = (check.work)(&mut self);
                self.score.family(&check.name, self.requests, result);
            }
        }
        self.score.finish(&required)
    }
}

/// Compares replies with the expected ones, all three lists in step.
pub fn same_replies(
    requests: &[Vec<u8>],
    expected: &[Vec<u8>],
    replies: &[Vec<u8>],
) -> Result<(), String> {
    let differing: Vec<usize> = (0..requests.len())
        .filter(|&place| expected[place] != replies[place])
        .collect();
    match differing.first() {
        None => Ok(()),
        Some(&place) => Err(format!(
            "{} replies differ, first difference: request {}, expected {}, got {}",
            differing.len(),
            wire::hex(&requests[place]),
            wire::hex(&expected[place]),
            wire::hex(&replies[place])
        )),
    }
}

#[cfg(test)]
mod tests {
    use super::*;

    const SUCCESS: Outcome = Outcome {
        operation: "some operation",
        number: 0,
    };

    #[test]
    fn the_first_difference_is_shown() {
        let requests = [vec![1], vec![2], vec![3]];
        let expected = [vec![10], vec![20], vec![30]];
        assert_eq!(same_replies(&requests, &expected, &expected), Ok(()));
        let replies = [vec![10], vec![21], vec![31]];
        let shown = same_replies(&requests, &expected, &replies).unwrap_err();
        assert!(shown.contains("2 replies differ"));
        assert!(shown.ends_with("request 02, expected 14, got 15"));
    }

    #[test]
    fn a_case_knows_whether_it_is_as_due() {
        let case = || Case::new(vec![], vec![], SUCCESS);
        assert!(case().is_as_due());
        assert!(case().due(0).is_as_due());
        assert!(!case().due(2).is_as_due());
    }
}
