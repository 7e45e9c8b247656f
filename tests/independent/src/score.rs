//! The score of a run: a line for each family that passed or failed, how often
//! each outcome was met, and the sums at the end.

use std::collections::BTreeMap;
use std::fmt;

/// An operation's answer number: 0 for success, otherwise the refusal.
#[derive(Clone, Copy, Debug, PartialEq, Eq, PartialOrd, Ord)]
pub struct Outcome {
    pub operation: &'static str,
    pub number: u8,
}

impl fmt::Display for Outcome {
    fn fmt(&self, f: &mut fmt::Formatter) -> fmt::Result {
        match self.number {
            0 => write!(f, "{} success", self.operation),
            number => write!(f, "{} refusal {number}", self.operation),
        }
    }
}

/// An outcome that has to be met so many times.
pub struct Required {
    pub outcome: Outcome,
    pub times: usize,
}

pub struct Score {
    /// What a family consists of, as the lines call it.
    counted: &'static str,
    met: BTreeMap<Outcome, usize>,
    total: usize,
    passed: usize,
    failed: usize,
}

impl Score {
    pub fn of(counted: &'static str) -> Score {
        Score {
            counted,
            met: BTreeMap::new(),
            total: 0,
            passed: 0,
            failed: 0,
        }
    }

    pub fn meet(&mut self, outcome: Outcome) {
        *self.met.entry(outcome).or_default() += 1;
    }

    /// Enters a family of this size.
    pub fn family(&mut self, name: &str, size: usize, result: Result<(), String>) {
        self.total += size;
        self.enter(&format!("{name} ({size} {})", self.counted), result);
    }

    /// Enters a demand on the run as a whole.
    pub fn demand(&mut self, name: &str, result: Result<(), String>) {
        self.enter(name, result);
    }

    fn enter(&mut self, line: &str, result: Result<(), String>) {
        match result {
            Ok(()) => {
                self.passed += 1;
                println!("ok   {line}");
            }
            Err(reason) => {
                self.failed += 1;
                println!("FAIL {line}: {reason}");
            }
        }
    }

    /// Says whether all outcomes were met, and prints the sums. True if
    /// nothing failed.
    pub fn finish(mut self, required: &[Required]) -> bool {
        for (outcome, times) in &self.met {
            println!("met  {outcome}: {times}");
        }
        let result = all_met(required, &self.met);
        self.demand("every refusal met", result);
        println!("{} {} in all", self.total, self.counted);
        println!("{} passed, {} failed", self.passed, self.failed);
        self.failed == 0
    }
}

fn all_met(required: &[Required], met: &BTreeMap<Outcome, usize>) -> Result<(), String> {
    let times_met = |outcome| met.get(outcome).copied().unwrap_or(0);
    let missed: Vec<String> = required
        .iter()
        .filter(|required| times_met(&required.outcome) < required.times)
        .map(|required| format!("{} under {} times", required.outcome, required.times))
        .collect();
    if missed.is_empty() {
        return Ok(());
    }
    Err(format!("met too seldom: {}", missed.join(", ")))
}

#[cfg(test)]
mod tests {
    use super::*;

    #[test]
    fn an_outcome_met_too_seldom_is_named() {
        let of = |number| Outcome {
            operation: "some operation",
            number,
        };
        let met = BTreeMap::from([(of(0), 7), (of(4), 6)]);
        let seven_times = |outcome| Required { outcome, times: 7 };
        assert_eq!(all_met(&[seven_times(of(0))], &met), Ok(()));
        let required = [seven_times(of(0)), seven_times(of(4))];
        let missed = all_met(&required, &met).unwrap_err();
        assert_eq!(
            missed,
            "met too seldom: some operation refusal 4 under 7 times"
        );
    }

    #[test]
    fn a_failed_demand_fails_the_run() {
        let mut score = Score::of("inputs");
        score.family("good", 3, Ok(()));
        assert!(score.finish(&[]));
        let mut score = Score::of("inputs");
        score.demand("bad", Err("for a reason".to_string()));
        assert!(!score.finish(&[]));
    }
}
