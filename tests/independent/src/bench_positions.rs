//! The bench positions of the rules, each put to the probe with the
//! answer that stands there: one family, every position in it.

mod messages;
mod station;

use crate::bench::{Bench, Case, Check, Layer};

/// A position, in words, and what is put to the probe for it.
struct Position {
    words: &'static str,
    cases: fn() -> Result<Vec<Case>, String>,
}

pub fn layer() -> Layer {
    Layer {
        checks: vec![Check::new("bench positions", check)],
        outcomes: Vec::new(),
        often_enough: 0,
    }
}

fn positions() -> impl Iterator<Item = &'static Position> {
    messages::POSITIONS.iter().chain(&station::POSITIONS)
}

fn check(bench: &mut Bench) -> Result<(), String> {
    for position in positions() {
        let result = (position.cases)().and_then(|cases| bench.compare(&cases));
        result.map_err(|fault| format!("{}: {fault}", position.words))?;
    }
    Ok(())
}

#[cfg(test)]
mod tests {
    use super::*;

    #[test]
    fn answers_are_as_on_paper() {
        for position in positions() {
            let cases = (position.cases)();
            assert!(
                cases.is_ok_and(|cases| !cases.is_empty()),
                "{}",
                position.words
            );
        }
    }
}
