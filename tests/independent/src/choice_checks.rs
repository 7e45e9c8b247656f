//! The checks of own table, wishes, choice and verdict.

mod choices;
pub mod drawn;
mod known;
mod long;
mod own_tables;
mod requests;
mod single;
mod verdicts;
mod wishes;

use crate::bench::Layer;

pub fn layer() -> Layer {
    let mut checks = known::checks();
    checks.extend(single::checks());
    checks.extend(own_tables::checks());
    checks.extend(wishes::checks());
    checks.extend(choices::checks());
    checks.extend(long::checks());
    checks.extend(verdicts::checks());
    Layer {
        checks,
        outcomes: requests::outcomes(),
        often_enough: 1000,
    }
}
