//! The checks of the station.

mod cells;
mod drawn;
mod heard;
mod known;
mod malformed;
pub mod requests;
mod steps;
mod struck;
mod transactions;

use crate::bench::Layer;

pub fn layer() -> Layer {
    let mut checks = known::checks();
    checks.extend(steps::checks());
    checks.extend(struck::checks());
    checks.extend(transactions::checks());
    checks.extend(malformed::checks());
    Layer {
        checks,
        outcomes: requests::outcomes(),
        often_enough: 1000,
    }
}
