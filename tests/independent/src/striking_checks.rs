//! The checks of striking.

mod again;
mod known;
mod limits;
mod malformed;
mod mixed;
mod requests;
mod single;

pub use requests::{case, request};

use crate::bench::Layer;
use crate::message_checks::on_messages;

pub fn layer() -> Layer {
    let mut checks = known::checks();
    checks.extend(single::checks());
    checks.extend(mixed::checks());
    checks.extend(on_messages("striking", requests::put));
    checks.extend(limits::checks());
    checks.extend(again::checks());
    checks.extend(malformed::checks());
    Layer {
        checks,
        outcomes: requests::outcomes(),
        often_enough: 1000,
    }
}
