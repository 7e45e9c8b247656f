//! The checks of NS as a part of a message: by what the message reader
//! answers, and by answers that are made up.

mod known;
mod made_up;
mod requests;

use crate::bench::Layer;
use crate::message_checks::on_messages;

pub fn layer() -> Layer {
    let mut checks = known::checks();
    checks.extend(on_messages("NS part", requests::put));
    checks.extend(made_up::checks());
    Layer {
        checks,
        outcomes: requests::outcomes(),
        often_enough: 100,
    }
}
