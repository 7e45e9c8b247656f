//! The checks of the message reader and the message writer, and the families
//! of messages that every operation on a message is put to.

mod causes;
mod damage;
mod drawn;
mod first_octets;
pub mod layout;
mod malformed;
pub mod mixed;
mod named;
mod non_standard;
mod reader_limits;
pub mod requests;
mod round_trips;
mod same_meaning;
mod shapes;
mod whole;
mod writer_causes;
mod writer_first_octets;
mod writer_lists;
mod writer_non_standard;
mod writer_spoiled;

pub use causes::all_sets as with_all_sets_of_causes;
pub use damage::each_bit_inverted;
pub use reader_limits::FAMILIES as READER_LIMITS;
pub use round_trips::message_written;
pub use shapes::{near_front, random_code};

use crate::bench::{Check, Layer};
use requests::{Family, Put};

pub fn layer() -> Layer {
    let mut checks = vec![Check::new("messages known beforehand", named::check)];
    checks.extend(on_messages("message reader", requests::heard));
    let limits = READER_LIMITS.iter();
    checks.extend(limits.map(|&(name, family)| Check::of_cases(name, family)));
    checks.extend(writer_lists::checks());
    checks.extend(writer_spoiled::checks());
    checks.extend(writer_first_octets::checks());
    checks.extend(writer_non_standard::checks());
    checks.extend(writer_causes::checks());
    checks.extend(round_trips::checks());
    checks.extend(same_meaning::checks());
    checks.extend(malformed::checks());
    Layer {
        checks,
        outcomes: requests::outcomes(),
        often_enough: 100,
    }
}

/// All families of messages.
pub fn families() -> impl Iterator<Item = &'static (&'static str, Family)> {
    whole::FAMILIES
        .iter()
        .chain(&first_octets::FAMILIES)
        .chain(&non_standard::FAMILIES)
        .chain(&causes::FAMILIES)
        .chain(&damage::FAMILIES)
}

/// All families of messages, put to an operation on a message.
pub fn on_messages(operation: &str, put: Put) -> Vec<Check> {
    let check = |&(messages, family): &(&str, Family)| {
        let name = format!("{operation}: {messages}");
        Check::of_cases(&name, move |random| family(random, put))
    };
    families().map(check).collect()
}
