//! Requests to striking, and their cases.

use crate::bench::{Case, Outcome};
use crate::message;
use crate::message_checks::requests::large_output;
use crate::random::Random;
use crate::wire::Row;

const STRIKING: &str = "striking";
const OPERATION: u8 = 5;

/// Each type, and what a message of this type that is struck counts as.
const OF_TYPE: [(u8, &str); 9] = [
    (1, "striking of MS"),
    (2, "striking of CL"),
    (3, "striking of CLR"),
    (4, "striking of ACK(1)"),
    (5, "striking of ACK(2)"),
    (8, "striking of NAK(1)"),
    (9, "striking of NAK(2)"),
    (10, "striking of NAK(3)"),
    (11, "striking of NAK(4)"),
];

pub fn outcomes() -> Vec<Outcome> {
    let numbers = (0..=4).map(|number| Outcome {
        operation: STRIKING,
        number,
    });
    let of_types = OF_TYPE.iter().map(|&(_, operation)| Outcome {
        operation,
        number: 0,
    });
    numbers.chain(of_types).collect()
}

pub fn request(message: &[u8], out: &[u8]) -> Vec<u8> {
    Row::new().u8(OPERATION).run(message).run(out).done()
}

pub fn case(message: &[u8], out: &[u8]) -> Case {
    let answer = message::strike(message, out);
    let outcome = Outcome {
        operation: STRIKING,
        number: answer.number,
    };
    let case = Case::new(request(message, out), answer.reply(), outcome);
    case.counted_too(struck_type(answer.number, message))
}

fn struck_type(number: u8, message: &[u8]) -> Option<Outcome> {
    let kind = message.first()? & 15;
    let (_, operation) = OF_TYPE.iter().find(|(known, _)| *known == kind)?;
    (number == 0).then_some(Outcome { operation, number })
}

/// The octets given to striking with an output that is large enough and
/// filled at random.
pub fn put(random: &mut Random, message: &[u8]) -> Case {
    case(message, &large_output(random))
}
