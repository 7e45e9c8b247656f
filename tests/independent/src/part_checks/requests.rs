//! Requests for the NS of a message, and their cases.

use crate::bench::{Case, Outcome};
use crate::message;
use crate::random::Random;
use crate::wire::Row;

const OF_READING: u8 = 36;
const OF_MADE_UP: u8 = 37;

const READING: &str = "NS part by the reader's answer";
const MADE_UP: &str = "NS part by an answer made up";

/// What a success counts as too.
const THERE: &str = "NS part of a message that has it";
const NOT_THERE: &str = "NS part of a message without it";
const INSIDE: &str = "NS part said to lie in the message";
const OUTSIDE: &str = "NS part said to lie outside the message";

pub fn outcomes() -> Vec<Outcome> {
    let of = |operation| move |number| Outcome { operation, number };
    let by_reading = [0, 2, 3, 4].into_iter().map(of(READING));
    let by_made_up = (0..=4).map(of(MADE_UP));
    let successes = [THERE, NOT_THERE, INSIDE, OUTSIDE].map(|operation| of(operation)(0));
    by_reading.chain(by_made_up).chain(successes).collect()
}

/// Where NS is said to lie.
#[derive(Clone, Copy)]
pub struct Span {
    pub place: u64,
    pub length: u64,
}

impl Span {
    /// The octets in the message, if all of them are there.
    fn part_of(self, message: &[u8]) -> Option<&[u8]> {
        let place = usize::try_from(self.place).ok()?;
        let length = usize::try_from(self.length).ok()?;
        message.get(place..)?.get(..length)
    }
}

/// The NS that the reader's answer hands back: as it came, and none with a
/// refusal.
pub fn read(message: &[u8]) -> Case {
    let request = Row::new().u8(OF_READING).run(message);
    let (number, part, counted_too) = match message::non_standard(message) {
        Ok(part) if part.is_empty() => (0, part, Some(NOT_THERE)),
        Ok(part) => (0, part, Some(THERE)),
        Err(number) => (number, Vec::new(), None),
    };
    case(READING, request, number, &part, counted_too)
}

pub fn put(_: &mut Random, message: &[u8]) -> Case {
    read(message)
}

/// The NS of an answer with this number that says where NS lies: the octets
/// there, and none where they are not all there or with a refusal.
pub fn made_up(number: u8, span: Span, message: &[u8]) -> Case {
    let request = Row::new().u8(OF_MADE_UP).run(message).u8(number);
    let request = request.u64(span.place).u64(span.length);
    let (part, counted_too) = match span.part_of(message) {
        _ if number != 0 => (&[][..], None),
        Some(part) => (part, Some(INSIDE)),
        None => (&[][..], Some(OUTSIDE)),
    };
    case(MADE_UP, request, number, part, counted_too)
}

/// The reply with a number and this NS.
pub fn reply(number: u8, part: &[u8]) -> Vec<u8> {
    Row::new().u8(number).run(part).done()
}

fn case(
    operation: &'static str,
    request: Row,
    number: u8,
    part: &[u8],
    counted_too: Option<&'static str>,
) -> Case {
    let outcome = Outcome { operation, number };
    let case = Case::new(request.done(), reply(number, part), outcome);
    case.counted_too(counted_too.map(|operation| Outcome { operation, number }))
}
