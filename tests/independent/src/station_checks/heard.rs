//! What comes to the station: events, and fields with good and bad messages.

use crate::choice_checks::drawn::*;
use crate::message::{self, Parameters};
use crate::message_checks::layout::Layout;
use crate::message_checks::requests::{MOST_OCTETS, UNKNOWN};
use crate::random::Random;
use crate::station::table::Cause;
use crate::station::words::{Event, Kind};
use crate::wire::MOST_LENT;

/// The message reader's refusal of a malformed message.
pub const MALFORMED: u8 = 4;

/// V.8, Short V.8, additional information and ACK(1) in the first octet of I.
const IDENTIFIED: u8 = 0b1111;

/// An event with this cause, and the field beside it.
pub fn with_cause(random: &mut Random, cause: Cause, drawn: &Drawn) -> (Event, Vec<u8>) {
    match cause {
        Cause::Event(event) => (event, Vec::new()),
        Cause::Message(kind) => (Event::Field, message(random, kind, drawn)),
        Cause::Broken => broken(random, drawn),
    }
}

/// Any event; where it is a field, anything in it.
pub fn anything(random: &mut Random, drawn: &Drawn) -> (Event, Vec<u8>) {
    let events: Vec<Event> = Event::all().collect();
    match random.pick(&events) {
        event if event != Event::Field && random.bit() => (event, Vec::new()),
        _ => (Event::Field, any_field(random, drawn)),
    }
}

fn any_field(random: &mut Random, drawn: &Drawn) -> Vec<u8> {
    match random.below(8) {
        0..=2 => {
            let kind = random.pick(&Kind::ALL);
            message(random, kind, drawn)
        }
        3 | 4 => of_unknown_type(random),
        5 => Layout::any(random).octets(),
        6 => Layout::mixed(random).octets(),
        _ => {
            let length = random.below(MOST_OCTETS + 6);
            random.octets(length)
        }
    }
}

/// An unknown type before anything else, or alone.
fn of_unknown_type(random: &mut Random) -> Vec<u8> {
    let length = random.pick(&[1, 1, 2, 5, MOST_OCTETS]);
    let mut octets = random.octets(length);
    octets[0] = octets[0] & 0xF0 | random.pick(&UNKNOWN);
    octets
}

/// A well-formed message of this type, struck or not.
pub fn message(random: &mut Random, kind: Kind, drawn: &Drawn) -> Vec<u8> {
    let mut layout = match kind {
        Kind::Ms => selection(random, drawn),
        Kind::Cl | Kind::Clr => list(random, drawn),
        _ => return vec![random.octet() << 4 | kind.number()],
    };
    layout.kind = kind.number();
    let first = &mut layout.identification.npars[0];
    *first = *first & !IDENTIFIED | random.octet() & IDENTIFIED;
    let octets = layout.octets();
    match random.below(4) {
        0 => message::struck(&octets).expect("a message"),
        _ => octets,
    }
}

/// An MS for a wish, for more than a wish, or for something else.
fn selection(random: &mut Random, drawn: &Drawn) -> Layout {
    let wished = match drawn.wishes.len() {
        0 => None,
        count => {
            let chosen = random.below(count);
            Some(from_wish(random, &drawn.wishes[chosen]))
        }
    };
    let selected = match (random.below(8), wished) {
        (0, _) | (_, None) => some_parameters(random),
        (1, _) => Parameters::new(),
        (2, Some(wished)) => with_forbidden(random, &wished),
        (_, Some(wished)) => wished,
    };
    far_selection(random, &selected)
}

/// A CL or CLR with all that the own table has, with some of it, or empty.
fn list(random: &mut Random, drawn: &Drawn) -> Layout {
    let common = match random.below(8) {
        0 => return any_list(random, drawn),
        1 => Parameters::new(),
        _ => drawn.own.clone(),
    };
    let noisy = with_noise(random, &common);
    far_list(random, &noisy)
}

/// An invalid frame, or a field of a wrong length or malformed.
fn broken(random: &mut Random, drawn: &Drawn) -> (Event, Vec<u8>) {
    let field = match random.below(3 + Kind::ALL.len()) {
        0 => return (Event::InvalidFrame, Vec::new()),
        1 => Vec::new(),
        2 => too_long(random),
        place => malformed(random, Kind::ALL[place - 3], drawn),
    };
    (Event::Field, field)
}

/// Octets without sense, or a message that would be well formed.
fn too_long(random: &mut Random) -> Vec<u8> {
    let length = random.within(MOST_OCTETS + 1, MOST_LENT);
    match random.bit() {
        true => random.octets(length),
        false => {
            let layout = Layout::any(random);
            let few = |random: &mut Random| random.octet() & 0x3F;
            layout.stretched(random, length, few).octets()
        }
    }
}

/// A malformed message of this type.
pub fn malformed(random: &mut Random, kind: Kind, drawn: &Drawn) -> Vec<u8> {
    let whole = message(random, kind, drawn);
    if whole.len() == 1 {
        let more = random.within(1, MOST_OCTETS - 1);
        return [whole, random.octets(more)].concat();
    }
    let mut damaged = whole.clone();
    match random.below(3) {
        0 => damaged.push(random.octet()),
        1 => damaged.truncate(random.within(1, whole.len())),
        _ => damaged[random.within(1, whole.len() - 1)] ^= 1 << random.below(8),
    }
    if message::refusal(&damaged) == Some(MALFORMED) {
        return damaged;
    }
    // No message with fields has fewer than five octets.
    whole[..random.within(1, 4)].to_vec()
}
