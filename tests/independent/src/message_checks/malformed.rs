//! Requests to the message operations that are no well-formed requests.

use super::drawn::non_standard_field;
use super::layout::Layout;
use super::requests::*;
use crate::bench::{Case, Check};
use crate::message::Meaning;
use crate::random::Random;
use crate::wire::{Row, MOST_LENT};
use crate::wire_checks::{self, TOO_LONG};

pub fn checks() -> Vec<Check> {
    vec![
        Check::of_cases("message requests: cut short", cut_short),
        Check::of_cases("message requests: octets left over", left_over),
        Check::of_cases("message requests: lengths above the limit", above_limit),
        Check::of_cases("message requests: lengths at the limit", at_limit),
        Check::of_cases("message requests: another count than codes", other_counts),
    ]
}

fn some_meaning(random: &mut Random) -> Meaning {
    let layout = Layout::within(random, 3, 40);
    let field = non_standard_field(random, 6);
    layout.announcing(field).meaning()
}

/// A well-formed request to the reader and one to the writer.
fn samples(random: &mut Random) -> [Vec<u8>; 2] {
    let message = Layout::any(random).octets();
    let meaning = some_meaning(random);
    [
        reader_request(LIST_ROOM, &message),
        writer_request(&meaning, &random.octets(MESSAGE_ROOM)),
    ]
}

fn well_formed(random: &mut Random) -> Vec<Case> {
    let layout = Layout::any(random);
    vec![
        heard(random, &layout.octets()).due(0),
        told(random, &layout.meaning()).due(0),
    ]
}

fn cut_short(random: &mut Random) -> Vec<Case> {
    let requests = samples(random);
    wire_checks::between(random, wire_checks::cut_short(&requests), well_formed)
}

fn left_over(random: &mut Random) -> Vec<Case> {
    let requests = samples(random);
    let malformed = wire_checks::with_octets_left_over(random, &requests);
    wire_checks::between(random, malformed, well_formed)
}

/// Rooms of more than 512 numbers, and messages of more than 255 octets.
fn long_reader_requests(random: &mut Random) -> Vec<Vec<u8>> {
    let mut requests = Vec::new();
    for room in [513, 514, 600, 1000, 1024, 32768, 65535] {
        requests.push(reader_request(room, &Layout::any(random).octets()));
        requests.push(reader_request(room, &[]));
    }
    for length in TOO_LONG {
        for room in [0, LIST_ROOM, MOST_NUMBERS] {
            requests.push(reader_request(room, &random.octets(length)));
        }
    }
    requests
}

/// Lists of more than 512 codes, NS and outputs of more than 255 octets.
fn long_writer_requests(random: &mut Random) -> Vec<Vec<u8>> {
    let mut requests = Vec::new();
    for count in [513, 514, 600, 1000, 10000] {
        let meaning = with_list(random, (1..=count).collect());
        requests.push(writer_request(&meaning, &random.octets(MESSAGE_ROOM)));
    }
    for length in TOO_LONG {
        let long = random.octets(length);
        let good = some_meaning(random);
        let with_long = Meaning {
            non_standard: long.clone(),
            ..good.clone()
        };
        requests.push(writer_request(&good, &long));
        requests.push(writer_request(&with_long, &random.octets(MESSAGE_ROOM)));
        requests.push(writer_request(&with_long, &long));
    }
    requests
}

/// All octets present; then lengths with nothing behind them.
fn above_limit(random: &mut Random) -> Vec<Case> {
    let mut requests = long_reader_requests(random);
    requests.extend(long_writer_requests(random));
    requests.push(vec![3, 0xC0, 1, 0xFF, 0xFF]);
    requests.push(vec![4, 2, 2, 0xFF, 0xFF]);
    let malformed = requests.into_iter().map(wire_checks::malformed).collect();
    wire_checks::between(random, malformed, well_formed)
}

/// The longest runs, buffers and lists are no malformed requests.
fn at_limit(random: &mut Random) -> Vec<Case> {
    let mut cases = Vec::new();
    for _ in 0..20 {
        let octets = random.octets(MOST_LENT);
        cases.push(reader_case(MOST_NUMBERS, &octets).due(2));
        let codes = (0..MOST_NUMBERS).map(|_| random.number() as u32).collect();
        let mut meaning = with_list(random, codes);
        meaning.non_standard = octets;
        let out = random.octets(MOST_LENT);
        cases.push(writer_case(&meaning, &out));
    }
    cases
}

/// A request whose count is one or more too high or too low; what stands
/// behind is then read as something else, and does not come out even.
fn other_counts(random: &mut Random) -> Vec<Case> {
    let mut malformed = Vec::new();
    for wrong_by in [1, 2, 5, 64, 256] {
        let codes = vec![0x0808_0808; 260];
        for count in [260 - wrong_by, 260 + wrong_by] {
            let row = Row::new().u8(4).u8(2).u8(2).u16(count);
            let row = codes.iter().fold(row, |row, &code| row.u32(code));
            let request = row.run(&[]).run(&random.octets(MESSAGE_ROOM)).done();
            malformed.push(wire_checks::malformed(request));
        }
    }
    wire_checks::between(random, malformed, well_formed)
}
