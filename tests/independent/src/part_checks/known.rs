//! NS whose octets are known beforehand: on paper, or from the way the
//! message was laid out.

use super::requests::{made_up, read, reply, Span};
use crate::bench::{Bench, Case, Check};
use crate::message_checks::layout::Layout;
use crate::random::Random;
use crate::wire::written_out;

const LAID_OUT: &str = "NS part: as it was laid out";

pub fn checks() -> Vec<Check> {
    vec![
        Check::new("NS part: known beforehand", |bench| {
            bench.compare(&known()?)
        }),
        Check::new(LAID_OUT, laid_out),
    ]
}

/// Message, number, NS.
const READ: [(&str, u8, &str); 12] = [
    ("22 80 80 80 80", 0, ""),
    ("21 C0 80 80 80 02 AA BB", 0, "02 AA BB"),
    ("23 40 80 80 80 80 02 C0 80", 0, "02 C0 80"),
    (
        "22 C1 80 80 A1 02 D0 C0 02 01 02 03 41 42 43",
        0,
        "02 01 02 03 41 42 43",
    ),
    ("24", 0, ""),
    ("", 2, ""),
    ("2D", 3, ""),
    ("20 C0 80 80 80 02 AA BB", 3, ""),
    ("21 C0 80 80 80", 4, ""),
    ("21 C0 80 80 80 01 AA", 4, ""),
    ("21 80 80 80 80 02 AA BB", 4, ""),
    ("24 02 AA BB", 4, ""),
];

/// A message with NS, for answers that are made up.
const MESSAGE: &str = "21 C0 80 80 80 02 AA BB";

/// Number, place, length, NS.
const MADE_UP: [(u8, u64, u64, &str); 16] = [
    (0, 5, 3, "02 AA BB"),
    (0, 0, 8, MESSAGE),
    (0, 1, 2, "C0 80"),
    (0, 7, 1, "BB"),
    (0, 0, 0, ""),
    (0, 8, 0, ""),
    (0, 9, 0, ""),
    (0, 8, 1, ""),
    (0, 5, 4, ""),
    (0, 0, u64::MAX, ""),
    (0, u64::MAX, 6, ""),
    (0, 5, u64::MAX, ""),
    (1, 5, 3, ""),
    (2, 5, 3, ""),
    (3, 5, 3, ""),
    (4, 5, 3, ""),
];

fn known() -> Result<Vec<Case>, String> {
    let mut cases = Vec::new();
    for (message, number, part) in READ {
        let reply = reply(number, &written_out(part));
        cases.push(read(&written_out(message)).known(&reply)?);
    }
    for (number, place, length, part) in MADE_UP {
        let case = made_up(number, Span { place, length }, &written_out(MESSAGE));
        cases.push(case.known(&reply(number, &written_out(part)))?);
    }
    Ok(cases)
}

fn laid_out(bench: &mut Bench) -> Result<(), String> {
    let mut random = Random::named(LAID_OUT);
    let case = |_| {
        let layout = Layout::any(&mut random);
        read(&layout.octets()).known(&reply(0, &layout.non_standard))
    };
    let cases: Result<Vec<Case>, String> = (0..2000).map(case).collect();
    bench.compare(&cases?)
}

#[cfg(test)]
mod tests {
    use super::*;

    #[test]
    fn parts_are_as_on_paper() {
        assert_eq!(known().map(|cases| cases.len()), Ok(28));
    }

    #[test]
    fn requests_octet_by_octet() {
        let message = written_out(MESSAGE);
        let due = "24 0800 21 C0 80 80 80 02 AA BB";
        assert_eq!(read(&message).request, written_out(due));
        let span = Span {
            place: 5,
            length: 259,
        };
        let due = "25 0800 21 C0 80 80 80 02 AA BB 04 0500000000000000 0301000000000000";
        assert_eq!(made_up(4, span, &message).request, written_out(due));
    }
}
