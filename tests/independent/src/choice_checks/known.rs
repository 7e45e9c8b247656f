//! Own tables, wishes and messages whose answers are known beforehand, on
//! paper.

use super::requests::{check, choice, first_ready, verdict, Far};
use crate::bench::{Bench, Case, Check};
use crate::wire::written_out;

pub fn checks() -> Vec<Check> {
    vec![Check::new(
        "own table, wishes, choice: known beforehand",
        known,
    )]
}

/// Data with V.42 and V.34, and V.42 alone; telephony with voice.
const OWN: &str = "80 A1 02 D0 C1";

/// Own table, wishes, number.
const CHECKED: [(&str, &str, u8); 24] = [
    ("80 80", "", 0),
    ("", "", 2),
    ("80", "", 2),
    ("80 80 80", "", 2),
    ("00 80 80", "", 2),
    ("80 81 40 C0", "", 2),
    ("80 81 02 D8", "", 2),
    ("C0 80", "", 2),
    ("80 81 E0", "", 2),
    ("80 00 82 E0", "", 0),
    ("80 90 00 E0", "", 2),
    (OWN, "", 0),
    (OWN, "01 04 80 81 02 D0", 0),
    (OWN, "01 04 80 81 02 D0 00 04 80 81 02 D0", 0),
    (OWN, "02 04 80 81 02 D0", 3),
    (OWN, "01 05 80 81 02 D0", 3),
    (OWN, "01 03 80 81 02 D0", 3),
    (OWN, "01 04 80 81 02 D0 01", 3),
    (OWN, "01 02 80 80", 3),
    (OWN, "01 00", 3),
    (OWN, "00 04 80 81 02 D8", 3),
    (OWN, "00 04 80 81 03 D0", 4),
    (OWN, "01 03 80 81 C2 00 03 80 A0 C2", 4),
    ("80 81 02 D8", "02", 2),
];

/// Wishes and the reply without a far list.
const FIRST_READY: [(&str, &str); 3] = [
    ("", "0B 00 0000 0000"),
    ("00 04 80 81 02 D0", "0B 00 0000 0000"),
    ("00 04 80 81 02 D0 01 03 80 A0 C1", "00 02 0800 0300"),
];

/// Wishes, far list, place of its S field, reply.
const CHOSEN: [(&str, &str, usize, &str); 6] = [
    (
        "01 04 80 81 02 D0",
        "22 81 80 80 A1 02 D0 C0",
        3,
        "00 01 0200 0400",
    ),
    (
        "01 04 80 81 02 D0",
        "32 91 80 80 21 84 02 D0 C0 41 42 C4",
        3,
        "00 01 0200 0400",
    ),
    (
        "01 03 80 A0 C1 01 04 80 81 02 D0",
        "22 80 81 C1 80 A1 02 D0 C0",
        4,
        "00 02 0700 0400",
    ),
    (
        "00 04 80 81 02 D0 01 03 80 A0 C1",
        "22 80 80 80 A1 02 D0 C0",
        3,
        "0B 00 0000 0000",
    ),
    ("01 03 80 81 C1", "22 80 80 80 81 C1", 3, "0B 00 0000 0000"),
    ("01 03 80 81 C2", "22 80 80 80 81 C1", 3, "0B 00 0000 0000"),
];

/// Wishes, MS, place of its S field, number.
const JUDGED: [(&str, &str, usize, u8); 10] = [
    ("01 04 80 81 02 D0", "21 89 80 80 81 02 D0", 3, 0),
    ("01 04 80 81 02 D0", "21 80 80 80 81 02 D8", 3, 3),
    ("01 04 80 81 02 D0", "21 80 80 80 81 42 C0", 3, 0),
    ("01 04 80 81 02 D0", "21 80 80 80 81 C0", 3, 0),
    ("01 04 80 81 02 D0", "21 80 80 80 80", 3, 3),
    ("01 04 80 81 02 D0", "21 80 80 80 A1 C0 C0", 3, 3),
    ("00 04 80 81 02 D0", "21 89 80 80 81 02 D0", 3, 2),
    (
        "00 04 80 81 02 D0 01 03 80 81 C2",
        "21 80 80 80 81 C2",
        3,
        0,
    ),
    (
        "00 04 80 81 02 D0 01 03 80 81 C2",
        "21 80 80 80 81 02 D0",
        3,
        2,
    ),
    ("", "21 80 80 80 81 02 D0", 3, 3),
];

fn far(octets: &str, place: usize) -> Far {
    Far {
        octets: written_out(octets),
        place,
    }
}

fn known(bench: &mut Bench) -> Result<(), String> {
    bench.compare(&known_cases()?)
}

fn known_cases() -> Result<Vec<Case>, String> {
    let own = written_out(OWN);
    let mut cases = Vec::new();
    for (own, wishes, number) in CHECKED {
        cases.push(check(&written_out(own), &written_out(wishes)).known(&[number])?);
    }
    for (wishes, reply) in FIRST_READY {
        cases.push(first_ready(&own, &written_out(wishes)).known(&written_out(reply))?);
    }
    for (wishes, list, place, reply) in CHOSEN {
        let case = choice(&own, &written_out(wishes), &far(list, place));
        cases.push(case.known(&written_out(reply))?);
    }
    for (wishes, selection, place, number) in JUDGED {
        let case = verdict(&own, &written_out(wishes), &far(selection, place));
        cases.push(case.known(&[number])?);
    }
    Ok(cases)
}

#[cfg(test)]
mod tests {
    use super::*;

    #[test]
    fn answers_are_as_on_paper() {
        assert_eq!(known_cases().map(|cases| cases.len()), Ok(43));
    }

    /// Own table of 5 octets, wishes of 6 octets, far list of 8 with S from
    /// place 3 on.
    #[test]
    fn requests_octet_by_octet() {
        let own = written_out(OWN);
        let wishes = written_out("01 04 80 81 02 D0");
        let list = far("22 81 80 80 A1 02 D0 C0", 3);
        let requests = [
            check(&own, &wishes),
            first_ready(&own, &wishes),
            choice(&own, &wishes, &list),
            verdict(&own, &wishes, &list),
        ];
        let due = [
            "20 0500 80 A1 02 D0 C1 0600 01 04 80 81 02 D0",
            "21 0600 01 04 80 81 02 D0",
            "22 0500 80 A1 02 D0 C1 0600 01 04 80 81 02 D0 0800 22 81 80 80 A1 02 D0 C0 03",
            "23 0600 01 04 80 81 02 D0 0800 22 81 80 80 A1 02 D0 C0 03",
        ];
        for (case, due) in requests.iter().zip(due) {
            assert_eq!(case.request, written_out(due));
        }
    }
}
