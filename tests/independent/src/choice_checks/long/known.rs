//! Long far fields whose answers are known beforehand, on paper.

use super::super::requests::{choice, Far};
use crate::bench::{Bench, Case, Check};
use crate::wire::written_out;

pub fn checks() -> Vec<Check> {
    vec![Check::new(
        "choice: long far fields known beforehand",
        known,
    )]
}

/// Data with V.42 and V.34, H.324 with its SPar(2).
const OWN: &str = "80 85 02 D0 40 41 C0";

const NO_CHOICE: &str = "0B 00 0000 0000";

/// The octets of a far run up to a row of empty ones, the length of that row,
/// the octets behind it, and whether there is a choice.
type Run = (&'static str, usize, &'static str, bool);

/// Wishes inside the own table, the reply where there is a choice, and the
/// place of the far field in some runs.
struct Known {
    wishes: &'static str,
    reply: &'static str,
    place: usize,
    runs: &'static [Run],
}

static KNOWN: [Known; 5] = [
    // Data: positions 510 to 512. The last would have the code of the SPar(2)
    // in the last run.
    Known {
        wishes: "01 03 80 81 C0",
        reply: "00 01 0200 0300",
        place: 0,
        runs: &[
            ("80 81", 84, "E0", true),
            ("80 81", 85, "C0", true),
            ("80 81", 85, "C1", true),
            ("80 81", 85, "C2", false),
            ("80 81", 86, "C0", false),
            ("80", 73, "81 C0", false),
            ("80 81 40 41", 0, "C0", true),
        ],
    },
    // H.324: the same with a wish for that SPar(2); then SPar(2) and NPar(3).
    Known {
        wishes: "01 05 80 84 40 41 C0",
        reply: "00 01 0200 0500",
        place: 0,
        runs: &[
            ("80 84", 85, "C1", false),
            ("80 84", 85, "C2", false),
            ("80 84 40 41", 0, "C0", true),
            ("80 84 40 01", 84, "41 40 C0", true),
            ("80 84 40 01", 84, "42 40 C0", false),
            ("80 84 40 41", 85, "C1", true),
            ("80 84 40 41", 85, "C2", false),
        ],
    },
    // V.42 and V.34: NPar(1) and SPar(1) of 73 and 74 octets.
    Known {
        wishes: "01 04 80 81 02 D0",
        reply: "00 01 0200 0400",
        place: 0,
        runs: &[
            ("", 72, "80 81 02 D0", true),
            ("", 72, "C0 81 02 D0", true),
            ("", 73, "80 81 02 D0", false),
            ("80 01", 71, "80 02 D0", true),
            ("80 01", 71, "C0 02 D0 C0", true),
            ("80 01", 72, "80 02 D0", false),
        ],
    },
    // Behind the first octet and I of a CL; V.34 is missing in one.
    Known {
        wishes: "01 04 80 81 02 D0",
        reply: "00 01 0200 0400",
        place: 3,
        runs: &[
            ("22 81 80 80 81 02 10", 60, "C0", true),
            ("22 81 80 80 81 02 10", 90, "C0", false),
            ("22 81 80 80 81 02 00", 60, "C0", false),
        ],
    },
    // The second of two wishes.
    Known {
        wishes: "01 04 80 81 02 D0 01 03 80 81 C0",
        reply: "00 02 0800 0300",
        place: 0,
        runs: &[("80 81 02 00", 60, "C0", true)],
    },
];

impl Known {
    fn case(&self, (front, empty, end, is_chosen): Run) -> Result<Case, String> {
        let octets = [written_out(front), vec![0; empty], written_out(end)].concat();
        let place = self.place;
        let far = Far { octets, place };
        let reply = if is_chosen { self.reply } else { NO_CHOICE };
        let case = choice(&written_out(OWN), &written_out(self.wishes), &far);
        case.known(&written_out(reply))
    }
}

fn known(bench: &mut Bench) -> Result<(), String> {
    bench.compare(&known_cases()?)
}

fn known_cases() -> Result<Vec<Case>, String> {
    let of_known = |known: &'static Known| known.runs.iter().map(|&run| known.case(run));
    KNOWN.iter().flat_map(of_known).collect()
}

#[cfg(test)]
mod tests {
    use super::*;

    #[test]
    fn answers_are_as_on_paper() {
        assert_eq!(known_cases().map(|cases| cases.len()), Ok(24));
    }
}
