//! Messages whose struck form is known beforehand, on paper.

use super::requests::case;
use crate::bench::{Bench, Case, Check};
use crate::message::Writing;
use crate::message_checks::requests::MESSAGE_ROOM;
use crate::wire::written_out;

pub fn checks() -> Vec<Check> {
    vec![Check::new("striking: known beforehand", known)]
}

const REFUSED: [(&str, u8); 9] = [
    ("", 2),
    ("2D", 3),
    ("2D 80 80 80 80", 3),
    ("24 00", 4),
    ("22 80 80 80", 4),
    ("22 80 80 80 80 00", 4),
    ("22 80 80 80 81", 4),
    ("22 80 80 80 81 80", 4),
    ("22 C0 80 80 80", 4),
];

/// Messages and what they are struck to.
const STRUCK: [(&str, &str); 33] = [
    ("22 80 80 80 80", "22 80 80 80 80"),
    ("22 80 80 80 81 40 C0", "22 80 80 80 81 C0"),
    (
        "32 91 80 80 21 84 02 D0 C0 41 42 C4",
        "32 81 80 80 A1 02 D0 C0",
    ),
    ("22 81 80 80 A1 02 D0 C0", "22 81 80 80 A1 02 D0 C0"),
    ("24", "24"),
    ("FB", "FB"),
    // An MS keeps what is unnamed in S but not in I, and becomes minimal.
    ("21 89 80 80 81 02 D0", "21 89 80 80 81 02 D0"),
    ("21 80 80 80 81 02 D8", "21 80 80 80 81 02 D8"),
    ("21 B1 82 C1 80 81 02 18 C0", "21 81 80 80 81 02 D8"),
    ("21 80 80 80 00 84 41 42 C4", "21 80 80 80 00 84 41 42 C4"),
    ("22 80 80 80 81 02 D8", "22 80 80 80 81 02 D0"),
    ("23 80 80 80 81 02 D8", "23 80 80 80 81 02 D0"),
    // A reserved SPar goes with its blocks, and no later block is shifted.
    ("22 80 83 C1 02 D0 80 81 C2", "22 80 81 C1 80 81 C2"),
    ("22 80 84 41 43 41 C1 80 A0 C1", "22 80 80 80 A0 C1"),
    ("22 80 80 80 A1 42 41 C1 C1", "22 80 80 80 A1 C2 C1"),
    ("22 80 80 80 84 41 42 C1", "22 80 80 80 84 C1"),
    (
        "22 80 80 80 84 41 43 3F 41 C1",
        "22 80 80 80 84 41 41 3F C1",
    ),
    // Every position of the octets that have a table.
    ("22 BF 81 FF 80 80", "22 8F 81 E7 80 80"),
    ("22 80 80 BF 80", "22 80 80 80 80"),
    (
        "22 80 80 80 7F FF C0 C0 C0 C0 C0 C0 C0 C0 C0 C0 C0 C0 C0 C0",
        "22 80 80 80 7F 83 C0 C0 C0 C0 C0 C0 C0 C0 C0",
    ),
    ("22 80 80 80 81 3F 3F 3F FF", "22 80 80 80 81 3F 37 3F C7"),
    ("22 80 80 80 82 3F 3F FF", "22 80 80 80 82 3B 3F C7"),
    ("22 80 80 80 84 7F 41 3F FF", "22 80 80 80 84 67 41 3F C1"),
    ("22 80 80 80 88 FF", "22 80 80 80 88 E3"),
    ("22 80 80 80 90 3F FF", "22 80 80 80 90 3F E7"),
    ("22 80 80 80 A0 FF", "22 80 80 80 A0 E7"),
    ("22 80 80 80 C0 FF", "22 80 80 80 C0 E7"),
    ("22 80 80 80 00 81 FF", "22 80 80 80 00 81 E7"),
    (
        "22 80 80 80 00 82 3F 3F 3F 3F 3F FF",
        "22 80 80 80 00 82 38 3F 3F 3F FF",
    ),
    // Octets and blocks in which nothing is left.
    ("22 B0 80 80 80", "22 80 80 80 80"),
    ("22 00 FF 80 80 80", "22 80 80 80 80"),
    ("22 80 80 80 81 41 C0", "22 80 80 80 81 C1"),
    // NS and non-standard bits stay.
    (
        "22 F0 81 E0 FF 90 20 E0 02 AA BB",
        "22 C0 81 E0 C0 90 20 E0 02 AA BB",
    ),
];

fn known(bench: &mut Bench) -> Result<(), String> {
    let out = [0x55; MESSAGE_ROOM];
    let refused = |&(message, number): &(&str, u8)| case(&written_out(message), &out).due(number);
    let struck = |&(message, due): &(&str, &str)| {
        let writing = Writing::success(&written_out(due), &out);
        case(&written_out(message), &out).known(&writing.reply())
    };
    let mut cases: Vec<Case> = REFUSED.iter().map(refused).collect();
    for case in STRUCK.iter().map(struck) {
        cases.push(case?);
    }
    bench.compare(&cases)
}

#[cfg(test)]
mod tests {
    use super::*;
    use crate::message;

    #[test]
    fn struck_as_on_paper() {
        for (text, due) in STRUCK {
            let struck = message::struck(&written_out(text));
            assert_eq!(struck, Some(written_out(due)), "{text}");
        }
    }

    #[test]
    fn refused_as_on_paper() {
        for (text, number) in REFUSED {
            let out = [0x55; MESSAGE_ROOM];
            let answer = message::strike(&written_out(text), &out);
            assert_eq!((answer.number, answer.count), (number, 0), "{text}");
            assert_eq!(answer.out, out);
        }
    }
}
