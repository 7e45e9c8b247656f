//! Inputs whose listing is known beforehand, on paper.

use super::inputs::Input;
use crate::random::Random;
use crate::wire::written_out;

/// An input, and the values of type, rev, i, s and ns.
const LISTED: [(&str, [&str; 5]); 16] = [
    (
        "22 81 80 80 A1 02 D0 C0",
        ["CL", "2", "0.0.1", "1.0.0,1.0.2,1.0.11,6.0.0", "0"],
    ),
    ("22 80 80 80 80", ["CL", "2", "", "", "0"]),
    ("22 80 80 80 81 40 C0", ["CL", "2", "", "1.0.0", "0"]),
    ("22 80 80 80 81 C0", ["CL", "2", "", "1.0.0", "0"]),
    (
        "21 89 80 80 81 02 D0",
        ["MS", "2", "0.0.1,0.0.4", "1.0.0,1.0.2,1.0.11", "0"],
    ),
    (
        "32 91 80 80 21 84 02 D0 C0 41 42 C4",
        [
            "CL",
            "3",
            "0.0.1,0.0.5",
            "1.0.0,1.0.2,1.0.11,6.0.0,10.0.0,10.0.1,10.2.0,10.2.3",
            "0",
        ],
    ),
    (
        "F3 C0 80 80 80 03 AA BB CC 02 01 FF",
        ["CLR", "15", "0.0.7", "", "7"],
    ),
    ("01 00 C0 80 80 80", ["MS", "0", "0.0.14", "", "0"]),
    ("24", ["ACK(1)", "2", "", "", "0"]),
    ("15", ["ACK(2)", "1", "", "", "0"]),
    ("08", ["NAK(1)", "0", "", "", "0"]),
    ("A9", ["NAK(2)", "10", "", "", "0"]),
    ("2A", ["NAK(3)", "2", "", "", "0"]),
    ("FB", ["NAK(4)", "15", "", "", "0"]),
    ("13 80 81 C2 80 80", ["CLR", "1", "1.0.0,1.0.2", "", "0"]),
    (
        "21 80 80 80 00 81 41 42 C4",
        ["MS", "2", "", "8.0.0,8.0.1,8.2.0,8.2.3", "0"],
    ),
];

const REFUSED: [(&str, u8); 12] = [
    ("", 2),
    ("2D", 3),
    ("2D 80 80 80 80", 3),
    ("20", 3),
    ("26", 3),
    ("24 00", 4),
    ("22", 4),
    ("22 80 80 80", 4),
    ("22 80 80 80 80 00", 4),
    ("22 80 80 80 81", 4),
    ("22 80 80 80 81 80", 4),
    ("22 C0 80 80 80", 4),
];

/// A CL of so many octets: needless ones in its last block.
fn padded(size: usize) -> Vec<u8> {
    let mut octets = written_out("22 80 80 80");
    octets.resize(size - 1, 0);
    octets.push(0x80);
    octets
}

pub fn inputs(_: &mut Random) -> Vec<Input> {
    let known = |octets: Vec<u8>, text: String| Input {
        octets,
        known: Some(text),
    };
    let listing = |[kind, revision, i, s, ns]: [&str; 5]| {
        format!("type={kind}\nrev={revision}\ni={i}\ns={s}\nns={ns}\n")
    };
    let refusal = |number| format!("refusal={number}\n");
    let listed = LISTED.map(|(octets, values)| known(written_out(octets), listing(values)));
    let refused = REFUSED.map(|(octets, number)| known(written_out(octets), refusal(number)));
    let empty = listing(["CL", "2", "", "", "0"]);
    let longest = known(padded(64), empty);
    // What stands behind the 65th octet would make no difference.
    let too_long = [65, 66, 128, 300].map(|size| known(padded(size), refusal(2)));
    let all = listed.into_iter().chain(refused).chain([longest]);
    all.chain(too_long).collect()
}
