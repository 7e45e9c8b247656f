//! Messages whose answers are known beforehand, on paper.

use super::requests::*;
use crate::bench::{Bench, Case};
use crate::message::{Code, Meaning, Reading, Writing};
use crate::wire::written_out as octets;

const REFUSED: [(&str, u8); 12] = [
    ("", 2),
    ("2d", 3),
    ("2d80808080", 3),
    ("2400", 4),
    ("22", 4),
    ("22808080", 4),
    ("228080808000", 4),
    ("2280808081", 4),
    ("228080808180", 4),
    ("228080808140", 4),
    ("228080808140c1c0", 4),
    ("22c0808080", 4),
];

/// A message, all that it carries, with codes as f.s.t.n, and its minimal
/// form.
struct Accepted {
    octets: &'static str,
    kind: u8,
    revision: u8,
    codes: &'static str,
    non_standard: &'static str,
    minimal: &'static str,
}

const ACCEPTED: [Accepted; 11] = [
    Accepted {
        octets: "24",
        kind: 4,
        revision: 2,
        codes: "",
        non_standard: "",
        minimal: "24",
    },
    Accepted {
        octets: "2a",
        kind: 10,
        revision: 2,
        codes: "",
        non_standard: "",
        minimal: "2a",
    },
    Accepted {
        octets: "2280808080",
        kind: 2,
        revision: 2,
        codes: "",
        non_standard: "",
        minimal: "2280808080",
    },
    Accepted {
        octets: "228080808140c0",
        kind: 2,
        revision: 2,
        codes: "2.1.0.0",
        non_standard: "",
        minimal: "2280808081c0",
    },
    Accepted {
        octets: "22818080a102d0c0",
        kind: 2,
        revision: 2,
        codes: "1.0.0.1 2.1.0.0 2.1.0.2 2.1.0.11 2.6.0.0",
        non_standard: "",
        minimal: "22818080a102d0c0",
    },
    Accepted {
        octets: "32918080218402d0c04142c4",
        kind: 2,
        revision: 3,
        codes: "1.0.0.1 1.0.0.5 2.1.0.0 2.1.0.2 2.1.0.11 2.6.0.0 \
                2.10.0.0 2.10.0.1 2.10.2.0 2.10.2.3",
        non_standard: "",
        minimal: "32918080218402d0c04142c4",
    },
    Accepted {
        octets: "218980808102d0",
        kind: 1,
        revision: 2,
        codes: "1.0.0.1 1.0.0.4 2.1.0.0 2.1.0.2 2.1.0.11",
        non_standard: "",
        minimal: "218980808102d0",
    },
    Accepted {
        octets: "218080808102d8",
        kind: 1,
        revision: 2,
        codes: "2.1.0.0 2.1.0.2 2.1.0.10 2.1.0.11",
        non_standard: "",
        minimal: "218080808102d8",
    },
    Accepted {
        octets: "2200c0808080",
        kind: 2,
        revision: 2,
        codes: "1.0.0.14",
        non_standard: "",
        minimal: "2200c0808080",
    },
    Accepted {
        octets: "23c080808003aabbcc0201ff",
        kind: 3,
        revision: 2,
        codes: "1.0.0.7",
        non_standard: "03aabbcc0201ff",
        minimal: "23c080808003aabbcc0201ff",
    },
    Accepted {
        octets: "f10100808040810180004102400400c0",
        kind: 1,
        revision: 15,
        codes: "1.0.0.1 2.0.0.7 2.0.0.8 2.1.0.0 2.1.0.7 2.1.2.0 2.1.2.3",
        non_standard: "",
        minimal: "f18180408181004142c4",
    },
];

pub fn code(text: &str) -> u32 {
    let part = |text: &str| text.parse().expect("a number");
    let parts: Vec<u32> = text.split('.').map(part).collect();
    Code::new(parts[0], parts[1], parts[2], parts[3]).number()
}

impl Accepted {
    fn meaning(&self) -> Meaning {
        Meaning {
            kind: self.kind,
            revision: self.revision,
            codes: self.codes.split_whitespace().map(code).collect(),
            non_standard: octets(self.non_standard),
        }
    }

    /// The message read, the same written, and what was written read.
    fn cases(&self) -> Result<[Case; 3], String> {
        let meaning = self.meaning();
        let out = [0x55; MESSAGE_ROOM];
        let read = |text: &str| {
            let octets = octets(text);
            let reading = Reading::success(octets.len(), &meaning, LIST_ROOM);
            reader_case(LIST_ROOM, &octets).known(&reading.reply())
        };
        let writing = Writing::success(&octets(self.minimal), &out);
        Ok([
            read(self.octets)?,
            writer_case(&meaning, &out).known(&writing.reply())?,
            read(self.minimal)?,
        ])
    }
}

pub fn check(bench: &mut Bench) -> Result<(), String> {
    let refused = |&(text, number): &(&str, u8)| reader_case(LIST_ROOM, &octets(text)).due(number);
    let mut cases: Vec<Case> = REFUSED.iter().map(refused).collect();
    for accepted in &ACCEPTED {
        cases.extend(accepted.cases()?);
    }
    bench.compare(&cases)
}
