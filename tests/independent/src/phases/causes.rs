//! All that can come to a station, by kinds, named for a reader of the tables
//! and the diagram.

use crate::station::words::*;
use crate::wire::written_out;

pub const OWN_TABLE: &str = "80 81 02 D0";
const READY: &str = "01 04 80 81 02 D0";
const NOT_READY: &str = "00 04 80 81 02 D0";

/// One thing that comes to a station, and the wishes it meets there: first
/// such that there is a choice, then such that there is none.
#[derive(Clone)]
pub struct Stimulus {
    pub name: String,
    pub event: Event,
    pub field: Vec<u8>,
    pub wishes: [&'static str; 2],
    /// Whether it comes when the time is up.
    pub is_late: bool,
}

/// Things that have one name as long as they do the same, and the verb for
/// what the station does with them.
pub struct Cause {
    pub verb: &'static str,
    pub name: String,
    pub stimuli: Vec<Stimulus>,
}

/// Causes of one kind.
pub struct Section {
    pub title: &'static str,
    pub causes: Vec<Cause>,
}

impl Stimulus {
    fn of_event(name: &str, event: Event) -> Stimulus {
        Stimulus {
            name: name.to_string(),
            event,
            field: Vec::new(),
            wishes: [READY, NOT_READY],
            is_late: false,
        }
    }

    fn of_field(name: &str, field: &str) -> Stimulus {
        Stimulus {
            field: written_out(field),
            ..Stimulus::of_event(name, Event::Field)
        }
    }

    /// An MS, which is not a matter of choice.
    fn selecting(name: &str, field: &str, wishes: &'static str) -> Stimulus {
        Stimulus {
            wishes: [wishes; 2],
            ..Stimulus::of_field(name, field)
        }
    }

    fn alone(self, verb: &'static str) -> Cause {
        Cause {
            verb,
            name: self.name.clone(),
            stimuli: vec![self],
        }
    }

    fn heard(self) -> Cause {
        self.alone("hears")
    }
}

pub fn sections() -> [Section; 5] {
    let starts = Start::ALL
        .map(|start| Stimulus::of_event(start.name(), Event::Start(start)).alone("starts"));
    let signals =
        Signal::ALL.map(|signal| Stimulus::of_event(signal.name(), Event::Signal(signal)).heard());
    let section = |title: &'static str, causes: Vec<Cause>| Section { title, causes };
    [
        section("Starts", starts.into()),
        section("Signals heard", signals.into()),
        section("An MS heard", selections().map(Stimulus::heard).into()),
        section("Other messages heard", messages()),
        section("All else", others()),
    ]
}

fn selections() -> [Stimulus; 4] {
    [
        Stimulus::selecting(
            "MS that fits and asks for ACK(1)",
            "21 88 80 80 81 02 D0",
            READY,
        ),
        Stimulus::selecting(
            "MS that fits and asks for no ACK(1)",
            "21 80 80 80 81 02 D0",
            READY,
        ),
        Stimulus::selecting(
            "MS that fits only wishes not ready",
            "21 88 80 80 81 02 D0",
            NOT_READY,
        ),
        Stimulus::selecting("MS that fits no wish", "21 88 80 80 A0 C0", READY),
    ]
}

fn messages() -> Vec<Cause> {
    let alone = [
        Stimulus::of_field("CL", "22 80 80 80 81 02 D0"),
        Stimulus::of_field("CLR", "23 80 80 80 81 02 D0"),
        Stimulus::of_field("ACK(1)", "24"),
        Stimulus::of_field("ACK(2)", "25"),
        Stimulus::of_field("an unknown type", "2D"),
    ];
    let alone = alone.map(Stimulus::heard);
    alone.into_iter().chain([naks()]).collect()
}

fn naks() -> Cause {
    let naks = [Kind::Nak1, Kind::Nak2, Kind::Nak3, Kind::Nak4];
    let hears = |kind: Kind| Stimulus {
        field: vec![0x20 | kind.number()],
        ..Stimulus::of_event(kind.name(), Event::Field)
    };
    Cause {
        verb: "hears",
        name: "a NAK".to_string(),
        stimuli: naks.map(hears).to_vec(),
    }
}

fn others() -> Vec<Cause> {
    let time_out = Stimulus {
        is_late: true,
        ..Stimulus::of_event("over 5000 ms", Event::AnswerTone)
    };
    vec![
        broken(),
        Stimulus::of_event("the answer tone", Event::AnswerTone).heard(),
        time_out.alone("waits"),
        Stimulus::of_event("reset", Event::Reset).alone("is"),
    ]
}

fn broken() -> Cause {
    let too_long = Stimulus {
        field: vec![0x22; 65],
        ..Stimulus::of_event("a field too long", Event::Field)
    };
    Cause {
        verb: "hears",
        name: "an invalid frame or a broken message".to_string(),
        stimuli: vec![
            Stimulus::of_event("an invalid frame", Event::InvalidFrame),
            Stimulus::of_field("a field of no octets", ""),
            too_long,
            Stimulus::of_field("a malformed message", "22 80 80 80 81"),
        ],
    }
}
