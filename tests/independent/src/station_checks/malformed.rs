//! Requests to the station that are no well-formed requests.

use super::drawn::faultless;
use super::heard;
use super::requests::{case, request};
use crate::bench::{Case, Check};
use crate::choice_checks::drawn::Drawn;
use crate::random::Random;
use crate::station::table::Cause;
use crate::station::words::{Event, Kind, Phase, Settings};
use crate::station::Situation;
use crate::wire::MOST_LENT;
use crate::wire_checks::{self, TOO_LONG};

/// Where the numbers of a request stand, in octets from its operation on.
const PHASE: usize = 1;
const ACK_ASKED: usize = 11;
const SETTINGS: usize = 12;
const OWN_TABLE: usize = 19;

const PHASES: u8 = 12;
const EVENTS: u8 = 6;

/// The most octets that wishes may have in a request.
const MOST_WISHES_OCTETS: usize = 2048;

pub fn checks() -> Vec<Check> {
    vec![
        Check::of_cases("station requests: phases", phases),
        Check::of_cases("station requests: ACK asked", ack_asked),
        Check::of_cases("station requests: settings", settings),
        Check::of_cases("station requests: events", events),
        Check::of_cases("station requests: what is started or heard", what),
        Check::of_cases("station requests: cut short", cut_short),
        Check::of_cases("station requests: octets left over", left_over),
        Check::of_cases("station requests: lengths above the limit", above_limit),
        Check::of_cases("station requests: lengths at the limit", at_limit),
        Check::of_cases(
            "station requests: a field beside another event",
            needless_field,
        ),
    ]
}

fn some_situation(random: &mut Random) -> Situation {
    let phase = random.pick(&Phase::ALL);
    let events: Vec<Event> = Event::all().collect();
    let cause = match (random.bit(), random.pick(&events)) {
        (true, event) if event != Event::Field => Cause::Event(event),
        _ => Cause::Message(random.pick(&Kind::ALL)),
    };
    faultless(random, phase, cause)
}

fn well_formed(random: &mut Random) -> Vec<Case> {
    vec![case(&some_situation(random))]
}

/// Where the event's number stands; the one of what is started or heard is
/// behind it.
fn event_place(situation: &Situation) -> usize {
    OWN_TABLE + 2 + situation.own.len() + 2 + situation.wishes.len()
}

/// The situation's request with another octet at this place.
fn altered(situation: &Situation, place: usize, octet: u8) -> Case {
    let mut request = request(situation);
    request[place] = octet;
    wire_checks::malformed(request)
}

fn phases(random: &mut Random) -> Vec<Case> {
    let phases = PHASES..=255;
    let malformed = phases.map(|phase| altered(&some_situation(random), PHASE, phase));
    let malformed = malformed.collect();
    wire_checks::between(random, malformed, well_formed)
}

fn ack_asked(random: &mut Random) -> Vec<Case> {
    let mut malformed = Vec::new();
    for phase in Phase::ALL {
        for asked in [2, 3, 4, 128, 254, 255] {
            let mut situation = some_situation(random);
            situation.state.phase = phase;
            malformed.push(altered(&situation, ACK_ASKED, asked));
        }
    }
    wire_checks::between(random, malformed, well_formed)
}

fn settings(random: &mut Random) -> Vec<Case> {
    let mut malformed = Vec::new();
    for (place, values) in (SETTINGS..).zip(Settings::VALUES) {
        for value in values as u8..=255 {
            malformed.push(altered(&some_situation(random), place, value));
        }
    }
    wire_checks::between(random, malformed, well_formed)
}

fn events(random: &mut Random) -> Vec<Case> {
    let event = |event| {
        let situation = some_situation(random);
        altered(&situation, event_place(&situation), event)
    };
    let malformed = (EVENTS..=255).map(event).collect();
    wire_checks::between(random, malformed, well_formed)
}

fn what(random: &mut Random) -> Vec<Case> {
    let mut malformed = Vec::new();
    for event in Event::all() {
        let values = match event {
            Event::Start(_) => 7,
            Event::Signal(_) => 4,
            _ => 1,
        };
        for value in (values..12).chain([127, 128, 254, 255]) {
            let situation = Situation {
                event,
                ..some_situation(random)
            };
            let place = event_place(&situation) + 1;
            malformed.push(altered(&situation, place, value));
        }
    }
    wire_checks::between(random, malformed, well_formed)
}

fn samples(random: &mut Random) -> [Vec<u8>; 2] {
    [0, 1].map(|_| request(&some_situation(random)))
}

fn cut_short(random: &mut Random) -> Vec<Case> {
    let malformed = wire_checks::cut_short(&samples(random));
    wire_checks::between(random, malformed, well_formed)
}

fn left_over(random: &mut Random) -> Vec<Case> {
    let requests = samples(random);
    let malformed = wire_checks::with_octets_left_over(random, &requests);
    wire_checks::between(random, malformed, well_formed)
}

/// Each run and buffer in turn longer than it may be.
fn above_limit(random: &mut Random) -> Vec<Case> {
    let mut malformed = Vec::new();
    for length in TOO_LONG {
        for chosen in 0..4 {
            let mut situation = some_situation(random);
            let long = random.octets(length);
            match chosen {
                0 => situation.own = long,
                1 => situation.field = long,
                2 => situation.out = long,
                _ => situation.store = long,
            }
            malformed.push(wire_checks::malformed(request(&situation)));
        }
    }
    for length in [1, 2, 100, 20_000].map(|more| MOST_WISHES_OCTETS + more) {
        let mut situation = some_situation(random);
        situation.wishes = random.octets(length);
        malformed.push(wire_checks::malformed(request(&situation)));
    }
    wire_checks::between(random, malformed, well_formed)
}

/// The longest runs and buffers are no malformed requests.
fn at_limit(random: &mut Random) -> Vec<Case> {
    let case = |turn| {
        let mut situation = Situation {
            event: Event::Field,
            out: random.octets(MOST_LENT),
            store: random.octets(MOST_LENT),
            ..some_situation(random)
        };
        match turn % 3 {
            0 => situation.own = random.octets(MOST_LENT),
            1 => situation.wishes = random.octets(MOST_WISHES_OCTETS),
            _ => situation.field = random.octets(MOST_LENT),
        }
        case(&situation)
    };
    (0..90).map(case).collect()
}

/// A field is not looked at where another event comes.
fn needless_field(random: &mut Random) -> Vec<Case> {
    let others = Event::all().filter(|event| *event != Event::Field);
    let mut cases = Vec::new();
    for event in others {
        for kind in Kind::ALL {
            let phase = random.pick(&Phase::ALL);
            let drawn = Drawn::some(random);
            let mut situation = faultless(random, phase, Cause::Event(event));
            situation.field = heard::message(random, kind, &drawn);
            cases.push(case(&situation));
        }
    }
    cases
}
