//! The station: what it makes of one event in the state it is in.

pub mod far;
pub mod table;
#[cfg(test)]
mod tests;
pub mod words;

use crate::choice::{Choice, Verdict};
use crate::message::{self, Code, Meaning};
use crate::tables::Tables;
use far::{Far, ACK, SHORT_V8, V8};
use table::{rule_for, Cause, Reaction};
use words::*;

/// The octets that output and store must have room for.
pub const OUTPUT_ROOM: usize = 128;
pub const STORE_ROOM: usize = 64;

const MESSAGE_ROOM: usize = 64;

/// The longest stay in a timed phase, in milliseconds.
pub const PATIENCE: u64 = 5000;

/// The revision of all that is sent.
const REVISION: u8 = 2;

/// The answer numbers; those of own table and wishes are 2 to 4.
pub mod number {
    pub const SUCCESS: u8 = 0;
    pub const ROOM: u8 = 1;
    pub const TIME_BEFORE_ENTRY: u8 = 5;
    pub const TIMED_OUT: u8 = 6;
    pub const UNKNOWN_TYPE: u8 = 9;
    pub const NOT_IN_TABLE: u8 = 10;
    pub const NO_CHOICE: u8 = 11;
}

/// The message reader's refusal of an unknown type.
const READER_UNKNOWN: u8 = 3;

/// The wish and what was asked are of account in Proposed and Mode only.
#[derive(Clone, Copy, Debug, PartialEq)]
pub struct State {
    pub phase: Phase,
    pub entry: u64,
    pub wish: u8,
    pub ack_asked: bool,
}

impl State {
    /// A phase that carries nothing but its entry time.
    pub fn entered(phase: Phase, entry: u64) -> State {
        State {
            phase,
            entry,
            wish: 0,
            ack_asked: false,
        }
    }
}

/// All that one step depends on, with the buffers as they are lent.
#[derive(Clone, Debug)]
pub struct Situation {
    pub state: State,
    pub settings: Settings,
    pub own: Vec<u8>,
    pub wishes: Vec<u8>,
    pub event: Event,
    pub field: Vec<u8>,
    pub time: u64,
    pub out: Vec<u8>,
    pub store: Vec<u8>,
}

/// What a step gives. The fields stand one behind the other at the front of
/// the output, and what is stored at the front of the store.
#[derive(Clone, Debug, PartialEq)]
pub struct Answer {
    pub number: u8,
    pub state: State,
    pub signal: Option<Signal>,
    pub fields: Vec<Vec<u8>>,
    pub stored: Vec<u8>,
}

impl Answer {
    fn entering(state: State) -> Answer {
        Answer {
            number: number::SUCCESS,
            state,
            signal: None,
            fields: Vec::new(),
            stored: Vec::new(),
        }
    }
}

impl Situation {
    pub fn step(&self) -> Answer {
        if self.event == Event::Reset {
            return Answer::entering(State::entered(Phase::Initial, self.time));
        }
        self.act().unwrap_or_else(|number| self.refused(number))
    }

    fn refused(&self, number: u8) -> Answer {
        let state = match number {
            number::TIMED_OUT => State::entered(Phase::Initial, self.time),
            _ => self.state,
        };
        Answer {
            number,
            ..Answer::entering(state)
        }
    }

    fn act(&self) -> Result<Answer, u8> {
        if self.out.len() < OUTPUT_ROOM || self.store.len() < STORE_ROOM {
            return Err(number::ROOM);
        }
        let tables = Tables::checked(&self.own, &self.wishes)?;
        let stay = self.time.checked_sub(self.state.entry);
        let stay = stay.ok_or(number::TIME_BEFORE_ENTRY)?;
        if self.state.phase.is_timed() && stay > PATIENCE {
            return Err(number::TIMED_OUT);
        }
        if self.state.phase == Phase::Mode {
            return Err(number::NOT_IN_TABLE);
        }
        let cause = self.cause().ok_or(number::UNKNOWN_TYPE)?;
        let rule = rule_for(&self.state, &self.settings, cause).ok_or(number::NOT_IN_TABLE)?;
        let turn = Turn {
            situation: self,
            tables,
            far: Far::of_octets(&self.field).filter(|_| self.event == Event::Field),
        };
        Ok(turn.react(rule.reaction))
    }

    /// What the step is decided by; nothing for a field of unknown type.
    pub fn cause(&self) -> Option<Cause> {
        match self.event {
            Event::Field => self.cause_in_field(),
            Event::InvalidFrame => Some(Cause::Broken),
            event => Some(Cause::Event(event)),
        }
    }

    fn cause_in_field(&self) -> Option<Cause> {
        match message::refusal(&self.field) {
            None => Kind::of_octet(self.field[0]).map(Cause::Message),
            Some(READER_UNKNOWN) => None,
            Some(_) => Some(Cause::Broken),
        }
    }
}

/// A step that the table has a line for.
struct Turn<'a> {
    situation: &'a Situation,
    tables: Tables,
    far: Option<Far>,
}

impl Turn<'_> {
    fn react(&self, reaction: Reaction) -> Answer {
        match reaction {
            Reaction::Send(signal, next) => Answer {
                signal: Some(signal),
                ..self.enter(next)
            },
            Reaction::SendList => self.send(vec![self.list(Kind::Cl)], Phase::Listed),
            Reaction::SendListAndAsk(next) => self.send(vec![self.list(Kind::Clr)], next),
            Reaction::Select => self.select(Vec::new()),
            Reaction::SendListAndSelect => self.select(vec![self.list(Kind::Cl)]),
            Reaction::Note(next) => self.enter(next),
            Reaction::Judge => self.judge(),
            Reaction::Complain => self.send(vec![bare(Kind::Nak1)], Phase::Initial),
            Reaction::Agree => Answer::entering(State {
                phase: Phase::Mode,
                entry: self.situation.time,
                ..self.situation.state
            }),
        }
    }

    /// The next phase, with nothing sent. A far list heard is stored.
    fn enter(&self, phase: Phase) -> Answer {
        let list = self.far.as_ref().filter(|far| far.is_list());
        Answer {
            stored: list.map_or_else(Vec::new, |list| list.standard.clone()),
            ..Answer::entering(State::entered(phase, self.situation.time))
        }
    }

    fn send(&self, fields: Vec<Vec<u8>>, next: Phase) -> Answer {
        Answer {
            fields,
            ..self.enter(next)
        }
    }

    /// Our own list as CL or CLR.
    fn list(&self, kind: Kind) -> Vec<u8> {
        let settings = &self.situation.settings;
        let offered = [(settings.v8, V8), (settings.short_v8, SHORT_V8)];
        written(kind, &offered, self.tables.own.iter())
    }

    /// The MS for the choice behind the fields before it; without a choice
    /// those are not sent either.
    fn select(&self, mut fields: Vec<Vec<u8>>) -> Answer {
        let Some(choice) = self.choice() else {
            return Answer {
                number: number::NO_CHOICE,
                ..self.enter(Phase::Initial)
            };
        };
        fields.push(self.selection(&choice));
        let mut answer = self.send(fields, Phase::Proposed);
        answer.state.wish = choice.number as u8;
        answer.state.ack_asked = self.situation.settings.ack;
        answer
    }

    fn choice(&self) -> Option<Choice<'_>> {
        match &self.far {
            Some(list) => self.tables.first_ready_common(&list.parameters),
            None => self.tables.first_ready(),
        }
    }

    fn selection(&self, choice: &Choice) -> Vec<u8> {
        let settings = &self.situation.settings;
        let far = self.far.as_ref();
        let short = settings.short_v8 && far.is_some_and(|far| far.short_v8);
        let v8 = !short && settings.v8 && far.is_some_and(|far| far.v8);
        let asked = [(v8, V8), (short, SHORT_V8), (settings.ack, ACK)];
        written(Kind::Ms, &asked, choice.wish.parameters.iter())
    }

    fn judge(&self) -> Answer {
        let far = self.far.as_ref().expect("only an MS is judged");
        let reply = match self.tables.verdict(&far.parameters) {
            Verdict::Accepted => return self.accept(far),
            Verdict::NotReady => Kind::Nak2,
            Verdict::Unfit => Kind::Nak3,
        };
        self.send(vec![bare(reply)], Phase::Initial)
    }

    fn accept(&self, far: &Far) -> Answer {
        let acknowledged = far.asks_ack.then(|| bare(Kind::Ack1));
        let mut answer = self.send(acknowledged.into_iter().collect(), Phase::Mode);
        answer.state.ack_asked = far.asks_ack;
        answer.stored = far.standard.clone();
        answer
    }
}

/// An ACK or NAK.
fn bare(kind: Kind) -> Vec<u8> {
    written(kind, &[], [].iter())
}

/// The message with those positions of I that are wanted.
fn written<'a>(
    kind: Kind,
    identification: &[(bool, u32)],
    standard: impl Iterator<Item = &'a Code>,
) -> Vec<u8> {
    let wanted = identification.iter().filter(|(is_wanted, _)| *is_wanted);
    let identification = wanted.map(|&(_, n)| Code::new(1, 0, 0, n));
    let meaning = Meaning {
        kind: kind.number(),
        revision: REVISION,
        codes: identification
            .chain(standard.copied())
            .map(Code::number)
            .collect(),
        non_standard: Vec::new(),
    };
    let writing = message::write(&meaning, &[0; MESSAGE_ROOM]);
    writing.out[..usize::from(writing.count)].to_vec()
}
