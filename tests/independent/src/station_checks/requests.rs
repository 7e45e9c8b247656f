//! Requests to the station, and their cases.

use crate::bench::{Case, Outcome};
use crate::station::words::{Event, Phase, Signal, Start};
use crate::station::{Answer, Situation, State};
use crate::wire::{Fields, Row};

pub const STATION: &str = "station";
const OPERATION: u8 = 6;

pub fn outcomes() -> Vec<Outcome> {
    let numbers = (0..=6).chain(9..=11);
    let outcome = |number| Outcome {
        operation: STATION,
        number,
    };
    numbers.map(outcome).collect()
}

/// The numbers of an event and of what is started or heard.
pub fn event_numbers(event: Event) -> [u8; 2] {
    let place_of_start = |start| Start::ALL.iter().position(|known| *known == start);
    let place_of_signal = |signal| Signal::ALL.iter().position(|known| *known == signal);
    let what = match event {
        Event::Start(start) => place_of_start(start),
        Event::Signal(signal) => place_of_signal(signal),
        _ => None,
    };
    let number = match event {
        Event::Start(_) => 0,
        Event::Signal(_) => 1,
        Event::Field => 2,
        Event::InvalidFrame => 3,
        Event::AnswerTone => 4,
        Event::Reset => 5,
    };
    [number, what.unwrap_or(0) as u8]
}

/// The number of a signal sent, 0 for none.
pub fn signal_number(signal: Option<Signal>) -> u8 {
    let place = |sent| Signal::ALL.iter().position(|known| *known == sent);
    signal.and_then(place).map_or(0, |place| place as u8 + 1)
}

pub fn request(situation: &Situation) -> Vec<u8> {
    let row = Row::new().u8(OPERATION);
    let row = with_state(row, &situation.state);
    let row = row.octets(&situation.settings.octets());
    let row = row.run(&situation.own).run(&situation.wishes);
    let row = row.octets(&event_numbers(situation.event));
    let row = row.run(&situation.field).u64(situation.time);
    row.run(&situation.out).run(&situation.store).done()
}

fn with_state(row: Row, state: &State) -> Row {
    let row = row.u8(state.phase.number()).u64(state.entry);
    row.u8(state.wish).u8(u8::from(state.ack_asked))
}

/// The buffer with the octets at its front.
pub fn written_over(lent: &[u8], octets: &[u8]) -> Vec<u8> {
    [octets, &lent[octets.len()..]].concat()
}

/// The answer as the probe's reply has it.
pub fn reply(situation: &Situation, answer: &Answer) -> Vec<u8> {
    let state = match answer.state.phase.carries_wish() {
        true => answer.state,
        false => State::entered(answer.state.phase, answer.state.entry),
    };
    let row = with_state(Row::new().u8(answer.number), &state);
    let row = row.u8(signal_number(answer.signal));
    let length = |place: usize| answer.fields.get(place).map_or(0, Vec::len);
    let row = row.u16(length(0) as u16).u16(length(1) as u16);
    let row = row.u16(answer.stored.len() as u16);
    let row = row.run(&written_over(&situation.out, &answer.fields.concat()));
    let row = row.run(&written_over(&situation.store, &answer.stored));
    row.done()
}

/// The answer in a reply, if the reply has this layout and both buffers come
/// back with nothing else written.
pub fn answer(situation: &Situation, octets: &[u8]) -> Option<Answer> {
    let mut row = Fields::of(octets);
    let number = row.u8()?;
    let phase = *Phase::ALL.get(usize::from(row.u8()?))?;
    let (entry, wish) = (row.u64()?, row.u8()?);
    let ack_asked = row.u8()? == 1;
    let signal = usize::from(row.u8()?).checked_sub(1);
    let lengths = [row.u16()?, row.u16()?, row.u16()?].map(usize::from);
    let (out, store) = (row.run()?, row.run()?);
    let behind_first = out.get(lengths[0]..)?;
    let fields = [out.get(..lengths[0])?, behind_first.get(..lengths[1])?];
    let fields = fields.into_iter().filter(|field| !field.is_empty());
    let answer = Answer {
        number,
        state: State {
            phase,
            entry,
            wish,
            ack_asked,
        },
        signal: signal.and_then(|place| Signal::ALL.get(place).copied()),
        fields: fields.map(<[u8]>::to_vec).collect(),
        stored: store.get(..lengths[2])?.to_vec(),
    };
    let fits = out.len() == situation.out.len() && store.len() == situation.store.len();
    (fits && reply(situation, &answer) == octets).then_some(answer)
}

pub fn case(situation: &Situation) -> Case {
    case_of(situation, &situation.step())
}

/// The case of a step whose answer is known.
pub fn case_of(situation: &Situation, answer: &Answer) -> Case {
    let outcome = Outcome {
        operation: STATION,
        number: answer.number,
    };
    Case::new(request(situation), reply(situation, answer), outcome)
}
