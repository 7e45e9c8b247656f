//! One transaction, request by request: a station's step, and where it sends a
//! field, the frame writer, the frame reader and the other station's step.

use super::super::drawn::{large_output, large_store};
use super::super::requests;
use super::parties::{self, Fate, Forecast, Party, Selection, NAK_1};
use super::rows::{Row, Sent};
use crate::bench::Case;
use crate::frame;
use crate::frame_checks::{flag_pair, reader_case, run_written, writer_request};
use crate::message_checks::message_written;
use crate::random::Random;
use crate::station::number::{NOT_IN_TABLE, NO_CHOICE, TIMED_OUT};
use crate::station::words::{Event, Phase, Signal};
use crate::station::{Answer, Situation, PATIENCE};
use crate::wire;
use std::collections::VecDeque;

const READER_ROOM: usize = 64;

/// A station is in Initial or Mode by this acted-on event at the latest.
const MOST_ACTED_ON: usize = 4;

/// The ways in which a transaction may end.
#[derive(Clone, Copy, Debug, PartialEq, Eq, PartialOrd, Ord)]
pub enum End {
    Acknowledged,
    AnswerTone,
    NotReady,
    Unfit,
    NoChoice,
    Damage,
}

impl End {
    pub const ALL: [End; 6] = [
        End::Acknowledged,
        End::AnswerTone,
        End::NotReady,
        End::Unfit,
        End::NoChoice,
        End::Damage,
    ];
}

/// What a station must do in a step.
#[derive(Default)]
struct Due {
    number: u8,
    signal: Option<Signal>,
    fields: Vec<Vec<u8>>,
    stored: Vec<u8>,
}

/// Something on its way to a station.
struct Delivery {
    to: usize,
    event: Event,
    field: Vec<u8>,
    due: Due,
    /// The turn in which the station sends something upon it, if it does.
    turn: Option<usize>,
}

/// What the next request is about.
enum Stage {
    WriteFrame,
    /// With what the reader must reply, and whether the frame is damaged.
    ReadFrame(Case, bool),
    Step(Box<Situation>),
}

pub struct Play {
    row: &'static Row,
    parties: [Party; 2],
    forecast: Forecast,
    /// The phases in which both have to end.
    ends_in: [Phase; 2],
    /// The frame to damage, and how many there were.
    damage: Option<usize>,
    frames: usize,
    is_damaged: bool,
    time: u64,
    stage: Stage,
    deliveries: VecDeque<Delivery>,
}

impl Play {
    pub fn new(random: &mut Random, row: &'static Row) -> Play {
        let parties = parties::drawn(random, row);
        let forecast = Forecast::of(row, &parties);
        let selection = forecast.selection.as_ref();
        let agreed = selection.is_some_and(|selection| selection.fate == Fate::Accepted);
        let end = if agreed { Phase::Mode } else { Phase::Initial };
        let mut play = Play {
            row,
            time: parties[0].state.entry,
            parties,
            forecast,
            ends_in: [end; 2],
            damage: (random.below(6) == 0).then(|| random.below(3)),
            frames: 0,
            is_damaged: false,
            stage: Stage::WriteFrame,
            deliveries: VecDeque::new(),
        };
        let start = row.sent[0].start().expect("what every station can start");
        play.deliver_for(0, Event::Start(start), Vec::new(), Vec::new());
        play.begin(random);
        play
    }

    pub fn row(&self) -> &'static Row {
        self.row
    }

    pub fn goes_on(&self) -> bool {
        !self.deliveries.is_empty()
    }

    pub fn described(&self, reason: &str, request: &[u8], reply: &[u8]) -> String {
        let [request, reply] = [request, reply].map(wire::hex);
        let name = self.row.name;
        format!("transaction {name}: {reason}: request {request}, reply {reply}")
    }

    fn selection(&self) -> Option<&Selection> {
        self.forecast.selection.as_ref()
    }

    /// Something upon which the station whose turn it is sends what the row
    /// says, and stores these octets.
    fn deliver_for(&mut self, turn: usize, event: Event, field: Vec<u8>, stored: Vec<u8>) {
        let sent = self.row.sent[turn];
        let selects = matches!(sent, Sent::Ms | Sent::ClMs);
        let cannot = selects && self.selection().is_none();
        let due = Due {
            number: if cannot { NO_CHOICE } else { 0 },
            signal: sent.signal(),
            fields: self.parties[turn % 2].fields(sent, self.selection()),
            stored,
        };
        self.deliveries.push_back(Delivery {
            to: turn % 2,
            event,
            field,
            due,
            turn: Some(turn),
        });
    }

    /// Something upon which nothing is sent.
    fn deliver(&mut self, to: usize, event: Event, field: Vec<u8>, due: Due) {
        self.deliveries.push_back(Delivery {
            to,
            event,
            field,
            due,
            turn: None,
        });
    }

    /// The next request. There must be something to deliver.
    pub fn request(&self, random: &mut Random) -> Vec<u8> {
        let delivery = &self.deliveries[0];
        match &self.stage {
            Stage::WriteFrame => {
                let (opening, closing) = flag_pair(random);
                let out = random.octets(96);
                writer_request(opening as u8, closing as u8, &delivery.field, &out)
            }
            Stage::ReadFrame(case, _) => case.request.clone(),
            Stage::Step(situation) => requests::request(situation),
        }
    }

    pub fn take(&mut self, random: &mut Random, reply: &[u8]) -> Result<(), String> {
        match &self.stage {
            Stage::WriteFrame => self.take_frame(random, reply)?,
            Stage::ReadFrame(case, _) if case.expected != reply => {
                return Err(format!("expected {}", wire::hex(&case.expected)));
            }
            Stage::ReadFrame(_, damaged) => {
                if *damaged {
                    self.lose_frame();
                } else if message_written(reply)? != self.deliveries[0].field {
                    return Err("not the field that was written".to_string());
                }
                self.stage = Stage::Step(self.situation(random));
            }
            Stage::Step(situation) => {
                let answer = requests::answer(situation, reply);
                let answer = answer.ok_or("a reply of another layout, or more was written")?;
                let delivery = self.deliveries.pop_front().expect("what was delivered");
                delivery.due.check(situation, &answer)?;
                self.note(delivery.to, &answer)?;
                self.go_on(&delivery, &answer);
                self.begin(random);
            }
        }
        Ok(())
    }

    /// Sets about the next delivery, if there is one. Fields go over frames.
    fn begin(&mut self, random: &mut Random) {
        match self.deliveries.front() {
            Some(delivery) if delivery.event != Event::Field => {
                self.stage = Stage::Step(self.situation(random));
            }
            _ => self.stage = Stage::WriteFrame,
        }
    }

    /// The written frame goes to the reader, damaged if it is its turn.
    fn take_frame(&mut self, random: &mut Random, reply: &[u8]) -> Result<(), String> {
        let (bits, run) = run_written(reply)?;
        let is_damaged = self.damage == Some(self.frames);
        self.frames += 1;
        let run = match is_damaged {
            true => with_damage(random, bits, run),
            false => run.to_vec(),
        };
        let case = reader_case(bits, &run, &random.octets(READER_ROOM));
        self.stage = Stage::ReadFrame(case, is_damaged);
        Ok(())
    }

    /// The station hears an invalid frame instead of the field, and nothing of
    /// what was to follow.
    fn lose_frame(&mut self) {
        let to = self.deliveries[0].to;
        self.deliveries.clear();
        self.is_damaged = true;
        let complaint = Due {
            fields: vec![vec![NAK_1]],
            ..Due::default()
        };
        self.deliver(to, Event::InvalidFrame, Vec::new(), complaint);
    }

    /// The step in which the station gets what is delivered to it.
    fn situation(&mut self, random: &mut Random) -> Box<Situation> {
        let delivery = &self.deliveries[0];
        let party = &self.parties[delivery.to];
        self.time = match delivery.due.number {
            TIMED_OUT => self.time.max(party.state.entry + PATIENCE + 1),
            _ => self.time + random.number() % 600,
        };
        Box::new(Situation {
            state: party.state,
            settings: party.settings,
            own: party.drawn.own_octets(),
            wishes: party.drawn.run(),
            event: delivery.event,
            field: delivery.field.clone(),
            time: self.time,
            out: large_output(random),
            store: large_store(random),
        })
    }

    fn note(&mut self, to: usize, answer: &Answer) -> Result<(), String> {
        let party = &mut self.parties[to];
        party.state = answer.state;
        party.acted += usize::from(answer.number == 0);
        if party.acted >= MOST_ACTED_ON && party.state.phase.is_timed() {
            return Err("not over by the fourth acted-on event".to_string());
        }
        Ok(())
    }

    /// Delivers what follows from a step.
    fn go_on(&mut self, delivery: &Delivery, answer: &Answer) {
        let other = 1 - delivery.to;
        let phase = self.parties[other].state.phase;
        match (delivery.event, delivery.turn) {
            (Event::InvalidFrame, _) => self.complain(delivery.to),
            (_, Some(_)) if answer.number == NO_CHOICE => {
                if phase.is_timed() {
                    self.deliver(other, Event::AnswerTone, Vec::new(), Due::number(TIMED_OUT));
                }
            }
            (_, Some(turn)) if self.row.sent[turn] == Sent::Verdict => {
                let field = answer.fields.first().cloned();
                let event = field.as_ref().map_or(Event::AnswerTone, |_| Event::Field);
                self.deliver(other, event, field.unwrap_or_default(), Due::default());
            }
            (_, Some(turn)) => self.deliver_sent(turn, answer),
            (_, None) => {}
        }
    }

    /// NAK(1) goes to the other station, which has no use for it if it thinks
    /// the transaction over.
    fn complain(&mut self, from: usize) {
        let other = 1 - from;
        let phase = self.parties[other].state.phase;
        let (number, end) = match phase.is_timed() {
            true => (0, Phase::Initial),
            false => (NOT_IN_TABLE, phase),
        };
        self.ends_in[from] = Phase::Initial;
        self.ends_in[other] = end;
        self.deliver(other, Event::Field, vec![NAK_1], Due::number(number));
    }

    /// What was sent in this turn goes to the other station.
    fn deliver_sent(&mut self, turn: usize, answer: &Answer) {
        let next = turn + 1;
        if let Some(signal) = answer.signal {
            return self.deliver_for(next, Event::Signal(signal), Vec::new(), Vec::new());
        }
        let own = self.parties[turn % 2].drawn.own_octets();
        let is_list = matches!(self.row.sent[turn], Sent::Cl | Sent::Clr);
        let stored = match self.selection() {
            _ if is_list => own.clone(),
            Some(selection) if selection.fate == Fate::Accepted => selection.standard.clone(),
            _ => Vec::new(),
        };
        if let [list, _] = &answer.fields[..] {
            let due = Due {
                stored: own,
                ..Due::default()
            };
            self.deliver(next % 2, Event::Field, list.clone(), due);
        }
        let last = answer.fields.last().cloned().unwrap_or_default();
        self.deliver_for(next, Event::Field, last, stored);
    }

    /// How the transaction ended, if both stations are where they must be.
    pub fn end(&self) -> Result<End, String> {
        let phases = [0, 1].map(|place| self.parties[place].state.phase);
        if phases != self.ends_in {
            let (name, due) = (self.row.name, self.ends_in);
            return Err(format!(
                "transaction {name}: ends in {phases:?}, not {due:?}"
            ));
        }
        Ok(match self.selection() {
            _ if self.is_damaged => End::Damage,
            None => End::NoChoice,
            Some(selection) => match selection.fate {
                Fate::NotReady => End::NotReady,
                Fate::Unfit => End::Unfit,
                Fate::Accepted => self.agreement(selection)?,
            },
        })
    }

    /// What both stations keep of their agreement.
    fn agreement(&self, selection: &Selection) -> Result<End, String> {
        let kept = |party: &Party| (party.state.wish, party.state.ack_asked);
        let selector = self.forecast.selector;
        let ack_asked = selection.ack_asked;
        if kept(&self.parties[selector]) != (selection.number, ack_asked) {
            return Err("the selecting station keeps another wish or ACK".to_string());
        }
        if kept(&self.parties[1 - selector]) != (0, ack_asked) {
            return Err("the accepting station keeps a wish or another ACK".to_string());
        }
        Ok(match ack_asked {
            true => End::Acknowledged,
            false => End::AnswerTone,
        })
    }
}

impl Due {
    /// Nothing is sent or stored.
    fn number(number: u8) -> Due {
        Due {
            number,
            ..Due::default()
        }
    }

    fn check(&self, situation: &Situation, answer: &Answer) -> Result<(), String> {
        let entry = match self.number {
            NOT_IN_TABLE => situation.state.entry,
            _ => situation.time,
        };
        let demands = [
            ("number", self.number == answer.number),
            ("signal", self.signal == answer.signal),
            ("fields", self.fields == answer.fields),
            ("stored octets", self.stored == answer.stored),
            ("entry time", entry == answer.state.entry),
        ];
        match demands.iter().find(|(_, met)| !met) {
            Some((demand, _)) => Err(format!("another {demand} than due")),
            None => Ok(()),
        }
    }
}

/// The run with one bit inverted so that it is no frame any more.
fn with_damage(random: &mut Random, bits: u32, run: &[u8]) -> Vec<u8> {
    loop {
        let mut damaged = run.to_vec();
        let place = random.below(bits as usize);
        damaged[place / 8] ^= 1 << (place % 8);
        if frame::read(bits as usize, &damaged, &[0; READER_ROOM]).number != 0 {
            return damaged;
        }
    }
}
