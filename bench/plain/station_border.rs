//! What C calls of the station: the measured steps, in the shapes of the crate `measure`, and any step by numbers.
#![allow(unsafe_code)]

use crate::station::{
    Event, Lent, OnCrD, OnCrE, OnMrD, OnMrE, Phase, Proposal, Settings, Signal, Start, State,
};
use core::slice::{from_raw_parts as slice, from_raw_parts_mut as slice_mut};

/// A field is heard in a phase, 1 ms after its entry; all that can be offered is offered.
fn hear(
    phase: Phase,
    own: &[u8],
    wishes: &[u8],
    field: &[u8],
    out: &mut [u8],
    store: &mut [u8],
) -> u64 {
    let settings = &Settings {
        v8: true,
        short_v8: true,
        ack: true,
        on_mr_e: OnMrE::Ms,
        on_cr_d: OnCrD::Cl,
        on_cr_e: OnCrE::AsOnCrD,
        on_mr_d: OnMrD::Ms,
    };
    let lent = Lent {
        settings,
        own,
        wishes,
        time: 1,
        out,
        store,
    };
    let stepped = lent.step(State { phase, entry: 0 }, Event::Field(field));
    (stepped.first + stepped.second + stepped.stored) as u64
}

#[no_mangle]
pub unsafe extern "C" fn plain_measure_list(
    own: *const u8,
    own_size: usize,
    wishes: *const u8,
    wishes_size: usize,
    field: *const u8,
    field_size: usize,
    out: *mut u8,
    out_size: usize,
    store: *mut u8,
    store_size: usize,
) -> u64 {
    let (own, wishes, field) = (
        slice(own, own_size),
        slice(wishes, wishes_size),
        slice(field, field_size),
    );
    hear(
        Phase::ListsD,
        own,
        wishes,
        field,
        slice_mut(out, out_size),
        slice_mut(store, store_size),
    )
}

#[no_mangle]
pub unsafe extern "C" fn plain_measure_mode(
    own: *const u8,
    own_size: usize,
    wishes: *const u8,
    wishes_size: usize,
    field: *const u8,
    field_size: usize,
    out: *mut u8,
    out_size: usize,
    store: *mut u8,
    store_size: usize,
) -> u64 {
    let (own, wishes, field) = (
        slice(own, own_size),
        slice(wishes, wishes_size),
        slice(field, field_size),
    );
    hear(
        Phase::AskedD,
        own,
        wishes,
        field,
        slice_mut(out, out_size),
        slice_mut(store, store_size),
    )
}

/// What a step is given beside what it is lent. A case is its place in its list, from 0; any other number is the last.
#[repr(C)]
pub struct Given {
    entry: u64,
    time: u64,
    phase: u8,
    wish: u8,
    asked: u8,
    v8: u8,
    short_v8: u8,
    ack: u8,
    on_mr_e: u8,
    on_cr_d: u8,
    on_cr_e: u8,
    on_mr_d: u8,
    event: u8,
    what: u8,
}

/// What it answers. The signal is counted from 1, and 0 if none.
#[repr(C)]
pub struct Answer {
    entry: u64,
    told: u8,
    phase: u8,
    wish: u8,
    asked: u8,
    signal: u8,
    first: u8,
    second: u8,
    stored: u8,
}

impl Given {
    fn state(&self) -> State {
        let proposal = Proposal {
            wish: self.wish,
            ack: self.asked != 0,
        };
        let phase = match self.phase {
            0 => Phase::Initial,
            1 => Phase::AskedE,
            2 => Phase::AskedD,
            3 => Phase::ListsE,
            4 => Phase::ListsD,
            5 => Phase::Counter,
            6 => Phase::Listed,
            7 => Phase::Traded,
            8 => Phase::Pair,
            9 => Phase::Half,
            10 => Phase::Proposed(proposal),
            _ => Phase::Mode(proposal),
        };
        State {
            phase,
            entry: self.entry,
        }
    }

    fn settings(&self) -> Settings {
        Settings {
            v8: self.v8 != 0,
            short_v8: self.short_v8 != 0,
            ack: self.ack != 0,
            on_mr_e: match self.on_mr_e {
                0 => OnMrE::Ms,
                1 => OnMrE::MrD,
                _ => OnMrE::CrD,
            },
            on_cr_d: match self.on_cr_d {
                0 => OnCrD::Cl,
                _ => OnCrD::Clr,
            },
            on_cr_e: match self.on_cr_e {
                0 => OnCrE::AsOnCrD,
                _ => OnCrE::CrD,
            },
            on_mr_d: match self.on_mr_d {
                0 => OnMrD::Ms,
                _ => OnMrD::CrD,
            },
        }
    }

    fn event<'a>(&self, field: &'a [u8]) -> Event<'a> {
        match (self.event, self.what) {
            (0, 4) => Event::Start(Start::Ms),
            (0, 5) => Event::Start(Start::Cl),
            (0, 6..) => Event::Start(Start::Clr),
            (0, signal) => Event::Start(Start::Signal(signal_of(signal))),
            (1, signal) => Event::Signal(signal_of(signal)),
            (2, _) => Event::Field(field),
            (3, _) => Event::InvalidFrame,
            (4, _) => Event::AnswerTone,
            _ => Event::Reset,
        }
    }
}

fn signal_of(number: u8) -> Signal {
    match number {
        0 => Signal::MrE,
        1 => Signal::MrD,
        2 => Signal::CrE,
        _ => Signal::CrD,
    }
}

/// A phase's place in its list, and what it carries.
fn numbers_of(phase: Phase) -> (u8, Proposal) {
    let number = match phase {
        Phase::Initial => 0,
        Phase::AskedE => 1,
        Phase::AskedD => 2,
        Phase::ListsE => 3,
        Phase::ListsD => 4,
        Phase::Counter => 5,
        Phase::Listed => 6,
        Phase::Traded => 7,
        Phase::Pair => 8,
        Phase::Half => 9,
        Phase::Proposed(proposal) => return (10, proposal),
        Phase::Mode(proposal) => return (11, proposal),
    };
    let none = Proposal {
        wish: 0,
        ack: false,
    };
    (number, none)
}

/// Any step. It is also what keeps the whole table in the code that is measured: without it every step would be one that the measured
/// functions make.
#[no_mangle]
pub unsafe extern "C" fn plain_step(
    given: &Given,
    own: *const u8,
    own_size: usize,
    wishes: *const u8,
    wishes_size: usize,
    field: *const u8,
    field_size: usize,
    out: *mut u8,
    out_size: usize,
    store: *mut u8,
    store_size: usize,
) -> Answer {
    let lent = Lent {
        settings: &given.settings(),
        own: slice(own, own_size),
        wishes: slice(wishes, wishes_size),
        time: given.time,
        out: slice_mut(out, out_size),
        store: slice_mut(store, store_size),
    };
    let stepped = lent.step(given.state(), given.event(slice(field, field_size)));
    let (phase, proposal) = numbers_of(stepped.state.phase);
    Answer {
        entry: stepped.state.entry,
        told: stepped.told as u8,
        phase,
        wish: proposal.wish,
        asked: proposal.ack.into(),
        signal: stepped.signal.map_or(0, |signal| 1 + signal as u8),
        first: stepped.first as u8,
        second: stepped.second as u8,
        stored: stepped.stored as u8,
    }
}
