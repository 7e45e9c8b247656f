//! Requests for own tables, wishes, choice and verdict, and their cases.

use crate::bench::{Case, Outcome};
use crate::choice::{Choice, Verdict};
use crate::message;
use crate::message_checks::layout::Layout;
use crate::message_checks::requests::MOST_OCTETS;
use crate::tables::{self, Tables};
use crate::wire::Row;

const NO_CHOICE: u8 = 11;

struct Operation {
    number: u8,
    name: &'static str,
    replies: &'static [u8],
}

const CHECK: Operation = Operation {
    number: 32,
    name: "own table and wishes",
    replies: &[0, 2, 3, 4],
};

const FIRST_READY: Operation = Operation {
    number: 33,
    name: "choice without far list",
    replies: &[0, NO_CHOICE],
};

const CHOICE: Operation = Operation {
    number: 34,
    name: "choice",
    replies: &[0, NO_CHOICE],
};

/// Choices from long fields are counted by themselves as well.
const CHOICE_FROM_LONG: Operation = Operation {
    name: "choice from more than 64 octets",
    ..CHOICE
};

const VERDICT: Operation = Operation {
    number: 35,
    name: "verdict",
    replies: &[0, 2, 3],
};

pub fn outcomes() -> Vec<Outcome> {
    let of_operation = |operation: Operation| {
        let numbers = operation.replies.iter();
        numbers.map(move |&number| operation.outcome(number))
    };
    let operations = [CHECK, FIRST_READY, CHOICE, CHOICE_FROM_LONG, VERDICT];
    operations.into_iter().flat_map(of_operation).collect()
}

/// A far message, or its S field alone, and where that field begins.
#[derive(Clone)]
pub struct Far {
    pub octets: Vec<u8>,
    pub place: usize,
}

impl Far {
    pub fn of(layout: &Layout) -> Far {
        Far {
            octets: layout.octets(),
            place: layout.standard_place(),
        }
    }

    pub fn struck(layout: &Layout) -> Far {
        let octets = message::struck(&layout.octets()).expect("a message");
        let place = message::standard_place(&octets).expect("a message with fields");
        Far { octets, place }
    }

    fn field(&self) -> &[u8] {
        &self.octets[self.place..]
    }

    /// The S parameters of a message.
    fn parameters(&self) -> message::Parameters {
        message::parameters_in_front(self.field()).expect("a well-formed field")
    }

    /// Those of a list, whose field may be longer than any message.
    fn list_parameters(&self) -> message::Parameters {
        message::far_parameters(self.field()).expect("a well-formed field")
    }
}

impl Operation {
    fn outcome(&self, number: u8) -> Outcome {
        Outcome {
            operation: self.name,
            number,
        }
    }

    /// A request that has these runs.
    fn request(&self, runs: &[&[u8]]) -> Row {
        let row = Row::new().u8(self.number);
        runs.iter().fold(row, |row, run| row.run(run))
    }

    /// The same with the far octets, and the place of the S field there.
    fn far_request(&self, runs: &[&[u8]], far: &Far) -> Row {
        let row = self.request(runs).run(&far.octets);
        row.u8(u8::try_from(far.place).expect("a place below 256"))
    }

    /// The case of a request that is answered with a number alone.
    fn case(&self, request: Row, number: u8) -> Case {
        Case::new(request.done(), vec![number], self.outcome(number))
    }

    /// The case of a request that is answered with a wish, or without one.
    fn choice_case(&self, request: Row, choice: Option<Choice>) -> Case {
        let (reply, number) = match choice {
            Some(choice) => (wish_reply(&choice), 0),
            None => (Row::new().u8(NO_CHOICE).octets(&[0; 5]), NO_CHOICE),
        };
        Case::new(request.done(), reply.done(), self.outcome(number))
    }
}

/// The reply with a wish: its number, and place and length of its field.
fn wish_reply(choice: &Choice) -> Row {
    let Choice { number, wish } = choice;
    let row = Row::new().u8(0).u8(*number as u8);
    row.u16(wish.place as u16).u16(wish.length as u16)
}

fn good_tables(own: &[u8], wishes: &[u8]) -> Tables {
    Tables::of_octets(own, wishes).expect("a good own table and good wishes")
}

/// Octets of any kind as own table and wishes.
pub fn check(own: &[u8], wishes: &[u8]) -> Case {
    let request = CHECK.request(&[own, wishes]);
    CHECK.case(request, tables::check(own, wishes))
}

/// The choice without a far list.
pub fn first_ready(own: &[u8], wishes: &[u8]) -> Case {
    let tables = good_tables(own, wishes);
    let request = FIRST_READY.request(&[wishes]);
    FIRST_READY.choice_case(request, tables.first_ready())
}

/// The choice from a far list.
pub fn choice(own: &[u8], wishes: &[u8], far: &Far) -> Case {
    let tables = good_tables(own, wishes);
    let choice = tables.first_ready_common(&far.list_parameters());
    let request = CHOICE.far_request(&[own, wishes], far);
    let case = CHOICE.choice_case(request, choice);
    let is_long = far.field().len() > MOST_OCTETS;
    let number = case.outcome.number;
    case.counted_too(is_long.then(|| CHOICE_FROM_LONG.outcome(number)))
}

/// The verdict on a far MS.
pub fn verdict(own: &[u8], wishes: &[u8], far: &Far) -> Case {
    let number = match good_tables(own, wishes).verdict(&far.parameters()) {
        Verdict::Accepted => 0,
        Verdict::NotReady => 2,
        Verdict::Unfit => 3,
    };
    VERDICT.case(VERDICT.far_request(&[wishes], far), number)
}
