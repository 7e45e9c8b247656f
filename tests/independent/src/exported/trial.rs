//! A family of calls on trial: each is compared as it is made, since all the
//! buffers of a family together would be large.

use super::calls::Call;
use super::functions::Returned;
use crate::score::Score;
use crate::wire::hex;

pub struct Trial<'a> {
    score: &'a mut Score,
    calls: usize,
    differing: usize,
    first_fault: Option<String>,
}

impl<'a> Trial<'a> {
    pub fn new(score: &'a mut Score) -> Trial<'a> {
        Trial {
            score,
            calls: 0,
            differing: 0,
            first_fault: None,
        }
    }

    pub fn put(&mut self, call: &Call) {
        let due = call.due();
        self.compare(call, &due);
    }

    /// Puts a call whose number follows from the way it was made. That guards
    /// the implementation here against a mistake of its own.
    pub fn put_due(&mut self, call: &Call, number: u8) {
        let due = call.due();
        if due.numbers[0] != u32::from(number) {
            self.fault(|| {
                format!(
                    "the comparing program itself is wrong: {} where the call was made for {number}: {call}",
                    shown(&due)
                )
            });
        }
        self.compare(call, &due);
    }

    fn compare(&mut self, call: &Call, due: &Returned) {
        self.calls += 1;
        self.score.meet(call.outcome(due));
        let returned = call.returned();
        if returned != *due {
            let [expected, got] = [due, &returned].map(shown);
            self.fault(|| format!("{call}: expected {expected}, got {got}"));
        }
    }

    fn fault(&mut self, words: impl FnOnce() -> String) {
        self.differing += 1;
        self.first_fault.get_or_insert_with(words);
    }

    /// The number of calls, and the first fault if there was one.
    pub fn result(self) -> (usize, Result<(), String>) {
        let differing = self.differing;
        let result = match self.first_fault {
            None => Ok(()),
            Some(fault) => Err(format!("{differing} calls at fault, the first: {fault}")),
        };
        (self.calls, result)
    }
}

fn shown(returned: &Returned) -> String {
    let touched = match returned.rest_untouched {
        true => "",
        false => ", other octets touched",
    };
    let (numbers, buffer) = (&returned.numbers, hex(&returned.buffer));
    format!("{numbers:?} with {buffer}{touched}")
}
