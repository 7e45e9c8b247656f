//! Whole transactions: every row of Table 7, played between two stations of
//! the probe over frames of the probe.

mod parties;
mod play;
mod rows;

use crate::bench::{Bench, Check};
use crate::random::Random;
use play::{End, Play};
use rows::{Row, ROWS};
use std::collections::BTreeMap;

const TRANSACTIONS: &str = "station: all transactions of Table 7, over frames";

/// How often each row is played, and how often it has to end in each way.
const PLAYS_PER_ROW: usize = 250;
const OFTEN_ENOUGH: usize = 5;

pub fn checks() -> Vec<Check> {
    vec![Check::new(TRANSACTIONS, transactions)]
}

/// All plays go on side by side, each with one request at a time.
fn transactions(bench: &mut Bench) -> Result<(), String> {
    let random = &mut Random::named(TRANSACTIONS);
    let rows = ROWS.iter();
    let repeated = rows.flat_map(|row| std::iter::repeat_n(row, PLAYS_PER_ROW));
    let mut plays: Vec<Play> = repeated.map(|row| Play::new(random, row)).collect();
    loop {
        let mut waiting: Vec<&mut Play> = plays.iter_mut().filter(|play| play.goes_on()).collect();
        if waiting.is_empty() {
            return all_ended(&plays);
        }
        let requests: Vec<Vec<u8>> = waiting.iter().map(|play| play.request(random)).collect();
        let replies = bench.ask(&requests)?;
        for (play, (request, reply)) in waiting.iter_mut().zip(requests.iter().zip(replies)) {
            let taken = play.take(random, &reply);
            taken.map_err(|reason| play.described(&reason, request, &reply))?;
        }
    }
}

/// Whether the plays ended as they must, and each row in every way.
fn all_ended(plays: &[Play]) -> Result<(), String> {
    let mut met: BTreeMap<(&Row, End), usize> = BTreeMap::new();
    for play in plays {
        *met.entry((play.row(), play.end()?)).or_default() += 1;
    }
    let ways = ROWS.iter().flat_map(|row| End::ALL.map(|end| (row, end)));
    let seldom = ways.filter(|way| met.get(way).copied().unwrap_or(0) < OFTEN_ENOUGH);
    let seldom: Vec<String> = seldom
        .map(|(row, end)| format!("transaction {} with {end:?}", row.name))
        .collect();
    if seldom.is_empty() {
        return Ok(());
    }
    Err(format!("under {OFTEN_ENOUGH} times: {}", seldom.join(", ")))
}
