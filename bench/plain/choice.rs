//! Own table, wishes, choice and verdict (RULES, Own table, wishes, choice).

use crate::rewrite::good_field;
use crate::tree::{end, low, skip_block, skip_par, LAST};
use core::slice::Iter;

const MOST_WISHES: usize = 16;

#[derive(Clone, Copy)]
pub enum Fault {
    BadOwn,
    BadWishes,
    Outside,
}

/// The wishes' records: whether ready, and the field. Ends with the run, or where a record is cut short.
#[derive(Clone)]
struct Wishes<'a> {
    rest: &'a [u8],
}

impl<'a> Iterator for Wishes<'a> {
    type Item = (u8, &'a [u8]);

    fn next(&mut self) -> Option<Self::Item> {
        let &[ready, size, ..] = self.rest else {
            return None;
        };
        let (record, rest) = self.rest.split_at_checked(2 + usize::from(size))?;
        self.rest = rest;
        Some((ready, &record[2..]))
    }
}

/// Passes over a block and the one beside it, if all of the first is in the second. Gives the last octet of each.
fn block_within<const W: u32>(mine: &mut Iter<u8>, theirs: &mut Iter<u8>) -> Option<(u8, u8)> {
    loop {
        let (a, b) = (*mine.next()?, *theirs.next()?);
        if a & !b & low(W) != 0 {
            return None;
        }
        match (a & end(W) != 0, b & end(W) != 0) {
            (false, false) => {}
            (true, true) => return Some((a, b)),
            (true, false) => return Some((a, skip_block::<W>(theirs)?)),
            (false, true) => return Some((empty_rest::<W>(mine)?, b)),
        }
    }
}

/// Passes over the rest of a block, if nothing is set there, and gives its last octet.
fn empty_rest<const W: u32>(octets: &mut Iter<u8>) -> Option<u8> {
    loop {
        let octet = *octets.next()?;
        if octet & low(W) != 0 {
            return None;
        }
        if octet & end(W) != 0 {
            return Some(octet);
        }
    }
}

/// The NPar(3) blocks of two SPar(2) blocks, the first of which is within the second.
fn subs_within(
    mut mine_spars: Iter<u8>,
    mut their_spars: Iter<u8>,
    mine: &mut Iter<u8>,
    theirs: &mut Iter<u8>,
) -> Option<()> {
    let mut last = 0;
    loop {
        let (a, b) = (*mine_spars.next()?, *their_spars.next()?);
        let mut bits = b & low(6);
        while bits != 0 {
            let bit = bits & bits.wrapping_neg();
            last = if a & bit != 0 {
                block_within::<6>(mine, theirs)?.1
            } else {
                skip_block::<6>(theirs)?
            };
            bits ^= bit;
        }
        if (a | b) & end(6) != 0 {
            if last & LAST == 0 {
                skip_par(theirs)?;
            }
            return Some(());
        }
    }
}

fn par_within(mine: &mut Iter<u8>, theirs: &mut Iter<u8>) -> Option<()> {
    let (a, b) = block_within::<6>(mine, theirs)?;
    match (a & LAST != 0, b & LAST != 0) {
        (true, true) => Some(()),
        (true, false) => skip_par(theirs).map(|_| ()),
        (false, true) => empty_rest::<6>(mine).map(|_| ()),
        (false, false) => {
            let spars = (mine.clone(), theirs.clone());
            let (a, b) = block_within::<6>(mine, theirs)?;
            match (a & LAST != 0, b & LAST != 0) {
                (true, true) => Some(()),
                (true, false) => skip_par(theirs).map(|_| ()),
                _ => subs_within(spars.0, spars.1, mine, theirs),
            }
        }
    }
}

/// Whether all parameters of a well-formed field are in another.
fn lies_within(mine: &[u8], theirs: &[u8]) -> bool {
    field_within(&mut mine.iter(), &mut theirs.iter()).is_some()
}

fn field_within(mine: &mut Iter<u8>, theirs: &mut Iter<u8>) -> Option<()> {
    block_within::<7>(mine, theirs)?;
    let (mut mine_spars, mut their_spars) = (mine.clone(), theirs.clone());
    block_within::<7>(mine, theirs)?;
    loop {
        let (a, b) = (*mine_spars.next()?, *their_spars.next()?);
        let mut bits = b & low(7);
        while bits != 0 {
            let bit = bits & bits.wrapping_neg();
            if a & bit != 0 {
                par_within(mine, theirs)?;
            } else {
                skip_par(theirs)?;
            }
            bits ^= bit;
        }
        if (a | b) & end(7) != 0 {
            return Some(());
        }
    }
}

/// Refusals 2, 3 and 4.
pub fn check_tables(own: &[u8], run: &[u8]) -> Result<(), Fault> {
    good_field(own).ok_or(Fault::BadOwn)?;
    let mut wishes = Wishes { rest: run };
    let mut inside = true;
    for (ready, field) in wishes.by_ref().take(MOST_WISHES) {
        if ready > 1 || good_field(field).unwrap_or(0) == 0 {
            return Err(Fault::BadWishes);
        }
        inside &= lies_within(field, own);
    }
    if !wishes.rest.is_empty() {
        return Err(Fault::BadWishes);
    }
    if inside {
        Ok(())
    } else {
        Err(Fault::Outside)
    }
}

/// The number of the first ready wish that is common, or with no far list of the first ready one, and its field. All lie in the own
/// table already.
pub fn choose<'a>(run: &'a [u8], far: Option<&[u8]>) -> Option<(u8, &'a [u8])> {
    let mut wishes = (1..).zip(Wishes { rest: run });
    wishes.find_map(|(number, (ready, field))| {
        (ready == 1 && far.is_none_or(|far| lies_within(field, far))).then_some((number, field))
    })
}

pub enum Verdict {
    Accepted,
    NotReady,
    NoFit,
}

/// The verdict on the standard field of an MS.
pub fn judge(run: &[u8], mode: &[u8]) -> Verdict {
    let fits = |wanted| {
        Wishes { rest: run }.any(|(ready, field)| ready == wanted && lies_within(mode, field))
    };
    let mut octets = mode.iter();
    if skip_block::<7>(&mut octets).is_none() || empty_rest::<7>(&mut octets).is_some() {
        Verdict::NoFit
    } else if fits(1) {
        Verdict::Accepted
    } else if fits(0) {
        Verdict::NotReady
    } else {
        Verdict::NoFit
    }
}
