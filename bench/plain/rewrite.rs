//! Fields rewritten with what is kept of them, in minimal form; striking; and the fields that a table may hold.

use crate::message::{self, CLR, MOST_OCTETS, MS};
use crate::names::{first_spars, npars, second_spars, third_npars, Field, Keep, Mask};
use crate::tree::{end, low, skip_block, skip_par, LAST};
use core::slice::Iter;

/// Octets on their way out.
struct Out<'a> {
    octets: &'a mut [u8],
    size: usize,
}

impl Out<'_> {
    fn put(&mut self, octet: u8) {
        self.octets[self.size] = octet;
        self.size += 1;
    }

    fn mark_last(&mut self, mark: u8) {
        self.octets[self.size - 1] |= mark;
    }
}

/// Whether something of the next block is kept.
fn keeps_some<const W: u32>(mut octets: Iter<u8>, mut mask: Mask) -> Option<bool> {
    loop {
        let octet = *octets.next()?;
        if octet & mask as u8 & low(W) != 0 {
            return Some(true);
        }
        if octet & end(W) != 0 {
            return Some(false);
        }
        mask >>= W;
    }
}

/// Rewrites a block, and gives its last octet. Octets with nothing kept go out when one behind them has something, so that nothing is
/// written that is not needed.
fn rewrite_block<const W: u32>(octets: &mut Iter<u8>, mut mask: Mask, out: &mut Out) -> Option<u8> {
    let (mut last, mut zeros, mut none) = (0, 0, true);
    loop {
        let octet = *octets.next()?;
        let kept = octet & mask as u8 & low(W);
        if kept == 0 {
            zeros += 1;
        } else {
            if !none {
                out.put(last);
            }
            for _ in 0..zeros {
                out.put(0);
            }
            (last, zeros, none) = (kept, 0, false);
        }
        if octet & end(W) != 0 {
            out.put(last | end(W));
            return Some(octet);
        }
        mask >>= W;
    }
}

/// Rewrites the Par(2) block of an SPar(1).
fn rewrite_par(
    octets: &mut Iter<u8>,
    field: Field,
    keep: Keep,
    s: usize,
    out: &mut Out,
) -> Option<()> {
    if rewrite_block::<6>(octets, npars(field, keep, s), out)? & LAST == 0 {
        let mut mask = second_spars(field, keep, s);
        let mut spars = octets.clone();
        if !keeps_some::<6>(octets.clone(), mask)? {
            skip_par(octets)?;
        } else {
            rewrite_block::<6>(octets, mask, out)?;
            loop {
                let octet = *spars.next()?;
                let mut bits = octet & low(6);
                while bits != 0 {
                    let bit = bits & bits.wrapping_neg();
                    if bit & mask as u8 != 0 {
                        rewrite_block::<6>(octets, third_npars(keep), out)?;
                    } else {
                        skip_block::<6>(octets)?;
                    }
                    bits ^= bit;
                }
                if octet & end(6) != 0 {
                    break;
                }
                mask >>= 6;
            }
        }
    }
    out.mark_last(LAST);
    Some(())
}

/// Rewrites a well-formed field.
fn rewrite_field(octets: &mut Iter<u8>, field: Field, keep: Keep, out: &mut Out) -> Option<()> {
    rewrite_block::<7>(octets, npars(field, keep, 0), out)?;
    let mut mask = first_spars(field, keep);
    let mut spars = octets.clone();
    rewrite_block::<7>(octets, mask, out)?;
    let mut first = 1;
    loop {
        let octet = *spars.next()?;
        let mut bits = octet & low(7);
        while bits != 0 {
            let bit = bits & bits.wrapping_neg();
            if bit & mask as u8 != 0 {
                rewrite_par(
                    octets,
                    field,
                    keep,
                    first + bits.trailing_zeros() as usize,
                    out,
                )?;
            } else {
                skip_par(octets)?;
            }
            bits ^= bit;
        }
        if octet & end(7) != 0 {
            return Some(());
        }
        mask >>= 7;
        first += 7;
    }
}

/// Stores what is kept of the standard field at a place of a well-formed message, and gives its number of octets.
pub fn store(message: &[u8], standard: usize, keep: Keep, store: &mut [u8]) -> usize {
    let mut out = Out {
        octets: store,
        size: 0,
    };
    let done = rewrite_field(
        &mut message[standard..].iter(),
        Field::Standard,
        keep,
        &mut out,
    );
    debug_assert!(done.is_some());
    out.size
}

/// Strikes a message, and gives its number of octets.
pub fn strike(message: &[u8], out: &mut [u8]) -> Result<usize, message::Refusal> {
    if out.len() < MOST_OCTETS {
        return Err(message::Refusal::BadLent);
    }
    let parts = message::check(message)?;
    out[0] = message[0];
    if parts.kind > CLR {
        return Ok(1);
    }
    let keep = if parts.kind == MS {
        Keep::All
    } else {
        Keep::Named
    };
    let mut octets = message[1..].iter();
    let mut out = Out {
        octets: out,
        size: 1,
    };
    let done = rewrite_field(&mut octets, Field::Identification, Keep::Named, &mut out)
        .and_then(|()| rewrite_field(&mut octets, Field::Standard, keep, &mut out));
    debug_assert!(done.is_some());
    let (ns, size) = (&message[parts.tail..], out.size);
    out.octets[size..size + ns.len()].copy_from_slice(ns);
    Ok(size + ns.len())
}

/// Passes over a block that a table may hold: named, minimal. Gives its last octet and the number of parameters.
fn good_block<const W: u32>(octets: &mut Iter<u8>, mut mask: Mask) -> Option<(u8, u32)> {
    let mut ones = 0;
    let mut single = true;
    loop {
        let octet = *octets.next()?;
        let set = octet & low(W);
        if set & !(mask as u8) != 0 {
            return None;
        }
        ones += set.count_ones();
        if octet & end(W) != 0 {
            return (set != 0 || single).then_some((octet, ones));
        }
        if octet & LAST != 0 {
            return None;
        }
        single = false;
        mask >>= W;
    }
}

fn good_par(octets: &mut Iter<u8>, s: usize) -> Option<()> {
    let (last, _) = good_block::<6>(octets, npars(Field::Standard, Keep::Standard, s))?;
    if last & LAST != 0 {
        return Some(());
    }
    let (mut last, spars) =
        good_block::<6>(octets, second_spars(Field::Standard, Keep::Standard, s))?;
    for _ in 0..spars {
        if last & LAST != 0 {
            return None;
        }
        (last, _) = good_block::<6>(octets, third_npars(Keep::Standard))?;
    }
    (last & LAST != 0 && spars > 0).then_some(())
}

/// Whether octets are a standard field that a table may hold: named standard parameters in minimal form. Gives the number of SPar(1).
pub fn good_field(field: &[u8]) -> Option<u32> {
    if field.len() > 61 {
        return None;
    }
    let mut octets = field.iter();
    good_block::<7>(&mut octets, npars(Field::Standard, Keep::Standard, 0))?;
    let mut spars = octets.clone();
    let (_, count) = good_block::<7>(&mut octets, first_spars(Field::Standard, Keep::Standard))?;
    let mut first = 1;
    loop {
        let octet = *spars.next()?;
        let mut bits = octet & low(7);
        while bits != 0 {
            good_par(&mut octets, first + bits.trailing_zeros() as usize)?;
            bits &= bits - 1;
        }
        if octet & end(7) != 0 {
            return octets.as_slice().is_empty().then_some(count);
        }
        first += 7;
    }
}
