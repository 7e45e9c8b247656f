//! The trees of I and S (V.8 bis 8.3): their form, and their codes in ascending order. A cursor is a slice's iterator.

use core::slice::Iter;

/// Codes are ((f * 512 + s) * 512 + t) * 512 + n.
pub const IDENTIFICATION: u32 = 1 << 27;
pub const STANDARD: u32 = 2 << 27;
pub const S: u32 = 18;
pub const T: u32 = 9;

/// Set in the last octet of a Par(2) block and in no other of it.
pub const LAST: u8 = 0x80;

/// Blocks have 7 parameters to an octet at level 1 and 6 below; the bit above them ends a block.
pub const fn end(width: u32) -> u8 {
    1 << width
}

pub const fn low(width: u32) -> u8 {
    (1 << width) - 1
}

/// Passes over a block, and gives its last octet.
pub fn skip_block<const W: u32>(octets: &mut Iter<u8>) -> Option<u8> {
    octets.find(|&&octet| octet & end(W) != 0).copied()
}

/// Passes over the rest of a well-formed Par(2) block.
pub fn skip_par(octets: &mut Iter<u8>) -> Option<u8> {
    octets.find(|&&octet| octet & LAST != 0).copied()
}

/// Passes over a block, and gives its last octet and how many parameters are set in it. Below level 1 only the octet that ends it may
/// have bit 8.
fn check_block<const W: u32>(octets: &mut Iter<u8>) -> Option<(u8, u32)> {
    let mut ones = 0;
    loop {
        let octet = *octets.next()?;
        ones += (octet & low(W)).count_ones();
        if octet & end(W) != 0 {
            return Some((octet, ones));
        }
        if octet & LAST != 0 {
            return None;
        }
    }
}

fn check_par(octets: &mut Iter<u8>) -> Option<()> {
    let (mut last, _) = check_block::<6>(octets)?;
    if last & LAST != 0 {
        return Some(());
    }
    let mut subs;
    (last, subs) = check_block::<6>(octets)?;
    while subs > 0 {
        if last & LAST != 0 {
            return None;
        }
        (last, _) = check_block::<6>(octets)?;
        subs -= 1;
    }
    (last & LAST != 0).then_some(())
}

/// Passes over a field, or finds that it is malformed.
pub fn check_field(octets: &mut Iter<u8>) -> Option<()> {
    skip_block::<7>(octets)?;
    let (_, pars) = check_block::<7>(octets)?;
    for _ in 0..pars {
        check_par(octets)?;
    }
    Some(())
}

/// Where codes go.
pub trait Sink {
    fn put(&mut self, code: u32);
}

/// Puts the codes of a block, and gives its last octet; position 1 has the code behind `base`.
fn fill_block<const W: u32>(octets: &mut Iter<u8>, base: u32, sink: &mut impl Sink) -> Option<u8> {
    let mut first = base + 1;
    loop {
        let octet = *octets.next()?;
        let mut bits = octet & low(W);
        while bits != 0 {
            sink.put(first + bits.trailing_zeros());
            bits &= bits - 1;
        }
        if octet & end(W) != 0 {
            return Some(octet);
        }
        first += W;
    }
}

fn fill_par(octets: &mut Iter<u8>, code: u32, sink: &mut impl Sink) -> Option<()> {
    sink.put(code);
    if fill_block::<6>(octets, code, sink)? & LAST != 0 {
        return Some(());
    }
    let mut spars = octets.clone();
    skip_block::<6>(octets)?;
    let mut first = code + (1 << T);
    loop {
        let octet = *spars.next()?;
        let mut bits = octet & low(6);
        while bits != 0 {
            let under = first + (bits.trailing_zeros() << T);
            sink.put(under);
            fill_block::<6>(octets, under, sink)?;
            bits &= bits - 1;
        }
        if octet & end(6) != 0 {
            return Some(());
        }
        first += 6 << T;
    }
}

/// Puts the codes of a well-formed field.
pub fn fill_field(octets: &mut Iter<u8>, base: u32, sink: &mut impl Sink) -> Option<()> {
    fill_block::<7>(octets, base, sink)?;
    let mut spars = octets.clone();
    skip_block::<7>(octets)?;
    let mut first = base + (1 << S);
    loop {
        let octet = *spars.next()?;
        let mut bits = octet & low(7);
        while bits != 0 {
            fill_par(octets, first + (bits.trailing_zeros() << S), sink)?;
            bits &= bits - 1;
        }
        if octet & end(7) != 0 {
            return Some(());
        }
        first += 7 << S;
    }
}
