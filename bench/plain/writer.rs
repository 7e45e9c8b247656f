//! The message writer (V.8 bis 8): always the minimal form.

use crate::message::{is_known, is_ns, CLR, MOST_OCTETS};
use crate::tree::{end, IDENTIFICATION, LAST, S, STANDARD, T};

const POSITION: u32 = 511;
const NON_STANDARD: u32 = IDENTIFICATION + 7;

#[derive(Clone, Copy)]
pub enum Refusal {
    BadLent = 1,
    BadType = 3,
    BadCode = 5,
    NotAscending = 6,
    NoParent = 7,
    NotEmpty = 8,
    BadNs = 9,
    TooLong = 10,
}

fn is_shaped(code: u32) -> bool {
    let (f, s, t) = (code >> 27, code >> S & POSITION, code >> T & POSITION);
    (f == 1 || f == 2) && (s != 0 || t == 0) && code << 5 != 0
}

/// Checks the list. In an ascending one a code's parents are the last ones before it that can be such.
fn check_list(list: &[u32]) -> Result<(), Refusal> {
    let (mut before, mut top, mut group) = (0, 0, 0);
    let (mut ascending, mut parented) = (true, true);
    for &code in list {
        if !is_shaped(code) {
            return Err(Refusal::BadCode);
        }
        if code <= before {
            ascending = false;
        }
        before = code;
        let (s, t) = (code >> S, code >> T);
        if code & POSITION != 0 {
            if s & POSITION != 0 && t != group {
                parented = false;
            }
            continue;
        }
        group = t;
        if t & POSITION == 0 {
            top = s;
        } else if s != top {
            parented = false;
        }
    }
    if !ascending {
        return Err(Refusal::NotAscending);
    }
    if !parented {
        return Err(Refusal::NoParent);
    }
    Ok(())
}

/// The message so far; None means that it has become too long.
struct Draft {
    octets: [u8; MOST_OCTETS],
    size: usize,
}

impl Draft {
    fn put(&mut self, octet: u8) -> Option<()> {
        *self.octets.get_mut(self.size)? = octet;
        self.size += 1;
        Some(())
    }

    /// Puts the block of some positions, which ascend.
    fn put_block<const W: u32>(&mut self, positions: impl Iterator<Item = u32>) -> Option<()> {
        let (mut octet, mut below) = (0, 1);
        for position in positions {
            while position >= below + W {
                self.put(octet)?;
                octet = 0;
                below += W;
            }
            octet |= 1 << (position - below);
        }
        self.put(octet | end(W))
    }

    /// Puts a Par(2) block of codes that begin with its SPar(1).
    fn put_par(&mut self, codes: &[u32]) -> Option<()> {
        let (npars, mut below) = split(&codes[1..], |code| code >> T & POSITION == 0);
        self.put_block::<6>(npars.iter().map(|code| code & POSITION))?;
        if !below.is_empty() {
            let spars = below.iter().filter(|&code| code & POSITION == 0);
            self.put_block::<6>(spars.map(|code| code >> T & POSITION))?;
        }
        while let [first, ..] = *below {
            let (group, rest) = split(below, |code| code >> T == first >> T);
            self.put_block::<6>(group[1..].iter().map(|code| code & POSITION))?;
            below = rest;
        }
        self.octets[self.size - 1] |= LAST;
        Some(())
    }

    fn put_field(&mut self, codes: &[u32]) -> Option<()> {
        let (npars, mut below) = split(codes, |code| code >> S & POSITION == 0);
        self.put_block::<7>(npars.iter().map(|code| code & POSITION))?;
        let spars = below.iter().filter(|&code| code & ((1 << S) - 1) == 0);
        self.put_block::<7>(spars.map(|code| code >> S & POSITION))?;
        while let [first, ..] = *below {
            let (par, rest) = split(below, |code| code >> S == first >> S);
            self.put_par(par)?;
            below = rest;
        }
        Some(())
    }
}

/// A list up to its first code that is not such, and the rest.
fn split(codes: &[u32], is_such: impl Fn(u32) -> bool) -> (&[u32], &[u32]) {
    let size = codes
        .iter()
        .position(|&code| !is_such(code))
        .unwrap_or(codes.len());
    codes.split_at(size)
}

/// Writes a message, and gives its number of octets.
pub fn write(
    kind: u8,
    revision: u8,
    list: &[u32],
    ns: &[u8],
    out: &mut [u8],
) -> Result<usize, Refusal> {
    if out.len() < MOST_OCTETS {
        return Err(Refusal::BadLent);
    }
    if !is_known(kind) || revision > 15 {
        return Err(Refusal::BadType);
    }
    check_list(list)?;
    let first = revision << 4 | kind;
    if kind > CLR {
        if !list.is_empty() || !ns.is_empty() {
            return Err(Refusal::NotEmpty);
        }
        out[0] = first;
        return Ok(1);
    }
    let (identification, standard) = split(list, |code| code < STANDARD);
    let announced = identification
        .iter()
        .take(7)
        .any(|&code| code == NON_STANDARD);
    if announced == ns.is_empty() || announced && !is_ns(ns) {
        return Err(Refusal::BadNs);
    }
    let mut draft = Draft {
        octets: [0; MOST_OCTETS],
        size: 1,
    };
    draft.octets[0] = first;
    draft
        .put_field(identification)
        .and_then(|()| draft.put_field(standard))
        .ok_or(Refusal::TooLong)?;
    let size = draft.size + ns.len();
    if size > MOST_OCTETS {
        return Err(Refusal::TooLong);
    }
    out[..draft.size].copy_from_slice(&draft.octets[..draft.size]);
    out[draft.size..size].copy_from_slice(ns);
    Ok(size)
}
