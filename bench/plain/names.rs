//! The named parameters (V.8 bis Tables 5-1 to 5-3 and 6-1 to 6-10) as masks, position 1 the lowest. None has more than 30
//! positions; the mask of all is -1, which stays so when it is shifted.

pub type Mask = i32;

/// What is kept of a field.
#[derive(Clone, Copy, PartialEq)]
pub enum Keep {
    All,
    Named,
    /// The named ones but the non-standard bits.
    Standard,
}

#[derive(Clone, Copy, PartialEq)]
pub enum Field {
    Identification,
    Standard,
}

/// NPar(2) of S by its SPar(1), NPar(1) first; the second is the non-standard ones of them.
const STANDARD_NPARS: [(Mask, Mask); 10] = [
    (0x40, 0x40),
    (0x1F_FDFF, 0x20),
    (0x7FFB, 0x20),
    (0x27, 0x20),
    (0x23, 0x20),
    (0x9FF, 0x820),
    (0x27, 0x20),
    (0x27, 0x20),
    (0x27, 0x20),
    (0x3FFF_FFF8, 0),
];
const IDENTIFICATION_NPARS: [(Mask, Mask); 2] = [(0x4F, 0x40), (0x27, 0x20)];

/// NPar(1) for s = 0, else NPar(2).
pub fn npars(field: Field, keep: Keep, s: usize) -> Mask {
    let table = match field {
        Field::Identification => &IDENTIFICATION_NPARS[..],
        Field::Standard => &STANDARD_NPARS[..],
    };
    let (named, not_standard) = table.get(s).copied().unwrap_or((0, 0));
    match keep {
        Keep::All => -1,
        Keep::Named => named,
        Keep::Standard => named & !not_standard,
    }
}

/// SPar(1).
pub fn first_spars(field: Field, keep: Keep) -> Mask {
    match (keep, field) {
        (Keep::All, _) => -1,
        (_, Field::Identification) => 0x01,
        (_, Field::Standard) => 0x1FF,
    }
}

/// SPar(2).
pub fn second_spars(field: Field, keep: Keep, s: usize) -> Mask {
    match (keep, field, s) {
        (Keep::All, ..) => -1,
        (_, Field::Standard, 3 | 8) => 0x01,
        _ => 0,
    }
}

/// NPar(3) below any named SPar(2).
pub fn third_npars(keep: Keep) -> Mask {
    if keep == Keep::All {
        -1
    } else {
        0x7F
    }
}
