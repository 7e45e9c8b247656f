//! Parameter codes and their parts.

/// The parts of a parameter code, from the highest to the lowest.
#[derive(Clone, Copy, Debug, PartialEq, Eq, PartialOrd, Ord)]
pub struct Code {
    pub f: u32,
    pub s: u32,
    pub t: u32,
    pub n: u32,
}

pub const IDENTIFICATION: u32 = 1;
pub const STANDARD: u32 = 2;

impl Code {
    /// Parts below the highest are smaller than this.
    pub const BASE: u32 = 512;

    pub const NON_STANDARD_FIELD: Code = Code::new(IDENTIFICATION, 0, 0, 7);

    pub const fn new(f: u32, s: u32, t: u32, n: u32) -> Code {
        Code { f, s, t, n }
    }

    pub fn of(number: u32) -> Code {
        Code {
            f: number / Code::BASE.pow(3),
            s: number / Code::BASE.pow(2) % Code::BASE,
            t: number / Code::BASE % Code::BASE,
            n: number % Code::BASE,
        }
    }

    pub fn number(self) -> u32 {
        [self.s, self.t, self.n]
            .iter()
            .fold(self.f, |above, part| above * Code::BASE + part)
    }

    pub fn is_possible(self) -> bool {
        let of_a_field = self.f == IDENTIFICATION || self.f == STANDARD;
        let t_alone = self.t > 0 && self.s == 0;
        of_a_field && !t_alone && (self.s, self.t, self.n) != (0, 0, 0)
    }

    /// The parameters that must be set for this one to have its place.
    pub fn parents(self) -> impl Iterator<Item = Code> {
        let above = [Code { n: 0, ..self }, Code { t: 0, n: 0, ..self }];
        above
            .into_iter()
            .filter(move |code| code.s > 0 && *code != self)
    }
}
