//! A small generator of repeatable random numbers (SplitMix64). Every family
//! of requests has its own, seeded by the family's name.

pub struct Random {
    state: u64,
}

impl Random {
    /// The seed is a hash (FNV-1a) of the name, so that a new family leaves
    /// the requests of all others as they were.
    pub fn named(name: &str) -> Random {
        let state = name
            .bytes()
            .fold(0xCBF2_9CE4_8422_2325, |hash: u64, octet| {
                (hash ^ u64::from(octet)).wrapping_mul(0x0000_0100_0000_01B3)
            });
        Random { state }
    }

    pub fn number(&mut self) -> u64 {
        self.state = self.state.wrapping_add(0x9E37_79B9_7F4A_7C15);
        let mut mixed = self.state;
        mixed = (mixed ^ (mixed >> 30)).wrapping_mul(0xBF58_476D_1CE4_E5B9);
        mixed = (mixed ^ (mixed >> 27)).wrapping_mul(0x94D0_49BB_1331_11EB);
        mixed ^ (mixed >> 31)
    }

    /// A number from 0 up to, not including, `end`.
    pub fn below(&mut self, end: usize) -> usize {
        (self.number() % end as u64) as usize
    }

    /// A number from `first` to `last`, both included.
    pub fn within(&mut self, first: usize, last: usize) -> usize {
        first + self.below(last - first + 1)
    }

    pub fn bit(&mut self) -> bool {
        self.below(2) == 1
    }

    pub fn bits(&mut self, count: usize) -> Vec<bool> {
        (0..count).map(|_| self.bit()).collect()
    }

    pub fn octet(&mut self) -> u8 {
        self.below(256) as u8
    }

    pub fn octets(&mut self, count: usize) -> Vec<u8> {
        (0..count).map(|_| self.octet()).collect()
    }

    pub fn pick<T: Copy>(&mut self, choices: &[T]) -> T {
        choices[self.below(choices.len())]
    }
}

#[cfg(test)]
mod tests {
    use super::Random;

    #[test]
    fn same_name_gives_same_numbers() {
        let mut first = Random::named("a name");
        let mut second = Random::named("a name");
        let mut other = Random::named("another name");
        let numbers = first.octets(32);
        assert_eq!(numbers, second.octets(32));
        assert_ne!(numbers, other.octets(32));
    }

    #[test]
    fn within_keeps_its_bounds() {
        let mut random = Random::named("bounds");
        let drawn: Vec<usize> = (0..200).map(|_| random.within(2, 5)).collect();
        assert_eq!(drawn.iter().min(), Some(&2));
        assert_eq!(drawn.iter().max(), Some(&5));
    }
}
