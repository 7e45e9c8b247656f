//! Buffers as they are lent: between octets that nobody may write, and at
//! places that are aligned for nothing.

/// Octets before and behind what is lent, at least so many.
const GUARDS: usize = 16;

/// What stands there.
const GUARD: u8 = 0xC3;

pub struct Lent {
    octets: Vec<u8>,
    place: usize,
    length: usize,
}

impl Lent {
    /// The place varies with the content, which is drawn at random.
    pub fn of(content: &[u8]) -> Lent {
        let place = GUARDS + content.first().map_or(0, |octet| usize::from(octet % 8));
        let mut octets = vec![GUARD; place];
        octets.extend(content);
        octets.resize(place + content.len() + GUARDS, GUARD);
        Lent {
            octets,
            place,
            length: content.len(),
        }
    }

    /// Never null, not even where nothing is lent.
    pub fn pointer(&mut self) -> *mut u8 {
        self.octets[self.place..].as_mut_ptr()
    }

    pub fn length(&self) -> usize {
        self.length
    }

    pub fn content(&self) -> &[u8] {
        &self.octets[self.place..][..self.length]
    }

    /// Whether the octets around are as they were.
    pub fn is_guarded(&self) -> bool {
        let (before, from_here) = self.octets.split_at(self.place);
        let mut around = before.iter().chain(&from_here[self.length..]);
        around.all(|&octet| octet == GUARD)
    }
}

#[cfg(test)]
mod tests {
    use super::*;

    #[test]
    fn the_content_stands_between_guards() {
        for content in [vec![], vec![7], vec![0xC3; 30]] {
            let mut lent = Lent::of(&content);
            assert_eq!(lent.content(), content);
            assert_eq!(lent.length(), content.len());
            assert!(lent.is_guarded());
            let behind = lent.place + content.len();
            lent.octets[behind] ^= 1;
            assert!(!lent.is_guarded());
            lent.octets[behind] ^= 1;
            let before = lent.place - 1;
            lent.octets[before] ^= 1;
            assert!(!lent.is_guarded());
        }
    }
}
