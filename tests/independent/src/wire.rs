//! The octets of requests and replies: numbers lowest octet first, each run
//! and buffer as its length and its octets.

/// The most octets a run or buffer may have in a request.
pub const MOST_LENT: usize = 255;

/// A request or reply under construction.
#[derive(Default)]
pub struct Row(Vec<u8>);

impl Row {
    pub fn new() -> Row {
        Row::default()
    }

    pub fn u8(mut self, number: u8) -> Row {
        self.0.push(number);
        self
    }

    pub fn u16(mut self, number: u16) -> Row {
        self.0.extend(number.to_le_bytes());
        self
    }

    pub fn u32(mut self, number: u32) -> Row {
        self.0.extend(number.to_le_bytes());
        self
    }

    pub fn u64(mut self, number: u64) -> Row {
        self.0.extend(number.to_le_bytes());
        self
    }

    pub fn octets(mut self, octets: &[u8]) -> Row {
        self.0.extend(octets);
        self
    }

    pub fn run(self, octets: &[u8]) -> Row {
        self.u16(octets.len() as u16).octets(octets)
    }

    pub fn done(self) -> Vec<u8> {
        self.0
    }
}

/// Takes the fields of a reply from its front.
pub struct Fields<'a>(&'a [u8]);

impl<'a> Fields<'a> {
    pub fn of(octets: &'a [u8]) -> Fields<'a> {
        Fields(octets)
    }

    fn octets(&mut self, count: usize) -> Option<&'a [u8]> {
        let (taken, rest) = self.0.split_at_checked(count)?;
        self.0 = rest;
        Some(taken)
    }

    pub fn u8(&mut self) -> Option<u8> {
        self.octets(1).map(|octets| octets[0])
    }

    pub fn u16(&mut self) -> Option<u16> {
        let octets = self.octets(2)?;
        Some(u16::from_le_bytes([octets[0], octets[1]]))
    }

    pub fn u32(&mut self) -> Option<u32> {
        let octets = self.octets(4)?;
        octets.try_into().map(u32::from_le_bytes).ok()
    }

    pub fn u64(&mut self) -> Option<u64> {
        let octets = self.octets(8)?;
        octets.try_into().map(u64::from_le_bytes).ok()
    }

    pub fn run(&mut self) -> Option<&'a [u8]> {
        let length = self.u16()?;
        self.octets(usize::from(length))
    }

    pub fn is_empty(&self) -> bool {
        self.0.is_empty()
    }
}

/// The requests in a row, each behind its length.
pub fn joined(requests: &[Vec<u8>]) -> Vec<u8> {
    let row = requests
        .iter()
        .fold(Row::new(), |row, request| row.run(request));
    row.done()
}

/// The whole replies at the front of an output, and the number of octets left
/// over behind them.
pub fn separated(output: &[u8]) -> (Vec<Vec<u8>>, usize) {
    let mut fields = Fields::of(output);
    let mut replies = Vec::new();
    let mut left_over = output.len();
    while let Some(reply) = fields.run() {
        left_over -= 2 + reply.len();
        replies.push(reply.to_vec());
    }
    (replies, left_over)
}

pub fn hex(octets: &[u8]) -> String {
    octets.iter().map(|octet| format!("{octet:02x}")).collect()
}

/// The octets written as pairs of hexadecimal digits; nothing for other text.
pub fn from_hex(text: &str) -> Option<Vec<u8>> {
    let digits: Option<Vec<u8>> = text
        .chars()
        .map(|digit| digit.to_digit(16).map(|value| value as u8))
        .collect();
    let digits = digits.filter(|digits| digits.len() % 2 == 0)?;
    Some(
        digits
            .chunks(2)
            .map(|pair| pair[0] * 16 + pair[1])
            .collect(),
    )
}

/// The octets of a text that stands in this program, blanks between them or
/// not.
pub fn written_out(text: &str) -> Vec<u8> {
    from_hex(&text.replace(' ', "")).expect("pairs of hexadecimal digits")
}

#[cfg(test)]
mod tests {
    use super::*;

    #[test]
    fn a_row_has_its_fields_lowest_octet_first() {
        let row = Row::new().u8(1).u32(0x0102_0304).run(&[9, 8]).done();
        assert_eq!(row, [1, 4, 3, 2, 1, 2, 0, 9, 8]);
    }

    #[test]
    fn fields_come_back() {
        let row = Row::new().u8(7).u16(515).u32(70_000);
        let row = row.u64(1 << 40).run(&[1, 2, 3]).done();
        let mut fields = Fields::of(&row);
        assert_eq!(fields.u8(), Some(7));
        assert_eq!(fields.u16(), Some(515));
        assert_eq!(fields.u32(), Some(70_000));
        assert_eq!(fields.u64(), Some(1 << 40));
        assert_eq!(fields.run(), Some(&[1, 2, 3][..]));
        assert!(fields.is_empty());
        assert_eq!(fields.u8(), None);
    }

    #[test]
    fn joined_requests_separate_again() {
        let requests = vec![vec![], vec![5], vec![1, 2, 3]];
        let mut stream = joined(&requests);
        assert_eq!(separated(&stream), (requests.clone(), 0));
        stream.extend([4, 0, 1]);
        assert_eq!(separated(&stream), (requests, 3));
    }

    #[test]
    fn hexadecimal_text() {
        assert_eq!(hex(&[0x0A, 0xFF]), "0aff");
        assert_eq!(from_hex("0aFF"), Some(vec![0x0A, 0xFF]));
        assert_eq!(from_hex("0a1"), None);
        assert_eq!(from_hex("0g"), None);
    }
}
