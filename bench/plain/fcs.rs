//! The frame check sequence (V.8 bis 7.2.7), an octet at a time. Its highest coefficient is in the lowest bit, so that it is sent
//! lowest octet first.

static TABLE: [u16; 256] = table();

const fn table() -> [u16; 256] {
    let mut table = [0; 256];
    let mut octet = 0;
    while octet < 256 {
        let mut rest = octet as u16;
        let mut bit = 0;
        while bit < 8 {
            rest = if rest & 1 == 1 {
                rest >> 1 ^ 0x8408
            } else {
                rest >> 1
            };
            bit += 1;
        }
        table[octet] = rest;
        octet += 1;
    }
    table
}

pub fn of(octets: &[u8]) -> u16 {
    !octets.iter().fold(0xFFFF, |rest: u16, octet| {
        rest >> 8 ^ TABLE[usize::from(rest as u8 ^ octet)]
    })
}
