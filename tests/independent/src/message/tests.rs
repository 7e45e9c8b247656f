//! Messages worked out by hand.

use super::*;
use crate::wire::{self, written_out as octets};

/// The codes written as f.s.t.n.
fn codes(text: &str) -> Vec<u32> {
    let code = |word: &str| {
        let parts: Vec<u32> = word.split('.').map(|part| part.parse().unwrap()).collect();
        Code::new(parts[0], parts[1], parts[2], parts[3]).number()
    };
    text.split_whitespace().map(code).collect()
}

fn reading_number(text: &str) -> u8 {
    let answer = read(448, &octets(text));
    if answer.number != number::SUCCESS {
        assert_eq!(answer, Reading::refused(answer.number, 448));
    }
    answer.number
}

fn list(text: &str) -> Vec<u32> {
    let answer = read(450, &octets(text));
    assert_eq!(answer.number, number::SUCCESS);
    answer.codes
}

fn meaning(kind: u8, codes: Vec<u32>, non_standard: &[u8]) -> Meaning {
    Meaning {
        kind,
        revision: 2,
        codes,
        non_standard: non_standard.to_vec(),
    }
}

fn written(meaning: &Meaning) -> Vec<u8> {
    let answer = write(meaning, &[0xAA; 70]);
    assert_eq!(answer.number, number::SUCCESS);
    let (message, others) = answer.out.split_at(usize::from(answer.count));
    assert!(others.iter().all(|&octet| octet == 0xAA));
    message.to_vec()
}

fn writing_number(kind: u8, code_text: &str, non_standard: &[u8]) -> u8 {
    write(
        &meaning(kind, codes(code_text), non_standard),
        &[0; WRITER_ROOM],
    )
    .number
}

#[test]
fn code_of_a_parameter() {
    assert_eq!(codes("2.1.0.11"), [268_697_611]);
    let highest = Code::new(31, 511, 511, 511);
    assert_eq!(highest.number(), u32::MAX);
    assert_eq!(Code::of(u32::MAX), highest);
    assert_eq!(Code::of(268_697_611), Code::new(2, 1, 0, 11));
}

#[test]
fn parents_of_a_parameter() {
    let parents = |code: Code| code.parents().collect::<BTreeSet<Code>>();
    let spar_1 = Code::new(2, 3, 0, 0);
    let spar_2 = Code::new(2, 3, 4, 0);
    assert_eq!(parents(Code::new(2, 0, 0, 5)), BTreeSet::new());
    assert_eq!(parents(spar_1), BTreeSet::new());
    assert_eq!(parents(Code::new(2, 3, 0, 5)), BTreeSet::from([spar_1]));
    assert_eq!(parents(spar_2), BTreeSet::from([spar_1]));
    let of_npar_3 = parents(Code::new(2, 3, 4, 5));
    assert_eq!(of_npar_3, BTreeSet::from([spar_1, spar_2]));
}

#[test]
fn empty_lists() {
    assert_eq!(list("22 80 80 80 80"), []);
    assert_eq!(reading_number("22 80 80 80 80 00"), number::MALFORMED);
    assert_eq!(reading_number("22 80 80 80"), number::MALFORMED);
    assert_eq!(written(&meaning(2, vec![], &[])), octets("22 80 80 80 80"));
}

#[test]
fn first_octet() {
    let answer = read(448, &octets("24"));
    assert_eq!((answer.number, answer.kind, answer.revision), (0, 4, 2));
    assert_eq!((answer.codes.len(), answer.non_standard_length), (0, 0));
    assert_eq!(reading_number("2D"), number::UNKNOWN);
    assert_eq!(reading_number("2D 00"), number::UNKNOWN);
    assert_eq!(reading_number("24 00"), number::MALFORMED);
    assert_eq!(reading_number("21"), number::MALFORMED);
    assert_eq!(written(&meaning(4, vec![], &[])), [0x24]);
}

/// D0 sets bit 5 of the second octet, position 11; A1 sets bits 1 and 6.
#[test]
fn two_levels() {
    let text = "22 81 80 80 A1 02 D0 C0";
    let by_hand = codes("1.0.0.1 2.1.0.0 2.1.0.2 2.1.0.11 2.6.0.0");
    assert_eq!(list(text), by_hand);
    assert_eq!(written(&meaning(2, by_hand, &[])), octets(text));
}

/// I: 01 C0 sets 1 and 14, 81 sets s = 1. Its Par(2) block is 04 41 (3 and
/// 7), 00 42 (t = 8), 20 C1 (6 and 7). S: 40 81 sets s = 7 and 8; the first
/// has 20 E0 (6 and 12), the second 40 (nothing), 43 (t = 1 and 2), 40
/// (nothing) and C8 (4).
#[test]
fn three_levels() {
    let text = "22 01 C0 81 04 41 00 42 20 C1 80 40 81 20 E0 40 43 40 C8";
    let by_hand = codes(
        "1.0.0.1 1.0.0.14 1.1.0.0 1.1.0.3 1.1.0.7 1.1.8.0 1.1.8.6 1.1.8.7 \
         2.7.0.0 2.7.0.6 2.7.0.12 2.8.0.0 2.8.1.0 2.8.2.0 2.8.2.4",
    );
    assert_eq!(list(text), by_hand);
    assert_eq!(written(&meaning(2, by_hand, &[])), octets(text));
}

#[test]
fn unknown_parameters_keep_their_blocks() {
    let text = "32 91 80 80 21 84 02 D0 C0 41 42 C4";
    let by_hand = codes(
        "1.0.0.1 1.0.0.5 2.1.0.0 2.1.0.2 2.1.0.11 2.6.0.0 \
         2.10.0.0 2.10.0.1 2.10.2.0 2.10.2.3",
    );
    assert_eq!(list(text), by_hand);
    assert_eq!(minimal_form(&octets(text)), Some(octets(text)));
}

#[test]
fn needless_octets_are_left_out() {
    let minimal = |text| wire::hex(&minimal_form(&octets(text)).unwrap());
    assert_eq!(list("22 80 80 80 81 40 C0"), codes("2.1.0.0"));
    assert_eq!(minimal("22 80 80 80 81 40 C0"), "2280808081c0");
    assert_eq!(minimal("22 80 80 80 81 41 00 C0"), "2280808081c1");
    assert_eq!(minimal("22 80 80 80 01 00 80 00 C0"), "2280808081c0");
    assert_eq!(minimal("22 01 80 00 80 00 80 00 00 80"), "2281808080");
    let level_3 = "22 80 80 80 81 00 40 01 00 40 02 C0";
    assert_eq!(list(level_3), codes("2.1.0.0 2.1.1.0 2.1.1.2"));
    assert_eq!(minimal(level_3), "22808080814041c2");
}

#[test]
fn marks_against_the_rules() {
    let malformed = [
        "22 80 80 80 81",
        "22 80 80 80 81 80",
        "22 80 80 80 81 80 C0",
        "22 80 80 80 81 40",
        "22 80 80 80 81 40 40",
        "22 80 80 80 81 40 80 C0",
        "22 80 80 80 81 40 C1",
        "22 80 80 80 81 40 C1 C0",
        "22 80 80 80 81 40 41 40",
        "22 80 80 80 81 40 41 80 C0",
        "22 80 80 80 81 40 43 C0 C0",
        "22 80 80 80 81 C0 C0",
    ];
    for text in malformed {
        assert_eq!(reading_number(text), number::MALFORMED, "{text}");
    }
    assert_eq!(reading_number("22 80 80 80 81 40 43 40 C0"), 0);
}

#[test]
fn non_standard_fields() {
    let answer = read(448, &octets("22 C0 80 80 80 02 AA BB"));
    assert_eq!(answer.number, number::SUCCESS);
    assert_eq!(answer.codes, codes("1.0.0.7"));
    assert_eq!(answer.non_standard_place, 5);
    assert_eq!(answer.non_standard_length, 3);
    let malformed = [
        "22 C0 80 80 80",
        "22 C0 80 80 80 00",
        "22 C0 80 80 80 01 AA",
        "22 C0 80 80 80 02 AA",
        "22 C0 80 80 80 02 AA BB 02",
        "22 C0 80 80 80 02 AA BB 01 CC",
        "22 80 80 80 80 02 AA BB",
        "22 00 C0 80 80 80 02 AA BB",
        "22 80 80 C0 80 02 AA BB",
    ];
    for text in malformed {
        assert_eq!(reading_number(text), number::MALFORMED, "{text}");
    }
    assert_eq!(reading_number("22 C0 80 80 80 02 AA BB 03 01 02 03"), 0);
    assert_eq!(reading_number("22 00 C0 80 80 80"), 0);
}

#[test]
fn bounds_of_a_non_standard_block() {
    let block = |length: u8| [&[length][..], &vec![7; usize::from(length)]].concat();
    let good: Vec<u8> = (0..=255)
        .filter(|&length| is_non_standard_field(&block(length)))
        .collect();
    assert_eq!(good, (2..=63).collect::<Vec<u8>>());
}

/// Type 3 of revision 2, one code (1.0.0.7 is 08000007), NS from place 5 on
/// in three octets, then the list.
#[test]
fn replies_of_the_reader() {
    let row = |answer: &Reading| wire::hex(&answer.reply());
    let untouched = "efbeadde".repeat(447);
    let answer = read(448, &octets("23 C0 80 80 80 02 AA BB"));
    let by_hand = "000302010005000300".to_string() + "07000008" + &untouched;
    assert_eq!(row(&answer), by_hand);
    let refused = read(447, &octets("23 C0 80 80 80 02 AA BB"));
    assert_eq!(row(&refused), "010000000000000000".to_string() + &untouched);
}

#[test]
fn reader_refusals_in_their_order() {
    let unknown = [0x2D; 64];
    assert_eq!(read(447, &[]).number, number::ROOM);
    assert_eq!(read(0, &unknown).number, number::ROOM);
    assert_eq!(read(448, &[]).number, number::LENGTH);
    assert_eq!(read(448, &[0x2D; 65]).number, number::LENGTH);
    assert_eq!(read(448, &unknown).number, number::UNKNOWN);
    assert_eq!(read(448, &[0x22; 64]).number, number::MALFORMED);
}

#[test]
fn writer_refusals_in_their_order() {
    let all_wrong = Meaning {
        kind: 13,
        revision: 16,
        codes: codes("0.0.0.0 1.0.0.7 1.0.0.7 2.511.511.511"),
        non_standard: vec![],
    };
    assert_eq!(write(&all_wrong, &[0; 63]).number, number::ROOM);
    assert_eq!(write(&all_wrong, &[0; 64]).number, number::UNKNOWN);
    let code_text = "0.0.0.0 1.0.0.7 1.0.0.7 2.511.511.511";
    assert_eq!(writing_number(4, code_text, &[]), number::SHAPE);
    let code_text = "1.0.0.7 1.0.0.7 2.511.511.511";
    assert_eq!(writing_number(4, code_text, &[]), number::ORDER);
    let code_text = "1.0.0.7 2.511.511.511";
    assert_eq!(writing_number(4, code_text, &[]), number::PARENT);
    let code_text = "1.0.0.7 2.511.0.0";
    assert_eq!(writing_number(4, code_text, &[]), number::NOT_BARE);
    assert_eq!(writing_number(1, code_text, &[]), number::NON_STANDARD);
    assert_eq!(writing_number(1, code_text, &[2, 3, 4]), number::TOO_LONG);
}

#[test]
fn impossible_shapes() {
    for text in [
        "0.1.0.0", "3.1.0.0", "31.0.0.1", "1.0.1.0", "2.0.3.4", "2.0.0.0",
    ] {
        assert_eq!(writing_number(2, text, &[]), number::SHAPE, "{text}");
    }
}

#[test]
fn ack_and_nak_stand_alone() {
    for kind in [4, 5, 8, 9, 10, 11] {
        assert_eq!(writing_number(kind, "", &[]), number::SUCCESS);
        assert_eq!(writing_number(kind, "1.0.0.1", &[]), number::NOT_BARE);
        assert_eq!(writing_number(kind, "", &[2, 3, 4]), number::NOT_BARE);
    }
}

#[test]
fn non_standard_field_and_its_code() {
    assert_eq!(writing_number(2, "1.0.0.7", &[2, 3, 4]), number::SUCCESS);
    assert_eq!(writing_number(2, "1.0.0.7", &[]), number::NON_STANDARD);
    assert_eq!(writing_number(2, "1.0.0.7", &[2, 3]), number::NON_STANDARD);
    assert_eq!(writing_number(2, "", &[2, 3, 4]), number::NON_STANDARD);
    assert_eq!(
        writing_number(2, "2.0.0.7", &[2, 3, 4]),
        number::NON_STANDARD
    );
    assert_eq!(writing_number(2, "1.0.0.14", &[]), number::SUCCESS);
}

/// An NPar(1) block of 60 octets ends at position 420.
#[test]
fn longest_message() {
    assert_eq!(written(&meaning(1, codes("1.0.0.420"), &[])).len(), 64);
    assert_eq!(writing_number(1, "1.0.0.421", &[]), number::TOO_LONG);
    let longest = [&[58][..], &[9; 58]].concat();
    assert_eq!(writing_number(3, "1.0.0.7", &longest), number::SUCCESS);
    let too_long = [&[59][..], &[9; 59]].concat();
    assert_eq!(writing_number(3, "1.0.0.7", &too_long), number::TOO_LONG);
}
