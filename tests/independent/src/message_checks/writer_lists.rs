//! The writer and lists without a fault: what it makes of them, and which are
//! too long.

use super::drawn::non_standard_field;
use super::layout::{self, Layout};
use super::requests::*;
use super::shapes;
use crate::bench::{Case, Check};
use crate::message::{Code, Meaning};
use crate::random::Random;
use crate::wire::MOST_LENT;

pub fn checks() -> Vec<Check> {
    vec![
        Check::of_cases("message writer: trees of one to three levels", levels),
        Check::of_cases("message writer: every single parameter", single_parameters),
        Check::of_cases("message writer: every length", lengths),
        Check::of_cases("message writer: every length with NS", with_non_standard),
        Check::of_cases("message writer: many branches", many_branches),
        Check::of_cases("message writer: long lists", long_lists),
        Check::of_cases("message writer: random lists", random_lists),
        Check::of_cases("message writer: lists far too long", far_too_long),
        Check::of_cases("message writer: NS far too long", non_standard_too_long),
        Check::of_cases("message writer: no list", no_list),
    ]
}

/// The number due to a message of so many octets in minimal form.
fn length_due(length: usize) -> u8 {
    if length > MOST_OCTETS {
        10
    } else {
        0
    }
}

/// What the layout carries, given to the writer.
fn carried(random: &mut Random, layout: &Layout) -> Case {
    let due = length_due(layout.trimmed().length());
    told(random, &layout.meaning()).due(due)
}

fn levels(random: &mut Random) -> Vec<Case> {
    let mut cases = Vec::new();
    for depth in 1..=3 {
        for _ in 0..800 {
            let layout = Layout::within(random, depth, MOST_OCTETS);
            cases.push(carried(random, &layout));
        }
    }
    for _ in 0..1200 {
        let layout = Layout::any(random);
        cases.push(carried(random, &layout));
    }
    cases
}

fn single_parameters(random: &mut Random) -> Vec<Case> {
    let mut cases = Vec::new();
    for code in shapes::single_parameters() {
        let layout = Layout::with(random, code);
        cases.push(carried(random, &layout));
    }
    cases
}

/// No block of a message so long has positions that a code cannot name.
const LONGEST: usize = 77;

/// A tree that has so many octets in minimal form.
fn minimal(random: &mut Random, length: usize) -> Layout {
    let depth = random.within(1, 3);
    let layout = Layout::within(random, depth, 20.min(length)).trimmed();
    layout.stretched(random, length, layout::something)
}

fn lengths(random: &mut Random) -> Vec<Case> {
    let mut cases = Vec::new();
    for length in (5..=LONGEST).chain([64; 20]).chain([65; 20]) {
        for _ in 0..6 {
            let meaning = minimal(random, length).meaning();
            cases.push(told(random, &meaning).due(length_due(length)));
        }
    }
    cases
}

fn with_non_standard(random: &mut Random) -> Vec<Case> {
    let mut cases = Vec::new();
    for length in (8..=LONGEST).chain([64; 20]).chain([65; 20]) {
        for _ in 0..4 {
            let of_non_standard = random.within(3, length - 5);
            let field = non_standard_field(random, of_non_standard);
            let layout = minimal(random, length - of_non_standard);
            let meaning = layout.announcing(field).meaning();
            cases.push(told(random, &meaning).due(length_due(length)));
        }
    }
    cases
}

fn many_branches(random: &mut Random) -> Vec<Case> {
    let mut cases = all_told(random, shapes::many_branches, 0);
    cases.extend(all_told(random, shapes::too_many_branches, 10));
    cases
}

fn long_lists(random: &mut Random) -> Vec<Case> {
    all_told(random, shapes::full_blocks, 0)
}

fn all_told(random: &mut Random, shapes: fn(&mut Random) -> Vec<Layout>, due: u8) -> Vec<Case> {
    let layouts = shapes(random);
    layouts
        .iter()
        .map(|layout| told(random, &layout.meaning()).due(due))
        .collect()
}

/// Parameters drawn at random, near the front or anywhere, with those above
/// them: up to 512 codes.
fn random_lists(random: &mut Random) -> Vec<Case> {
    let mut cases = Vec::new();
    for _ in 0..1500 {
        let farthest = random.pick(&[7, 12, 24, 60, 200, 511]);
        let count = random.pick(&[1, 3, 8, 20, 60, MOST_NUMBERS]);
        let codes = shapes::random_list(random, farthest, count);
        let far = |code: &u32| parts(*code).iter().any(|&part| part > 448);
        let surely_too_long = codes.len() > 448 || codes.iter().any(far);
        let meaning = with_list(random, codes);
        let case = told(random, &meaning);
        cases.push(if surely_too_long { case.due(10) } else { case });
    }
    cases
}

fn parts(code: u32) -> [u32; 3] {
    let Code { s, t, n, .. } = Code::of(code);
    [s, t, n]
}

/// All NPar(1)s of a field that a code can name.
fn far_too_long(random: &mut Random) -> Vec<Case> {
    let mut cases = Vec::new();
    for count in (421..512).chain([511; 20]) {
        let f = random.pick(&[1, 2]);
        let npars = (1..=count).map(|n| Code::new(f, 0, 0, n));
        let unannounced = npars.filter(|code| *code != Code::NON_STANDARD_FIELD);
        let codes = unannounced.map(Code::number).collect();
        let meaning = with_list(random, codes);
        cases.push(told(random, &meaning).due(10));
    }
    cases
}

fn non_standard_too_long(random: &mut Random) -> Vec<Case> {
    let mut cases = Vec::new();
    for length in 60..=MOST_LENT {
        let field = non_standard_field(random, length);
        let meaning = minimal(random, 5).announcing(field).meaning();
        cases.push(told(random, &meaning).due(10));
    }
    cases
}

fn no_list(random: &mut Random) -> Vec<Case> {
    let mut cases = Vec::new();
    for revision in 0..=15 {
        for kind in WITH_FIELDS.into_iter().chain(BARE) {
            let meaning = Meaning {
                kind,
                revision,
                ..Meaning::default()
            };
            cases.push(told(random, &meaning).due(0));
        }
    }
    cases
}
