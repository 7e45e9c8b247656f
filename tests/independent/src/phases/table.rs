//! A kind of event as a table: a row for each phase, a column for each event,
//! and in a cell the reply and the next phase. A cell stays empty where the
//! event is not in the station's table; a phase that has empty cells alone has
//! no row.

use super::effects::{Effect, Way};
use super::{Column, Walked};
use crate::station::number::{NOT_IN_TABLE, SUCCESS};
use crate::station::words::Phase;

pub fn printed(walk: &Walked) -> String {
    let (shown, never): (Vec<&Column>, Vec<&Column>) =
        walk.columns.iter().partition(|column| is_met(column));
    let heads = shown.iter().map(|column| column.name.clone());
    let cells = |phase: Phase| shown.iter().map(move |column| text(column, phase));
    let has_some = |phase: &Phase| cells(*phase).any(|text| !text.is_empty());
    let phases = Phase::ALL.into_iter().filter(has_some);
    let mut lines = vec![
        format!("## {}", walk.title),
        String::new(),
        row("phase", heads),
        "|---".repeat(shown.len() + 1) + "|",
    ];
    lines.extend(phases.map(|phase| row(phase.name(), cells(phase))));
    lines.push(String::new());
    let line = |column: &Column| format!("In no phase: {}.\n", column.name);
    lines.extend(never.into_iter().map(line));
    lines.join("\n") + "\n"
}

fn row(first: &str, others: impl Iterator<Item = String>) -> String {
    let others: String = others.map(|text| format!(" {text} |")).collect();
    format!("| {first} |{others}")
}

fn is_met(column: &Column) -> bool {
    Phase::ALL
        .iter()
        .any(|phase| !text(column, *phase).is_empty())
}

/// What stands in the cell of this phase.
fn text(column: &Column, phase: Phase) -> String {
    let here = column.cells.iter().filter(|(of, _)| *of == phase);
    let told: Vec<String> = here.flat_map(|(_, ways)| ways).filter_map(told).collect();
    told.join("<br>")
}

fn told(way: &Way) -> Option<String> {
    let done = match &way.effect {
        Effect::Refused(NOT_IN_TABLE) => return None,
        Effect::Refused(number) => number.to_string(),
        Effect::Entered { next, sent, number } => {
            let reply = match (*number, sent.is_empty()) {
                (SUCCESS, true) => "nothing".to_string(),
                (SUCCESS, false) => sent.clone(),
                (number, true) => number.to_string(),
                (number, false) => format!("{number} and {sent}"),
            };
            format!("{reply}, {}", next.name())
        }
    };
    let conditions = [way.apart.as_deref().unwrap_or(""), &way.when];
    let conditions: Vec<&str> = conditions.into_iter().filter(|c| !c.is_empty()).collect();
    Some(match conditions.is_empty() {
        true => done,
        false => format!("{}: {done}", conditions.join(", ")),
    })
}

#[cfg(test)]
mod tests {
    use super::super::samples::{column, entered, way};
    use super::*;

    #[test]
    fn a_cell_has_each_way_and_is_empty_for_what_is_not_in_the_table() {
        let ways = vec![
            way("no choice", entered(Phase::Initial, "", 11)),
            way("a choice", entered(Phase::Proposed, "MS", SUCCESS)),
        ];
        let cells = vec![
            (Phase::Traded, ways),
            (
                Phase::Pair,
                vec![way("", entered(Phase::Half, "", SUCCESS))],
            ),
            (Phase::Half, vec![way("", Effect::Refused(NOT_IN_TABLE))]),
            (Phase::Mode, vec![way("", Effect::Refused(9))]),
        ];
        let column = column("CL", cells);
        let due = "no choice: 11, Initial<br>a choice: MS, Proposed";
        assert_eq!(text(&column, Phase::Traded), due);
        assert_eq!(text(&column, Phase::Pair), "nothing, Half");
        assert_eq!(text(&column, Phase::Half), "");
        assert_eq!(text(&column, Phase::Mode), "9");
    }

    #[test]
    fn what_differs_within_a_cause_is_told_apart() {
        let apart = Way {
            apart: Some("NAK(2)".to_string()),
            ..way("a choice", entered(Phase::Initial, "", SUCCESS))
        };
        let due = "NAK(2), a choice: nothing, Initial";
        assert_eq!(told(&apart), Some(due.to_string()));
    }

    #[test]
    fn an_event_of_no_phase_has_no_column_and_a_phase_of_no_event_no_row() {
        let acts = vec![way("", entered(Phase::Mode, "", SUCCESS))];
        let refused = vec![way("", Effect::Refused(NOT_IN_TABLE))];
        let walk = Walked {
            title: "Messages",
            columns: vec![
                column("ACK(1)", vec![(Phase::Proposed, acts)]),
                column("ACK(2)", vec![(Phase::Proposed, refused)]),
            ],
        };
        let printed = printed(&walk);
        let due = "## Messages\n\n| phase | ACK(1) |\n|---|---|\n| Proposed | nothing, Mode |\n\n\
            In no phase: ACK(2).\n\n";
        assert_eq!(printed, due);
    }
}
