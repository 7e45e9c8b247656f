//! The phases as a Mermaid state diagram, one arrow for each way by which a
//! phase is entered.

use super::effects::{Effect, Way};
use super::Column;
use crate::station::words::Phase;

pub fn printed(columns: &[&Column]) -> String {
    let mut lines = ["## Picture", "", "```mermaid", "stateDiagram-v2"]
        .map(str::to_string)
        .to_vec();
    let state = |phase: Phase| format!("    state \"{}\" as {phase:?}", phase.name());
    lines.extend(Phase::ALL.map(state));
    lines.push(format!("    [*] --> {:?}", Phase::Initial));
    for phase in Phase::ALL {
        lines.extend(columns.iter().flat_map(|column| arrows(column, phase)));
    }
    lines.push("```".to_string());
    lines.join("\n") + "\n"
}

/// The arrows that lead away from the phase.
fn arrows(column: &Column, phase: Phase) -> Vec<String> {
    let here = column.cells.iter().filter(|(of, _)| *of == phase);
    here.flat_map(|(_, ways)| ways)
        .filter_map(|way| arrow(column, phase, way))
        .collect()
}

fn arrow(column: &Column, phase: Phase, way: &Way) -> Option<String> {
    let Effect::Entered { next, sent, .. } = &way.effect else {
        return None;
    };
    let (verb, name) = (column.verb, way.apart.as_ref().unwrap_or(&column.name));
    let comma = if way.when.is_empty() { "" } else { ", " };
    let sent = if sent.is_empty() { "nothing" } else { sent };
    Some(format!(
        "    {phase:?} --> {next:?} : {verb} {name}{comma}{} / sends {sent}",
        way.when
    ))
}

#[cfg(test)]
mod tests {
    use super::super::samples::{column, entered, way};
    use super::*;

    #[test]
    fn an_arrow_for_each_way_that_enters_a_phase() {
        let apart = Way {
            apart: Some("NAK(2)".to_string()),
            ..way("", entered(Phase::Mode, "ACK(1)", 0))
        };
        let ways = vec![
            way("no choice", entered(Phase::Initial, "", 0)),
            apart,
            way("", Effect::Refused(10)),
        ];
        let column = column("a NAK", vec![(Phase::Pair, ways)]);
        let due = [
            "    Pair --> Initial : hears a NAK, no choice / sends nothing",
            "    Pair --> Mode : hears NAK(2) / sends ACK(1)",
        ];
        assert_eq!(arrows(&column, Phase::Pair), due);
        assert!(arrows(&column, Phase::Half).is_empty());
    }
}
