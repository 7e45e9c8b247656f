//! The phases of the probe's station as the page docs/PHASES.md shows them:
//! every phase, event and setting is put to the probe, and a table for each
//! kind of event and a Mermaid state diagram show what it did.

mod causes;
mod effects;
mod picture;
#[cfg(test)]
mod samples;
mod table;

use crate::probe::Probe;
use crate::station::words::Phase;
use causes::{sections, Cause, Section};
use effects::{ways, Way};

/// What came of one cause in each phase.
struct Column {
    /// What the station does with it: it starts, it hears.
    verb: &'static str,
    name: String,
    cells: Vec<(Phase, Vec<Way>)>,
}

/// The causes of one kind.
struct Walked {
    title: &'static str,
    columns: Vec<Column>,
}

/// The tables and behind them the picture, or why the probe's replies make
/// none.
pub fn tables_and_picture(probe: &mut Probe) -> Result<String, String> {
    let mut walks = Vec::new();
    for section in sections() {
        walks.push(walked(probe, section)?);
    }
    let tables: String = walks.iter().map(table::printed).collect();
    let columns: Vec<&Column> = walks.iter().flat_map(|walk| &walk.columns).collect();
    Ok(tables + &picture::printed(&columns))
}

fn walked(probe: &mut Probe, section: Section) -> Result<Walked, String> {
    let mut columns = Vec::new();
    for cause in section.causes {
        columns.push(column(probe, cause)?);
    }
    Ok(Walked {
        title: section.title,
        columns,
    })
}

fn column(probe: &mut Probe, cause: Cause) -> Result<Column, String> {
    let mut cells = Vec::new();
    for phase in Phase::ALL {
        cells.push((phase, ways(probe, phase, &cause)?));
    }
    Ok(Column {
        verb: cause.verb,
        name: cause.name,
        cells,
    })
}
