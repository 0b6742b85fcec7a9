//! What the walk program prints: a listing, a path, a counterexample or that there is none, or one line for a refusal.

use std::io::Write;

use crate::analysis::{location_of, Analysis, Merge, Order, Settings, Stop, Verdict};
use crate::chart::{Chart, EdgeId, SlotId};
use crate::domain::TOP;
use crate::refusal::{Reason, Refusal};
use crate::search::Counterexample;

/// What to print of an analysis.
#[derive(Clone, Copy, Debug, PartialEq, Eq)]
pub enum Report {
    Listing,
    Path,
}

impl Report {
    /// A path leads to an alarm: 24 without one.
    pub fn text(self, chart: &Chart, analysis: &Analysis) -> Result<Vec<u8>, Reason> {
        match self {
            Report::Listing => Ok(listing(chart, analysis)),
            Report::Path if analysis.verdict == Verdict::Alarm => Ok(path(chart, analysis)),
            Report::Path => Err(Reason::NoAlarm),
        }
    }
}

pub fn listing(chart: &Chart, analysis: &Analysis) -> Vec<u8> {
    let mut text = Vec::new();
    write_listing(&mut text, chart, analysis).expect("a vector takes every write");
    text
}

/// How slot 0 led to the slot taken next.
pub fn path(chart: &Chart, analysis: &Analysis) -> Vec<u8> {
    let mut text = Vec::new();
    write_path(&mut text, chart, analysis).expect("a vector takes every write");
    text
}

/// The counterexample that was found, or that there is none of so many moves.
pub fn search_text(chart: &Chart, bound: usize, found: Option<&Counterexample>) -> Vec<u8> {
    let mut text = Vec::new();
    match found {
        None => writeln!(text, "none\t{bound}"),
        Some(found) => write_counterexample(&mut text, chart, found),
    }
    .expect("a vector takes every write");
    text
}

pub fn refusal_line(refusal: Refusal) -> Vec<u8> {
    format!("refused\t{}\t{}\n", refusal.reason as u32, refusal.line).into_bytes()
}

fn write_listing(text: &mut Vec<u8>, chart: &Chart, analysis: &Analysis) -> std::io::Result<()> {
    let Settings { merge, stop, order } = analysis.settings;
    writeln!(
        text,
        "walk\t{}\t{}\t{}\t{}\t{}\t{}\t{}",
        merge.word(),
        stop.word(),
        order.word(),
        analysis.verdict.word(),
        analysis.iterations,
        analysis.reached.len(),
        number(analysis.edge),
    )?;
    (0..analysis.reached.len()).try_for_each(|slot| write_slot(text, chart, analysis, SlotId(slot)))
}

fn write_path(text: &mut Vec<u8>, chart: &Chart, analysis: &Analysis) -> std::io::Result<()> {
    writeln!(text, "path\t{}\t{}", analysis.settings.merge.word(), number(analysis.edge))?;
    analysis.path().into_iter().try_for_each(|slot| {
        let origin = analysis.reached.origin(slot);
        write!(text, "{}\t", number(origin.map(|origin| origin.edge)))?;
        write_slot(text, chart, analysis, slot)
    })
}

fn write_counterexample(
    text: &mut Vec<u8>,
    chart: &Chart,
    found: &Counterexample,
) -> std::io::Result<()> {
    writeln!(text, "run\t{}", found.length())?;
    let moves = found.moves.iter().map(|(edge, state)| (Some(*edge), state));
    for (edge, state) in [(None, &found.start)].into_iter().chain(moves) {
        write!(text, "{}\t", number(edge))?;
        write_state(text, chart, state)?;
        writeln!(text)?;
    }
    // There is no state after it.
    found.overrun.map_or(Ok(()), |edge| writeln!(text, "{}", edge.0))
}

/// Edges count from 1, so that 0 says that there is none.
fn number(edge: Option<EdgeId>) -> usize {
    edge.map_or(0, |edge| edge.0)
}

fn write_slot(
    text: &mut Vec<u8>,
    chart: &Chart,
    analysis: &Analysis,
    slot: SlotId,
) -> std::io::Result<()> {
    write!(text, "{}\t", slot.0)?;
    write_state(text, chart, analysis.reached.row(slot))?;
    text.write_all(if analysis.waitlist.contains(slot) { b"\tw\n" } else { b"\t-\n" })
}

/// The location's name and the values.
fn write_state(text: &mut Vec<u8>, chart: &Chart, row: &[i32]) -> std::io::Result<()> {
    text.write_all(chart.location(location_of(row)).name.as_bytes())?;
    for &value in &row[1..] {
        match value {
            TOP => text.write_all(b"\t*")?,
            value => write!(text, "\t{value}")?,
        }
    }
    Ok(())
}

impl Merge {
    pub const ALL: [Merge; 2] = [Merge::Sep, Merge::Join];

    pub fn word(self) -> &'static str {
        match self {
            Merge::Sep => "sep",
            Merge::Join => "join",
        }
    }
}

impl Stop {
    pub const ALL: [Stop; 2] = [Stop::Sep, Stop::Join];

    pub fn word(self) -> &'static str {
        match self {
            Stop::Sep => "sep",
            Stop::Join => "join",
        }
    }
}

impl Order {
    pub const ALL: [Order; 2] = [Order::Old, Order::New];

    pub fn word(self) -> &'static str {
        match self {
            Order::Old => "old",
            Order::New => "new",
        }
    }
}

impl Verdict {
    pub const ALL: [Verdict; 4] = [Verdict::Safe, Verdict::Alarm, Verdict::Full, Verdict::Open];

    pub fn word(self) -> &'static str {
        match self {
            Verdict::Safe => "safe",
            Verdict::Alarm => "alarm",
            Verdict::Full => "room",
            Verdict::Open => "open",
        }
    }
}
