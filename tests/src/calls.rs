//! The calls on lent words. Each judges its own case first, in the stated
//! order, and a refused one changes nothing.

use std::collections::BTreeSet;

use crate::analysis::{
    check_budget, check_settings, location_of, Analysis, Origin, Reached, Settings, Verdict,
    Waitlist, MAX_ITERATIONS,
};
use crate::chart::{Chart, EdgeId, SlotId, ORIGIN_WORDS};
use crate::domain::TOP;
use crate::encoding::{decode, encode};
use crate::form::is_readable;
use crate::listing::Report;
use crate::reader;
use crate::refusal::{Reason, Refusal};
use crate::search::{self, check_bound};

/// 0 and line 0 from a call that goes through, else the refusal's number and line.
#[derive(Clone, Copy, Debug, PartialEq, Eq)]
pub struct Answer {
    pub number: u32,
    pub line: u32,
}

/// What goes with an analysis from call to call, beside the table and the waitlist.
#[derive(Clone, Copy, Debug, PartialEq, Eq)]
pub struct Record {
    pub settings: Settings,
    pub capacity: u32,
    pub iterations: u32,
    /// Slots in use.
    pub used: u32,
    /// Slots on the waitlist.
    pub waiting: u32,
    pub verdict: Verdict,
    /// The edge that raised the alarm, or 0.
    pub edge: u32,
}

/// Stands in slot 0, which nothing brought, where others have their parent.
const NO_PARENT: i32 = 65_535;

/// Fills `words` with the encoding of the chart that `file` reads to.
pub fn read(file: &[u8], words: &mut [i32]) -> Answer {
    Answer::from(reader::read(file).and_then(|chart| {
        let encoded = encode(&chart);
        words.get_mut(..encoded.len()).ok_or(Reason::TooFewWords)?.copy_from_slice(&encoded);
        Ok(())
    }))
}

/// Begins an analysis anew, whatever the lent words and the record hold, and iterates until a verdict
/// or the end of the budget; with a budget of 0 it is only started.
pub fn begin(
    chart: &[i32],
    settings: Settings,
    capacity: i32,
    budget: i32,
    table: &mut [i32],
    waitlist: &mut [i32],
    record: &mut Record,
) -> Answer {
    let begun = begun(chart, settings, capacity, budget, table, waitlist);
    Answer::from(begun.map(|analysis| store(&analysis, table, waitlist, record)))
}

/// The analysis that a begin leaves, which tells also what it has met. It has no use for the record,
/// and of the words only their number counts.
pub fn begun(
    chart: &[i32],
    settings: Settings,
    capacity: i32,
    budget: i32,
    table: &[i32],
    waitlist: &[i32],
) -> Result<Analysis, Refusal> {
    check_settings(settings, i64::from(capacity))?;
    check_budget(i64::from(budget))?;
    let chart = held_chart(chart)?;
    check_words(&chart, capacity as u32, table, waitlist)?;
    Ok(Analysis::begin(&chart, settings, capacity as usize, budget as u32))
}

/// Iterates until a verdict or the end of the budget.
pub fn run(
    chart: &[i32],
    budget: i32,
    table: &mut [i32],
    waitlist: &mut [i32],
    record: &mut Record,
) -> Answer {
    let advanced = advanced(chart, budget, table, waitlist, record);
    Answer::from(advanced.map(|analysis| store(&analysis, table, waitlist, record)))
}

/// The analysis that a run leaves, which tells also what it has met.
pub fn advanced(
    chart: &[i32],
    budget: i32,
    table: &[i32],
    waitlist: &[i32],
    record: &Record,
) -> Result<Analysis, Refusal> {
    check_budget(i64::from(budget))?;
    let chart = held_chart(chart)?;
    let mut analysis = held_analysis(&chart, table, waitlist, record)?;
    if record.verdict != Verdict::Open {
        return Err(Reason::Finished.into());
    }
    if record.iterations == MAX_ITERATIONS {
        return Err(Reason::IterationLimit.into());
    }
    analysis.run(&chart, budget as u32);
    Ok(analysis)
}

/// Writes the listing to the beginning of `space`; answers also its length, 0 when refused.
pub fn listing(
    chart: &[i32],
    table: &[i32],
    waitlist: &[i32],
    record: &Record,
    space: &mut [u8],
) -> (Answer, usize) {
    write_report(Report::Listing, chart, table, waitlist, record, space)
}

/// As `listing`, but writes the path to the alarm.
pub fn path(
    chart: &[i32],
    table: &[i32],
    waitlist: &[i32],
    record: &Record,
    space: &mut [u8],
) -> (Answer, usize) {
    write_report(Report::Path, chart, table, waitlist, record, space)
}

fn write_report(
    report: Report,
    chart: &[i32],
    table: &[i32],
    waitlist: &[i32],
    record: &Record,
    space: &mut [u8],
) -> (Answer, usize) {
    let written = (|| {
        let chart = held_chart(chart)?;
        let analysis = held_analysis(&chart, table, waitlist, record)?;
        write_text(&report.text(&chart, &analysis)?, space)
    })();
    answered(written)
}

/// Writes the shortest counterexample, or that there is none of at most so many moves, to the beginning
/// of `space`; answers also the length.
pub fn search(chart: &[i32], bound: i32, space: &mut [u8]) -> (Answer, usize) {
    let written = (|| {
        let bound = check_bound(i64::from(bound))?;
        let chart = held_chart(chart)?;
        write_text(&search::search(&chart, bound)?, space)
    })();
    answered(written)
}

/// 15, or how long the text is.
fn write_text(text: &[u8], space: &mut [u8]) -> Result<usize, Reason> {
    space.get_mut(..text.len()).ok_or(Reason::ListingSpace)?.copy_from_slice(text);
    Ok(text.len())
}

fn answered(written: Result<usize, Reason>) -> (Answer, usize) {
    let answer = written.map(|_| ()).map_err(Refusal::from);
    (Answer::from(answer), written.unwrap_or(0))
}

/// The chart whose encoding begins `words`: 20 unless some file reads to it. Words that no chart
/// takes up are seen by encoding it again.
pub fn held_chart(words: &[i32]) -> Result<Chart, Reason> {
    decode(words)
        .filter(|chart| is_readable(chart) && words.starts_with(&encode(chart)))
        .ok_or(Reason::ChartForm)
}

/// The analysis in the lent words: 14, then 21.
pub fn held_analysis(
    chart: &Chart,
    table: &[i32],
    waitlist: &[i32],
    record: &Record,
) -> Result<Analysis, Reason> {
    check_words(chart, record.capacity, table, waitlist)?;
    if !is_in_form(chart, table, waitlist, record) {
        return Err(Reason::AnalysisForm);
    }
    Ok(load(chart, table, waitlist, record))
}

/// 14, by a capacity that may be of any size.
fn check_words(
    chart: &Chart,
    capacity: u32,
    table: &[i32],
    waitlist: &[i32],
) -> Result<(), Reason> {
    let capacity = u64::from(capacity);
    let table_words = capacity * chart.slot_width() as u64;
    if (table.len() as u64) < table_words || (waitlist.len() as u64) < capacity {
        return Err(Reason::TooFewWords);
    }
    Ok(())
}

/// Whether no clause of 21 applies, once the words lent are enough for the capacity.
fn is_in_form(chart: &Chart, table: &[i32], waitlist: &[i32], record: &Record) -> bool {
    is_in_form_but_for_origins(chart, table, waitlist, record)
        && (0..record.used as usize).all(|slot| has_origin(chart, table, slot))
}

/// Whether no clause of document 01's 21 applies, once the words lent are enough for the capacity.
pub fn is_in_form_but_for_origins(
    chart: &Chart,
    table: &[i32],
    waitlist: &[i32],
    record: &Record,
) -> bool {
    if !is_record_in_form(record) {
        return false;
    }
    let Record { capacity, used, waiting, .. } = *record;
    let width = chart.slot_width();
    let (used, waiting, capacity) = (used as usize, waiting as usize, capacity as usize);
    let (rows, unused_rows) = table[..capacity * width].split_at(used * width);
    let (slots, unused_slots) = waitlist[..capacity].split_at(waiting);

    rows.chunks_exact(width).all(|row| is_of_chart(chart, row))
        && are_distinct_and_used(slots, used)
        && unused_rows.iter().chain(unused_slots).all(|&word| word == 0)
        && record.edge as usize <= chart.edges.len()
}

/// Whether no clause of 21 applies that looks at the record alone.
pub fn is_record_in_form(record: &Record) -> bool {
    let Record { settings, capacity, iterations, used, waiting, verdict, edge } = *record;
    check_settings(settings, i64::from(capacity)).is_ok()
        && used <= capacity
        && waiting <= used
        && iterations <= MAX_ITERATIONS
        && (edge == 0 || verdict == Verdict::Alarm)
        && (verdict == Verdict::Safe) == (waiting == 0)
}

fn is_of_chart(chart: &Chart, row: &[i32]) -> bool {
    (0..chart.locations.len() as i32).contains(&row[0])
        && chart
            .variables
            .iter()
            .zip(&row[1..])
            .all(|(variable, &value)| value == TOP || variable.contains(value))
}

/// Whether a slot says that nothing brought it, if it is slot 0, or else which edge did, from an earlier
/// slot's location to its own.
fn has_origin(chart: &Chart, table: &[i32], slot: usize) -> bool {
    let words = |slot: usize| table[slot * chart.slot_width()..].split_at(chart.width());
    let (state, origin) = words(slot);
    let (parent, edge) = (origin[0], origin[1]);
    if slot == 0 {
        return (parent, edge) == (NO_PARENT, 0);
    }
    if !(0..slot as i32).contains(&parent) || !(1..=chart.edges.len() as i32).contains(&edge) {
        return false;
    }
    let (parent, _) = words(parent as usize);
    let edge = chart.edge(EdgeId(edge as usize));
    (edge.from, edge.to) == (location_of(parent), location_of(state))
}

fn are_distinct_and_used(slots: &[i32], used: usize) -> bool {
    let mut is_named = vec![false; used];
    slots.iter().all(|&slot| {
        usize::try_from(slot)
            .ok()
            .and_then(|slot| is_named.get_mut(slot))
            .is_some_and(|is_named| !std::mem::replace(is_named, true))
    })
}

/// The analysis that lent words in form stand for.
fn load(chart: &Chart, table: &[i32], waitlist: &[i32], record: &Record) -> Analysis {
    let mut reached = Reached::new(chart.width());
    for words in table.chunks_exact(chart.slot_width()).take(record.used as usize) {
        let (row, origin) = words.split_at(chart.width());
        let brought = |parent: i32| Origin {
            parent: SlotId(parent as usize),
            edge: EdgeId(origin[1] as usize),
        };
        reached.push(row, Some(origin[0]).filter(|&parent| parent != NO_PARENT).map(brought));
    }
    let mut waiting = Waitlist::new(record.capacity as usize);
    for &slot in &waitlist[..record.waiting as usize] {
        waiting.add(SlotId(slot as usize));
    }
    Analysis {
        settings: record.settings,
        capacity: record.capacity as usize,
        iterations: record.iterations,
        verdict: record.verdict,
        edge: Some(EdgeId(record.edge as usize)).filter(|edge| edge.0 > 0),
        reached,
        waitlist: waiting,
        corners: BTreeSet::new(),
        joined_into: BTreeSet::new(),
    }
}

/// Writes all words of the capacity, unused ones 0, and none past it.
fn store(analysis: &Analysis, table: &mut [i32], waitlist: &mut [i32], record: &mut Record) {
    let capacity = analysis.capacity;
    let reached = &analysis.reached;
    let width = reached.width() + ORIGIN_WORDS;
    let (rows, unused_rows) = table[..capacity * width].split_at_mut(reached.len() * width);
    for (words, (row, origin)) in rows.chunks_exact_mut(width).zip(reached.slots()) {
        let (state, words) = words.split_at_mut(row.len());
        state.copy_from_slice(row);
        let brought = |origin: Origin| [origin.parent.0 as i32, origin.edge.0 as i32];
        words.copy_from_slice(&origin.map_or([NO_PARENT, 0], brought));
    }
    unused_rows.fill(0);
    let (slots, unused_slots) = waitlist[..capacity].split_at_mut(analysis.waitlist.len());
    for (word, slot) in slots.iter_mut().zip(analysis.waitlist.slots()) {
        *word = slot.0 as i32;
    }
    unused_slots.fill(0);
    *record = Record {
        settings: analysis.settings,
        capacity: capacity as u32,
        iterations: analysis.iterations,
        used: reached.len() as u32,
        waiting: analysis.waitlist.len() as u32,
        verdict: analysis.verdict,
        edge: analysis.edge.map_or(0, |edge| edge.0 as u32),
    };
}

impl Answer {
    pub const DONE: Answer = Answer { number: 0, line: 0 };

    pub fn refused(number: u32, line: u32) -> Self {
        Answer { number, line }
    }
}

impl From<Result<(), Refusal>> for Answer {
    fn from(result: Result<(), Refusal>) -> Self {
        match result {
            Ok(()) => Answer::DONE,
            Err(refusal) => Answer::refused(refusal.reason as u32, refusal.line),
        }
    }
}
