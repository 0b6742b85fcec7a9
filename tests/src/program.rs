//! The walk program: one go line and one chart in, one listing, path or refusal out; or one chart in, and what a
//! search finds out.

use crate::analysis::{check_budget, check_settings, Analysis, Merge, Order, Settings, Stop};
use crate::chart::Chart;
use crate::listing::{refusal_line, Report};
use crate::reader;
use crate::refusal::{Reason, Refusal};
use crate::search::{self, check_bound};
use crate::text;

/// The go line's end must be among so many bytes.
const MAX_GO_LINE: usize = 64;

#[derive(Clone, Copy, Debug, PartialEq, Eq)]
pub struct GoLine {
    pub settings: Settings,
    pub capacity: usize,
    pub budget: u32,
}

/// What the program's arguments ask it to print of an input.
#[derive(Clone, Copy, Debug, PartialEq, Eq)]
pub enum Asked<'a> {
    Report(Report),
    /// With the bound as it is written.
    Search(&'a [u8]),
}

/// Help, and what the program says of other arguments, are its own.
pub fn asked(arguments: &[impl AsRef<[u8]>]) -> Option<Asked<'_>> {
    match arguments {
        [] => Some(Asked::Report(Report::Listing)),
        [word] if word.as_ref() == b"path" => Some(Asked::Report(Report::Path)),
        [word, bound] if word.as_ref() == b"search" => Some(Asked::Search(bound.as_ref())),
        _ => None,
    }
}

impl Asked<'_> {
    pub fn respond(self, input: &[u8]) -> Vec<u8> {
        match self {
            Asked::Report(report) => respond(report, input),
            Asked::Search(bound) => search(bound, input).unwrap_or_else(refusal_line),
        }
    }
}

pub fn respond(report: Report, input: &[u8]) -> Vec<u8> {
    printed(report, &walk(input))
}

/// The bound is judged before the chart, as line 0: a number in form only, its size by 30.
fn search(bound: &[u8], file: &[u8]) -> Result<Vec<u8>, Refusal> {
    let bound = check_bound(text::number(bound).ok_or(Reason::Malformed)?)?;
    let chart = reader::read(file)?;
    Ok(search::search(&chart, bound)?)
}

/// A chart and its analysis, as far as the budget goes, or why there is none.
pub type Walked = Result<(Chart, Analysis), Refusal>;

pub fn printed(report: Report, walked: &Walked) -> Vec<u8> {
    let text = match walked {
        Ok((chart, analysis)) => report.text(chart, analysis).map_err(Refusal::from),
        Err(refusal) => Err(*refusal),
    };
    text.unwrap_or_else(refusal_line)
}

/// An input without its go line.
pub fn chart_part(input: &[u8]) -> &[u8] {
    let go_line = input.split_inclusive(|&byte| byte == text::LINE_FEED).next();
    &input[go_line.map_or(0, <[u8]>::len)..]
}

pub fn walk(input: &[u8]) -> Walked {
    let (go, file) = read_go_line(input)?;
    let chart = reader::read(file)?;
    let analysis = Analysis::begin(&chart, go.settings, go.capacity, go.budget);
    Ok((chart, analysis))
}

/// The go line and the chart file after it; every refusal is on line 0.
pub fn read_go_line(input: &[u8]) -> Result<(GoLine, &[u8]), Reason> {
    let head = &input[..input.len().min(MAX_GO_LINE)];
    let end = head.iter().position(|&byte| byte == text::LINE_FEED);
    if end.is_none() && input.len() > MAX_GO_LINE {
        return Err(Reason::TooLong);
    }
    let line = &head[..end.unwrap_or(head.len())];
    if !line.iter().all(|&byte| text::is_allowed(byte)) {
        return Err(Reason::BadByte);
    }
    let end = end.ok_or(Reason::MissingLineEnd)?;
    Ok((read_go_fields(line)?, &input[end + 1..]))
}

fn read_go_fields(line: &[u8]) -> Result<GoLine, Reason> {
    let fields: Vec<&[u8]> = text::fields(line).collect();
    let [go, merge, stop, order, capacity, budget] = fields[..] else {
        return Err(Reason::FieldCount);
    };
    if fields.iter().any(|field| field.is_empty()) {
        return Err(Reason::FieldCount);
    }

    if go != b"go" {
        return Err(Reason::Malformed);
    }
    let settings = Settings {
        merge: find_word(Merge::ALL, Merge::word, merge)?,
        stop: find_word(Stop::ALL, Stop::word, stop)?,
        order: find_word(Order::ALL, Order::word, order)?,
    };
    // Numbers in form only; their size is judged by 11 and 13.
    let capacity = text::number(capacity).ok_or(Reason::Malformed)?;
    let budget = text::number(budget).ok_or(Reason::Malformed)?;

    check_settings(settings, capacity)?;
    check_budget(budget)?;
    Ok(GoLine { settings, capacity: capacity as usize, budget: budget as u32 })
}

fn find_word<T: Copy, const N: usize>(
    all: [T; N],
    word: fn(T) -> &'static str,
    field: &[u8],
) -> Result<T, Reason> {
    all.into_iter().find(|&each| word(each).as_bytes() == field).ok_or(Reason::Malformed)
}
