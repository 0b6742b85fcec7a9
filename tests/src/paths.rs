//! What few path calls meet and much can go wrong at; for tests alone.

use std::collections::BTreeSet;

use crate::analysis::{Analysis, Order, Verdict, MAX_CAPACITY};
use crate::calls::{held_analysis, held_chart, is_record_in_form};
use crate::chart::{Chart, EdgeId};
use crate::listing::path;
use crate::memory::Memory;

#[derive(Clone, Copy, Debug, PartialEq, Eq, PartialOrd, Ord)]
pub enum PathCorner {
    /// Refused for one reason alone.
    Alone(u32),
    /// Refused by the first number, though the second would apply too.
    Before(u32, u32),
    /// Refused by 24; the verdict by its word.
    Without(&'static str),
    /// Just the bytes that the path takes, or one fewer, and nothing else to refuse it for.
    Bytes { is_short: bool },
    /// A path of so many slots at least, and fewer than the next number of `LENGTHS`.
    Slots(usize),
    /// Slots between two of the path, in number, are not on it.
    LeavesOut,
    /// The waitlist ends with another slot than it begins with; by the order's word.
    Next(&'static str),
    /// A slot was brought by one of its own location.
    OwnLocation,
    /// A slot was widened since by another slot or edge than the one shown.
    JoinedInto,
    /// What raised the alarm.
    Alarm(Cause),
}

#[derive(Clone, Copy, Debug, PartialEq, Eq, PartialOrd, Ord)]
pub enum Cause {
    /// The start is an error location.
    Start,
    Error,
    Overrun,
}

/// A path's refusals in their order.
pub const REFUSALS: [u32; 5] = [20, 14, 21, 24, 15];
const LENGTHS: [usize; 7] = [1, 2, 3, 4, 16, 65, MAX_CAPACITY];
/// No path has fewer bytes: a location's name has one at least.
const SHORTEST: usize = b"path\tsep\t0\n0\t0\ta\tw\n".len();

/// Every refusal that applies, each judged by itself as far as it can be, in their order: the first is
/// answered. Without a chart or enough words 21 is judged by the record alone, and 15 by what any path takes.
pub fn refusals(lent: &Memory, space: usize) -> Vec<u32> {
    let record = &lent.record;
    let chart = held_chart(&lent.chart);
    let capacity = record.capacity as usize;
    let is_short =
        lent.table.len() < capacity * lent.slot_width() || lent.waitlist.len() < capacity;
    let analysis = match (&chart, is_short) {
        (Ok(chart), false) => {
            held_analysis(chart, &lent.table, &lent.waitlist, record).map(Some).map_err(|_| ())
        }
        _ => is_record_in_form(record).then_some(None).ok_or(()),
    };
    let length = match (&chart, &analysis) {
        (Ok(chart), Ok(Some(analysis))) if analysis.verdict == Verdict::Alarm => {
            path(chart, analysis).len()
        }
        _ => SHORTEST,
    };
    let applies = |number: u32| match number {
        20 => chart.is_err(),
        14 => is_short,
        21 => analysis.is_err(),
        24 => record.verdict != Verdict::Alarm,
        _ => space < length,
    };
    REFUSALS.into_iter().filter(|&number| applies(number)).collect()
}

/// What a path call meets in what it is lent.
pub fn path_corners_of(lent: &Memory, space: usize) -> BTreeSet<PathCorner> {
    let mut corners = BTreeSet::new();
    let refusals = refusals(lent, space);
    match refusals[..] {
        [] => {}
        [alone] => corners.extend([PathCorner::Alone(alone)]),
        [first, ref others @ ..] => {
            corners.extend(others.iter().map(|&other| PathCorner::Before(first, other)));
        }
    }
    if refusals.first() == Some(&24) {
        corners.insert(PathCorner::Without(lent.record.verdict.word()));
    }
    if !refusals.iter().any(|&number| number != 15) {
        let chart = held_chart(&lent.chart).expect("20 does not apply");
        let analysis = held_analysis(&chart, &lent.table, &lent.waitlist, &lent.record)
            .expect("neither 14 nor 21 applies");
        let length = path(&chart, &analysis).len();
        if (length - 1..=length).contains(&space) {
            corners.insert(PathCorner::Bytes { is_short: space < length });
        }
        if refusals.is_empty() {
            corners.extend(alarm_corners_of(&chart, &analysis));
        }
    }
    corners
}

/// What the path to an alarm meets; nothing without an alarm.
pub fn alarm_corners_of(chart: &Chart, analysis: &Analysis) -> BTreeSet<PathCorner> {
    let mut corners = BTreeSet::new();
    if analysis.verdict != Verdict::Alarm {
        return corners;
    }
    let (path, reached) = (analysis.path(), &analysis.reached);
    let least = LENGTHS.into_iter().rfind(|&length| length <= path.len());
    corners.extend(least.map(PathCorner::Slots));
    if path.windows(2).any(|pair| pair[1].0 > pair[0].0 + 1) {
        corners.insert(PathCorner::LeavesOut);
    }
    if analysis.waitlist.next(Order::Old) != analysis.waitlist.next(Order::New) {
        corners.insert(PathCorner::Next(analysis.settings.order.word()));
    }
    if path.windows(2).any(|pair| reached.row(pair[0])[0] == reached.row(pair[1])[0]) {
        corners.insert(PathCorner::OwnLocation);
    }
    if path.iter().any(|slot| slot.0 > 0 && analysis.joined_into.contains(slot)) {
        corners.insert(PathCorner::JoinedInto);
    }
    corners.insert(PathCorner::Alarm(cause(chart, analysis.edge)));
    corners
}

fn cause(chart: &Chart, edge: Option<EdgeId>) -> Cause {
    match edge.map(|edge| chart.location(chart.edge(edge).to).is_error) {
        None => Cause::Start,
        Some(true) => Cause::Error,
        Some(false) => Cause::Overrun,
    }
}

/// Every corner that `path_corners_of` gives.
pub fn path_corners() -> Vec<PathCorner> {
    // The words do not say what was joined into a slot.
    let mut corners = alarm_corners();
    corners.retain(|&corner| corner != PathCorner::JoinedInto);
    for (place, &number) in REFUSALS.iter().enumerate() {
        corners.push(PathCorner::Alone(number));
        let later = &REFUSALS[place + 1..];
        corners.extend(later.iter().map(|&later| PathCorner::Before(number, later)));
    }
    let others = [Verdict::Safe, Verdict::Full, Verdict::Open];
    corners.extend(others.map(|verdict| PathCorner::Without(verdict.word())));
    corners.extend([true, false].map(|is_short| PathCorner::Bytes { is_short }));
    corners
}

/// Every corner that `alarm_corners_of` gives.
pub fn alarm_corners() -> Vec<PathCorner> {
    let mut corners = vec![PathCorner::LeavesOut, PathCorner::OwnLocation, PathCorner::JoinedInto];
    corners.extend(LENGTHS.map(PathCorner::Slots));
    corners.extend(Order::ALL.map(|order| PathCorner::Next(order.word())));
    corners.extend([Cause::Start, Cause::Error, Cause::Overrun].map(PathCorner::Alarm));
    corners
}
