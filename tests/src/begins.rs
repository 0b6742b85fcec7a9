//! What few begin calls meet and much can go wrong at; for tests alone.

use std::collections::BTreeSet;

use crate::analysis::{Analysis, Settings, Verdict};
use crate::calls::{advanced, begun, held_chart};
use crate::memory::Memory;

/// What a begin call asks for.
#[derive(Clone, Copy, Debug)]
pub struct Begin {
    pub settings: Settings,
    pub capacity: i32,
    pub budget: i32,
}

#[derive(Clone, Copy, Debug, PartialEq, Eq, PartialOrd, Ord)]
pub enum BeginCorner {
    /// Refused for one reason alone.
    Alone(u32),
    /// Refused by the first number, though the second would apply too.
    Before(u32, u32),
    /// A budget at a limit, the capacity and the settings permitted.
    AtLimit(i32),
    /// Just the words that the capacity takes, or one fewer, and enough of the others.
    Words { lent: Buffer, is_short: bool },
    /// Goes through over an analysis of which a run would answer this number.
    Over { run: u32, iterates: bool },
    /// Goes through; the verdict by its word.
    Spent { budget: Spent, verdict: &'static str },
}

#[derive(Clone, Copy, Debug, PartialEq, Eq, PartialOrd, Ord)]
pub enum Buffer {
    Table,
    Waitlist,
}

/// What became of a budget.
#[derive(Clone, Copy, Debug, PartialEq, Eq, PartialOrd, Ord)]
pub enum Spent {
    /// There was none.
    Zero,
    /// An alarm at once had no use for it.
    Untouched,
    Part,
    All,
}

/// A begin's refusals in their order.
const REFUSALS: [u32; 5] = [11, 12, 13, 20, 14];
/// The least and the highest budget, what is next to them, and the least and the highest word.
const LIMITS: [i32; 6] = [-1, 0, 60_000, 60_001, i32::MIN, i32::MAX];
/// What a run can say of an analysis beside a chart in form.
const RUN_ANSWERS: [u32; 5] = [0, 14, 21, 22, 23];

/// Every refusal that applies, each judged by itself, in their order: the first is answered.
pub fn refusals(begin: Begin, lent: &Memory) -> Vec<u32> {
    let Begin { settings, capacity, budget } = begin;
    let applies = |number: u32| match number {
        11 => !(1..=256).contains(&capacity),
        12 => !settings.is_sound(),
        13 => !(0..=60_000).contains(&budget),
        20 => held_chart(&lent.chart).is_err(),
        _ => missing(begin, lent).iter().any(|&(_, missing)| missing > 0),
    };
    REFUSALS.into_iter().filter(|&number| applies(number)).collect()
}

/// How many words each buffer lacks, below 0 where some are left.
fn missing(begin: Begin, lent: &Memory) -> [(Buffer, i64); 2] {
    let missing =
        |words: &[i32], each: usize| i64::from(begin.capacity) * each as i64 - words.len() as i64;
    [
        (Buffer::Table, missing(&lent.table, lent.slot_width())),
        (Buffer::Waitlist, missing(&lent.waitlist, 1)),
    ]
}

/// What a begin meets in what it is lent.
pub fn begin_corners_of(begin: Begin, lent: &Memory) -> BTreeSet<BeginCorner> {
    let Begin { settings, capacity, budget } = begin;
    let refusals = refusals(begin, lent);
    let mut corners = BTreeSet::new();
    match refusals[..] {
        [] => {}
        [alone] => corners.extend([BeginCorner::Alone(alone)]),
        [first, ref others @ ..] => {
            corners.extend(others.iter().map(|&other| BeginCorner::Before(first, other)));
        }
    }
    if LIMITS.contains(&budget) && !refusals.iter().any(|number| [11, 12].contains(number)) {
        corners.insert(BeginCorner::AtLimit(budget));
    }
    if refusals.iter().all(|&number| number == 14) {
        let missing = missing(begin, lent);
        for (place, &(lent, missed)) in missing.iter().enumerate() {
            if (0..=1).contains(&missed) && missing[1 - place].1 <= 0 {
                corners.insert(BeginCorner::Words { lent, is_short: missed == 1 });
            }
        }
    }
    if let Ok(analysis) =
        begun(&lent.chart, settings, capacity, budget, &lent.table, &lent.waitlist)
    {
        let run = advanced(&lent.chart, 0, &lent.table, &lent.waitlist, &lent.record)
            .map_or_else(|refusal| refusal.reason as u32, |_| 0);
        corners.insert(BeginCorner::Over { run, iterates: analysis.iterations > 0 });
        corners.insert(spent_corner_of(budget as u32, &analysis));
    }
    corners
}

/// What a begin has made of its budget, by the analysis as it left it.
pub fn spent_corner_of(budget: u32, analysis: &Analysis) -> BeginCorner {
    let spent = match (budget, analysis.iterations) {
        (0, _) => Spent::Zero,
        (_, 0) => Spent::Untouched,
        (budget, iterations) if iterations < budget => Spent::Part,
        _ => Spent::All,
    };
    BeginCorner::Spent { budget: spent, verdict: analysis.verdict.word() }
}

/// Every corner that `begin_corners_of` gives.
pub fn begin_corners() -> Vec<BeginCorner> {
    let mut corners = spent_corners();
    for (place, &number) in REFUSALS.iter().enumerate() {
        corners.push(BeginCorner::Alone(number));
        let later = &REFUSALS[place + 1..];
        corners.extend(later.iter().map(|&later| BeginCorner::Before(number, later)));
    }
    corners.extend(LIMITS.map(BeginCorner::AtLimit));
    for both in [true, false] {
        let buffers = [Buffer::Table, Buffer::Waitlist];
        corners.extend(buffers.map(|lent| BeginCorner::Words { lent, is_short: both }));
        corners.extend(RUN_ANSWERS.map(|run| BeginCorner::Over { run, iterates: both }));
    }
    corners
}

/// Every corner that `spent_corner_of` gives.
pub fn spent_corners() -> Vec<BeginCorner> {
    let ended = [Verdict::Safe, Verdict::Alarm, Verdict::Full];
    let all = [
        (Spent::Zero, &[Verdict::Open, Verdict::Alarm][..]),
        (Spent::Untouched, &[Verdict::Alarm]),
        (Spent::Part, &ended),
        (Spent::All, &Verdict::ALL),
    ];
    all.into_iter()
        .flat_map(|(budget, verdicts)| {
            verdicts
                .iter()
                .map(move |verdict| BeginCorner::Spent { budget, verdict: verdict.word() })
        })
        .collect()
}
