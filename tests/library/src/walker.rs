//! The reference walker's calls under the library's signatures, to compare and to time the two.

use reference::analysis::{self, Merge, Order, Stop, Verdict};
use reference::calls::{self, Answer};

use crate::{Called, Calls, Record, Reply, Settings};

pub const WALKER: Calls = Calls { read, begin, run, listing, path, search };

/// By their codes.
const MERGES: [Merge; 2] = [Merge::Sep, Merge::Join];
const STOPS: [Stop; 2] = [Stop::Sep, Stop::Join];
const ORDERS: [Order; 2] = [Order::Old, Order::New];
const VERDICTS: [Verdict; 4] = [Verdict::Open, Verdict::Safe, Verdict::Alarm, Verdict::Full];

pub fn read(text: &[u8], words: &mut [i32]) -> Reply {
    Reply::from(calls::read(text, words))
}

pub fn begin(
    chart: &[i32],
    settings: Settings,
    capacity: i32,
    budget: i32,
    record: Record,
    table: &mut [i32],
    list: &mut [i32],
) -> Called {
    // The walker's own settings cannot be others than those there are.
    let Some(settings) = settings.named() else {
        return Called { reply: Reply::from(Answer::refused(6, 0)), record };
    };
    let mut held = held(&record);
    let answer = calls::begin(chart, settings, capacity, budget, table, list, &mut held);
    called(record, answer, held)
}

pub fn run(
    chart: &[i32],
    budget: i32,
    record: Record,
    table: &mut [i32],
    list: &mut [i32],
) -> Called {
    let mut held = held(&record);
    called(record, calls::run(chart, budget, table, list, &mut held), held)
}

pub fn listing(
    chart: &[i32],
    record: Record,
    table: &[i32],
    list: &[i32],
    space: &mut [u8],
) -> Reply {
    let (answer, length) = calls::listing(chart, table, list, &held(&record), space);
    Reply { length, ..Reply::from(answer) }
}

pub fn path(chart: &[i32], record: Record, table: &[i32], list: &[i32], space: &mut [u8]) -> Reply {
    let (answer, length) = calls::path(chart, table, list, &held(&record), space);
    Reply { length, ..Reply::from(answer) }
}

pub fn search(chart: &[i32], bound: i32, space: &mut [u8]) -> Reply {
    let (answer, length) = calls::search(chart, bound, space);
    Reply { length, ..Reply::from(answer) }
}

/// A refused call leaves the record as it was lent, codes that name nothing too.
fn called(lent: Record, answer: Answer, held: calls::Record) -> Called {
    let record = if answer == Answer::DONE { Record::from(held) } else { lent };
    Called { reply: Reply::from(answer), record }
}

/// The walker's record. A code that names nothing puts an analysis out of form, for which an edge
/// that no chart has stands here: nothing but 21 looks at it. So does a count beyond 32 bits.
pub fn held(record: &Record) -> calls::Record {
    let count = |count: usize| u32::try_from(count).unwrap_or(u32::MAX);
    let settings = Settings { merge: record.merge, stop: record.stop, order: record.order };
    let named = settings.named().zip(named(VERDICTS, record.verdict));
    let (settings, verdict) = named.unwrap_or_else(|| {
        (analysis::Settings { merge: MERGES[0], stop: STOPS[0], order: ORDERS[0] }, VERDICTS[0])
    });
    calls::Record {
        settings,
        capacity: record.capacity,
        iterations: record.iterations,
        used: count(record.used),
        waiting: count(record.waiting),
        verdict,
        edge: if named.is_some() { count(record.edge) } else { u32::MAX },
    }
}

fn named<T: Copy, const N: usize>(all: [T; N], code: u32) -> Option<T> {
    all.get(code as usize).copied()
}

fn code<T: PartialEq, const N: usize>(all: [T; N], one: T) -> u32 {
    all.iter().position(|each| *each == one).expect("each has a code") as u32
}

impl Settings {
    /// The walker's settings, unless a code names nothing.
    pub fn named(self) -> Option<analysis::Settings> {
        Some(analysis::Settings {
            merge: named(MERGES, self.merge)?,
            stop: named(STOPS, self.stop)?,
            order: named(ORDERS, self.order)?,
        })
    }
}

impl From<analysis::Settings> for Settings {
    fn from(settings: analysis::Settings) -> Self {
        Settings {
            merge: code(MERGES, settings.merge),
            stop: code(STOPS, settings.stop),
            order: code(ORDERS, settings.order),
        }
    }
}

impl From<calls::Record> for Record {
    fn from(record: calls::Record) -> Self {
        let Settings { merge, stop, order } = Settings::from(record.settings);
        Record {
            merge,
            stop,
            order,
            capacity: record.capacity,
            iterations: record.iterations,
            used: record.used as usize,
            waiting: record.waiting as usize,
            verdict: code(VERDICTS, record.verdict),
            edge: record.edge as usize,
        }
    }
}

impl From<Answer> for Reply {
    fn from(answer: Answer) -> Self {
        Reply { number: answer.number, line: answer.line as usize, length: 0 }
    }
}
