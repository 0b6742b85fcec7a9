//! Everything that is lent to the calls of one analysis, kept together for tests.

use crate::analysis::{Merge, Order, Settings, Stop, Verdict};
use crate::calls::{self, Answer, Record};
use crate::chart::{slot_width, Chart, MAX_VARIABLES};
use crate::encoding::encode;
use crate::listing::Report;

/// What no call may rely on, nor write past the capacity: words before the first begin.
pub const JUNK: i32 = -77;

const JUNK_RECORD: Record = Record {
    settings: Settings { merge: Merge::Sep, stop: Stop::Join, order: Order::New },
    capacity: 999,
    iterations: 99_999,
    used: 9_999,
    waiting: 99_999,
    verdict: Verdict::Full,
    edge: 999,
};

/// The answer of a search, which is lent the chart's words alone, and the text.
pub fn search(chart: &[i32], bound: i32, space: usize) -> (Answer, Vec<u8>) {
    written(space, |bytes| calls::search(chart, bound, bytes))
}

/// The text that a call writes into a space of so many bytes.
fn written(space: usize, call: impl FnOnce(&mut [u8]) -> (Answer, usize)) -> (Answer, Vec<u8>) {
    const UNTOUCHED: u8 = 0xA5;
    let mut bytes = vec![UNTOUCHED; space];
    let (answer, length) = call(&mut bytes);
    assert!(answer == Answer::DONE || length == 0, "a refused text has no length");
    assert!(
        bytes[length..].iter().all(|&byte| byte == UNTOUCHED),
        "bytes past a text's end are untouched"
    );
    bytes.truncate(length);
    (answer, bytes)
}

#[derive(Clone, Debug, PartialEq, Eq)]
pub struct Memory {
    pub chart: Vec<i32>,
    pub table: Vec<i32>,
    pub waitlist: Vec<i32>,
    pub record: Record,
}

impl Memory {
    /// Junk of the given sizes beside the encoded chart.
    pub fn new(chart: &Chart, table: usize, waitlist: usize) -> Self {
        Memory {
            chart: encode(chart),
            table: vec![JUNK; table],
            waitlist: vec![JUNK; waitlist],
            record: JUNK_RECORD,
        }
    }

    /// Checks also that a begin looks at nothing held but the chart: over junk it comes to the same.
    pub fn begin(&mut self, settings: Settings, capacity: i32, budget: i32) -> Answer {
        let begin =
            |chart: &[i32], table: &mut [i32], waitlist: &mut [i32], record: &mut Record| {
                calls::begin(chart, settings, capacity, budget, table, waitlist, record)
            };
        let mut junk = self.clone();
        junk.table.fill(JUNK);
        junk.waitlist.fill(JUNK);
        junk.record = JUNK_RECORD;
        let answer = self.call(begin);
        assert_eq!(junk.call(begin), answer);
        if answer == Answer::DONE {
            let (words, slots) = (capacity as usize * self.slot_width(), capacity as usize);
            assert_eq!(self.record, junk.record);
            assert_eq!(self.table[..words], junk.table[..words]);
            assert_eq!(self.waitlist[..slots], junk.waitlist[..slots]);
        }
        answer
    }

    pub fn run(&mut self, budget: i32) -> Answer {
        self.call(|chart, table, waitlist, record| {
            calls::run(chart, budget, table, waitlist, record)
        })
    }

    /// The answer and the listing, written into a space of so many bytes.
    pub fn listing(&self, space: usize) -> (Answer, Vec<u8>) {
        self.report(Report::Listing, space)
    }

    /// The answer and the path to the alarm.
    pub fn path(&self, space: usize) -> (Answer, Vec<u8>) {
        self.report(Report::Path, space)
    }

    pub fn report(&self, report: Report, space: usize) -> (Answer, Vec<u8>) {
        let call = match report {
            Report::Listing => calls::listing,
            Report::Path => calls::path,
        };
        written(space, |bytes| call(&self.chart, &self.table, &self.waitlist, &self.record, bytes))
    }

    /// Makes a call and checks what holds of all: refused, it changes nothing;
    /// else it changes nothing past the capacity and leaves unused words 0.
    fn call(
        &mut self,
        call: impl FnOnce(&[i32], &mut [i32], &mut [i32], &mut Record) -> Answer,
    ) -> Answer {
        let before = self.clone();
        let answer = call(&self.chart, &mut self.table, &mut self.waitlist, &mut self.record);
        if answer != Answer::DONE {
            assert!(*self == before, "a call that answers {answer:?} changes nothing");
            return answer;
        }
        let (width, capacity) = (self.slot_width(), self.record.capacity as usize);
        assert_eq!(self.table[capacity * width..], before.table[capacity * width..]);
        assert_eq!(self.waitlist[capacity..], before.waitlist[capacity..]);
        let unused_rows = &self.table[self.record.used as usize * width..capacity * width];
        let unused_slots = &self.waitlist[self.record.waiting as usize..capacity];
        assert!(unused_rows.iter().chain(unused_slots).all(|&word| word == 0));
        answer
    }

    /// The words of a slot. A chart out of form has as many variables as its first word says, as far as
    /// there can be so many.
    pub fn slot_width(&self) -> usize {
        let variables = self.chart.first().map_or(0, |&count| count.clamp(0, MAX_VARIABLES as i32));
        slot_width(variables as usize)
    }
}
