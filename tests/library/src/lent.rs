//! All that is lent to the library's calls, kept together for tests that hold them to the documents.

use reference::calls::held_chart;
use reference::encoding::{encode, MAX_WORDS};
use reference::memory::{Memory, JUNK};

use crate::{files, Record, Reply, Report, Settings, LIBRARY};

/// More than any listing or path takes: into as many bytes it is written without being measured.
pub const SPACE: usize = 24_576;

/// Verdicts by their codes.
pub const OPEN: u32 = 0;
pub const SAFE: u32 = 1;
pub const ALARM: u32 = 2;

pub const SEP: Settings = Settings { merge: 0, stop: 0, order: 0 };
/// An unspecific value.
pub const ANY: i32 = 32_768;

/// In a byte that no call has written, unless it wrote just that.
const UNTOUCHED: u8 = 0xA5;

#[derive(Clone, Debug, PartialEq, Eq)]
pub struct Lent {
    pub chart: Vec<i32>,
    pub record: Record,
    pub table: Vec<i32>,
    pub list: Vec<i32>,
}

impl Lent {
    /// A chart as read, with words before the first begin.
    pub fn new(file: &[u8], table: usize, list: usize) -> Self {
        let mut chart = vec![0; MAX_WORDS];
        assert_eq!((LIBRARY.read)(file, &mut chart).number, 0);
        Lent { chart, record: Record::NONE, table: vec![JUNK; table], list: vec![JUNK; list] }
    }

    /// Case A after three iterations, with room for eight slots.
    pub fn underway() -> Self {
        let mut lent = Lent::new(files::case_a(), 48, 8);
        assert_eq!((lent.begin(SEP, 8, 0), lent.run(3)), (0, 0));
        lent
    }

    pub fn begin(&mut self, settings: Settings, capacity: i32, budget: i32) -> u32 {
        let Lent { chart, record, table, list } = self;
        let called = (LIBRARY.begin)(chart, settings, capacity, budget, *record, table, list);
        *record = called.record;
        assert_eq!((called.reply.line, called.reply.length), (0, 0));
        called.reply.number
    }

    pub fn run(&mut self, budget: i32) -> u32 {
        let Lent { chart, record, table, list } = self;
        let called = (LIBRARY.run)(chart, budget, *record, table, list);
        *record = called.record;
        called.reply.number
    }

    /// The number answered, and the text that is written into so many bytes.
    pub fn listing(&self, space: usize) -> (u32, Vec<u8>) {
        self.report(LIBRARY.listing, space)
    }

    pub fn path(&self, space: usize) -> (u32, Vec<u8>) {
        self.report(LIBRARY.path, space)
    }

    fn report(&self, call: Report, space: usize) -> (u32, Vec<u8>) {
        written(space, |bytes| call(&self.chart, self.record, &self.table, &self.list, bytes))
    }
}

/// The number that a search answers, and the text that is written into so many bytes.
pub fn search(chart: &[i32], bound: i32, space: usize) -> (u32, Vec<u8>) {
    written(space, |bytes| (LIBRARY.search)(chart, bound, bytes))
}

fn written(space: usize, call: impl FnOnce(&mut [u8]) -> Reply) -> (u32, Vec<u8>) {
    let mut bytes = vec![UNTOUCHED; space];
    let Reply { number, line, length } = call(&mut bytes);
    assert_eq!(line, 0);
    assert!(number == 0 || length == 0, "a refused call has no length");
    assert!(bytes[length..].iter().all(|&byte| byte == UNTOUCHED), "bytes past the end");
    bytes.truncate(length);
    (number, bytes)
}

/// The words of the chart that a file reads to, and no more.
pub fn words(file: &[u8]) -> Vec<i32> {
    let words = Lent::new(file, 0, 0).chart;
    let chart = held_chart(&words).expect("the chart is as it was read");
    words[..encode(&chart).len()].to_vec()
}

impl From<Memory> for Lent {
    fn from(memory: Memory) -> Self {
        let Memory { chart, table, waitlist, record } = memory;
        Lent { chart, record: Record::from(record), table, list: waitlist }
    }
}
