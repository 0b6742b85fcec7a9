//! What is measured: charts, and the calls made on each.

use std::hint::black_box;

use library::files::{self, Ring};
use library::{Calls, Record, Report, Settings, LIBRARY};
use reference::encoding::MAX_WORDS;
use reference::reader;
use reference::search::{check_size, MAX_BOUND};
use reference::worked::examples;

const MOST_ITERATIONS: i32 = 60_000;
const SEP: Settings = Settings { merge: 0, stop: 0, order: 0 };
const JOIN: Settings = Settings { merge: 1, stop: 1, order: 0 };

const MIDDLE: Ring = Ring {
    variables: 4,
    changing: 4,
    locations: 16,
    followed: 3,
    idle: 0,
    laps: 4,
    is_counted: true,
};
const LARGEST: Ring = Ring { variables: 8, changing: 8, locations: 64, followed: 4, ..MIDDLE };
/// One location with every edge, and slots that differ in their last word alone: an iteration does
/// as much as it can.
const COSTLIEST: Ring = Ring { changing: 1, locations: 1, followed: 256, laps: 256, ..LARGEST };

/// A call, whose name stands in its rows.
#[derive(Clone, Copy)]
pub struct Call {
    pub name: &'static str,
    pub make: fn(&mut Lent, Calls),
}

pub const READ: Call = Call {
    name: "read",
    make: |lent, calls| {
        black_box((calls.read)(black_box(&lent.file), &mut lent.chart));
    },
};
/// The plain start.
pub const BEGIN_ZERO: Call =
    Call { name: "begin, budget 0", make: |lent, calls| lent.begin(calls, SEP, 0) };
/// Begun and run to the end of the budget.
pub const BEGIN_JOIN: Call =
    Call { name: "begin join", make: |lent, calls| lent.begin(calls, JOIN, lent.budget) };
pub const BEGIN_SEP: Call =
    Call { name: "begin sep", make: |lent, calls| lent.begin(calls, SEP, lent.budget) };
/// Carried on to the end, from what the subject has begun.
pub const RUN: Call = Call { name: "run", make: |lent, calls| lent.run(calls) };
pub const LISTING: Call = Call { name: "listing", make: |lent, calls| lent.report(calls.listing) };
/// Of an analysis with an alarm.
pub const PATH: Call = Call { name: "path", make: |lent, calls| lent.report(calls.path) };

/// With the largest bound.
pub const SEARCH: Call = Call { name: "search 8", make: |lent, calls| lent.search(calls) };

/// A chart with the calls to make on it, in this order.
pub struct Subject {
    pub name: String,
    pub file: Vec<u8>,
    pub capacity: usize,
    pub budget: i32,
    /// What the listing and the path are of.
    begin: Call,
    pub calls: &'static [Call],
}

/// All that the calls are lent, reused from call to call.
#[derive(Clone, PartialEq)]
pub struct Lent {
    file: Vec<u8>,
    chart: Vec<i32>,
    capacity: i32,
    budget: i32,
    pub record: Record,
    table: Vec<i32>,
    list: Vec<i32>,
    space: Vec<u8>,
    /// Of the last text.
    pub length: usize,
}

impl Subject {
    fn new(name: &str, file: &[u8], capacity: usize, calls: &'static [Call]) -> Self {
        let (name, file) = (name.to_string(), file.to_vec());
        Subject { name, file, capacity, budget: MOST_ITERATIONS, begin: BEGIN_SEP, calls }
    }

    /// With the chart read and an analysis made, so that each call can be made alone.
    pub fn lent(&self) -> Lent {
        let record = Record::NONE;
        let mut lent = Lent {
            file: self.file.clone(),
            chart: vec![0; MAX_WORDS],
            capacity: self.capacity as i32,
            budget: self.budget,
            record,
            table: vec![0; self.capacity * 11],
            list: vec![0; self.capacity],
            space: vec![0; 24_576],
            length: 0,
        };
        for call in [READ, self.begin, LISTING] {
            (call.make)(&mut lent, LIBRARY);
        }
        lent
    }
}

impl Lent {
    fn begin(&mut self, calls: Calls, settings: Settings, budget: i32) {
        let Lent { chart, capacity, record, table, list, .. } = self;
        let chart = black_box(chart);
        *record = (calls.begin)(chart, settings, *capacity, budget, *record, table, list).record;
    }

    fn run(&mut self, calls: Calls) {
        let Lent { chart, record, table, list, .. } = self;
        let chart = black_box(chart);
        *record = (calls.run)(chart, MOST_ITERATIONS, *record, table, list).record;
    }

    fn report(&mut self, call: Report) {
        let Lent { chart, record, table, list, space, .. } = self;
        self.length = call(black_box(chart), *record, table, list, space).length;
    }

    fn search(&mut self, calls: Calls) {
        let Lent { chart, space, .. } = self;
        self.length = (calls.search)(black_box(chart), MAX_BOUND as i32, space).length;
    }

    /// The first line of the last text.
    pub fn header(&self) -> String {
        let text = String::from_utf8_lossy(&self.space[..self.length]);
        text.lines().next().unwrap_or_default().replace('\t', " ")
    }
}

/// From small to large.
pub fn charts() -> Vec<Subject> {
    const ALL: &[Call] = &[READ, BEGIN_ZERO, BEGIN_JOIN, BEGIN_SEP, LISTING];
    const WITHOUT_JOIN: &[Call] = &[READ, BEGIN_ZERO, BEGIN_SEP, LISTING];
    const ALARM: &[Call] = &[READ, BEGIN_ZERO, BEGIN_SEP, LISTING, PATH];
    vec![
        Subject::new("case A", files::case_a(), 16, ALL),
        Subject {
            begin: BEGIN_JOIN,
            ..Subject::new("case A, join", files::case_a(), 16, &[LISTING, PATH])
        },
        Subject::new("middle", &files::ring(MIDDLE), 64, ALARM),
        Subject::new(
            "middle",
            &files::ring(Ring { is_counted: false, ..MIDDLE }),
            64,
            &[BEGIN_JOIN],
        ),
        Subject::new("largest", &files::ring(LARGEST), 256, ALARM),
        Subject::new(
            "largest",
            &files::ring(Ring { is_counted: false, ..LARGEST }),
            256,
            &[BEGIN_JOIN],
        ),
        Subject::new("fan", &files::fan(), 256, WITHOUT_JOIN),
        Subject {
            budget: 1,
            ..Subject::new("fan, all waiting", &files::fan(), 256, &[BEGIN_SEP, LISTING])
        },
        Subject::new("longest fields", &files::largest(), 256, WITHOUT_JOIN),
        Subject::new("refused on its last line", &files::drawn_out(), 1, &[READ]),
    ]
}

/// The charts of the examples, but for those that 31 refuses, each once: of several examples of one chart the first
/// names it. And what costs a search most that remembers nothing: many starts, several edges, wide inputs.
pub fn searches() -> Vec<Subject> {
    let mut subjects: Vec<Subject> = Vec::new();
    let mut add = |name: &str, file: &[u8]| {
        if subjects.iter().all(|subject| subject.file != file) {
            subjects.push(Subject::new(name, file, 256, &[SEARCH]));
        }
    };
    for example in examples() {
        let chart = reader::read(example.chart_file()).expect("an example is accepted");
        if check_size(&chart).is_ok() {
            add(&example.name, example.chart_file());
        }
    }
    add(
        "4,096 starts",
        b"V\tx\t1\t4096\t*\nL\ta\to\nL\tb\te\nE\t0\t0\tskip\nE\t0\t1\tif\t$0\tlt\t1\n",
    );
    add("three self-loops", b"L\ta\to\nE\t0\t0\tskip\nE\t0\t0\tskip\nE\t0\t0\tskip\n");
    let inputs = b"V\tx\t0\t15\t0\nL\ta\to\nL\tb\to\nL\tc\to\nL\td\to\nL\te\te\n\
        E\t0\t1\tin\t$0\t0\t15\nE\t1\t2\tin\t$0\t0\t15\nE\t2\t3\tin\t$0\t0\t15\n\
        E\t3\t4\tif\t$0\tgt\t15\n";
    add("three inputs of 16 values", inputs);
    subjects
}

/// Of these a run is counted and not timed, since it can be made but once.
pub fn runs() -> Vec<Subject> {
    let played =
        |name, file: &[u8], budget| Subject { budget, ..Subject::new(name, file, 256, &[RUN]) };
    vec![
        played("case A, not played", files::case_a(), 0),
        played("largest, not played", &files::ring(LARGEST), 0),
        played("largest, half played", &files::ring(LARGEST), 128),
        played("fan, not played", &files::fan(), 0),
        played("fan, one iteration played", &files::fan(), 1),
    ]
}

/// Files of more and more bytes: with edges, and with one number drawn out.
pub fn reads() -> Vec<Subject> {
    let read = |file: &[u8], what| {
        Subject::new(&format!("{} bytes, {what}", file.len()), file, 256, &[READ])
    };
    let rings = (1..=4).map(|followed| {
        read(&files::ring(Ring { followed, ..LARGEST }), format!("edges {}", 64 * followed))
    });
    let drawn_out = [16_384, 32_768]
        .map(|bytes| read(&files::drawn_out_to(bytes), "one number drawn out".to_string()));
    rings.chain(drawn_out).collect()
}

/// Apart, since it takes so long.
pub fn costliest() -> Subject {
    Subject::new("costliest", &files::ring(COSTLIEST), 256, &[BEGIN_SEP])
}

/// One bound of a chart after the other.
pub fn growth() -> Vec<Subject> {
    let mut subjects = Vec::new();
    let mut add = |name: String, ring: Ring, calls: &'static [Call]| {
        subjects.push(Subject::new(&name, &files::ring(ring), 256, calls));
    };
    for laps in 1..=4 {
        let slots = laps * LARGEST.locations;
        add(format!("slots {slots}, edges 256"), Ring { laps, ..LARGEST }, &[BEGIN_SEP]);
    }
    for edges in [64, 128, 192, 256] {
        let ring = Ring { locations: 63, followed: 1, idle: edges - 63, ..LARGEST };
        add(format!("edges {edges}, followed 1, slots 252"), ring, &[BEGIN_SEP]);
    }
    for followed in 1..=4 {
        let edges = followed * LARGEST.locations;
        let ring = Ring { followed, ..LARGEST };
        add(format!("edges {edges}, followed {followed}, slots 256"), ring, &[BEGIN_SEP]);
    }
    for variables in [1, 2, 4, 8] {
        let ring = Ring { variables, followed: 4, ..COSTLIEST };
        add(format!("variables {variables}, slots 256, all of one location"), ring, &[BEGIN_SEP]);
    }
    for locations in [16, 32, 64] {
        let ring = Ring { locations, is_counted: false, ..LARGEST };
        add(format!("slots {locations}, edges {}", 4 * locations), ring, &[BEGIN_JOIN]);
    }
    for variables in [1, 2, 4, 8] {
        let ring = Ring { variables, changing: variables, is_counted: false, ..LARGEST };
        add(format!("variables {variables}, slots 64, edges 256"), ring, &[BEGIN_JOIN]);
    }
    subjects
}
