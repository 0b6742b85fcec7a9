//! The library's begin, run, listing and path against the reference walker's: after every call the
//! answer, the record, every lent word and byte, and those around them.

use library::walker::{held, WALKER};
use library::{files, Called, Calls, Record, Reply, Settings, LIBRARY};
use reference::analysis::{self, Analysis, Merge, Order, Stop, Verdict};
use reference::begins::{begin_corners, begin_corners_of, refusals, Begin, BeginCorner};
use reference::calls::{advanced, begun, held_chart};
use reference::chart::Chart;
use reference::coverage::{analysis_label, analysis_labels, corner_labels, corner_labels_of, Met};
use reference::domain::TOP;
use reference::encoding::MAX_WORDS;
use reference::listing::Report;
use reference::memory::Memory;
use reference::paths::{alarm_corners, alarm_corners_of, path_corners, path_corners_of};
use reference::program::{chart_part, read_go_line};
use reference::random::calls::{
    begin, call, disturb, relend, report_space, Call, REPORT_BYTES as SPACE,
};
use reference::random::{count_at_least, inputs, permitted_settings, seed, Random};
use reference::reader;
use reference::worked::{cases, example_paths, examples};

const CALLS_PER_CHART: usize = 16;
/// Of each number and verdict, so that another seed finds it too.
const FEWEST: usize = 20;
/// Of each corner.
const FEWEST_CORNERS: usize = 5;
/// Words and bytes around each buffer that is lent.
const FENCE: usize = 4;

/// Before the first begin.
const NO_RECORD: Record = Record {
    merge: 9,
    stop: 9,
    order: 9,
    capacity: 0,
    iterations: 0,
    used: 0,
    waiting: 0,
    verdict: 9,
    edge: 0,
};

/// A call with its settings by their codes, which may name nothing.
#[derive(Clone, Copy, Debug)]
enum Made {
    Begin { settings: Settings, capacity: i32, budget: i32 },
    Run { budget: i32 },
    Report(Report),
}

/// All that is lent to a call, each buffer within a fence.
#[derive(Clone, Debug, PartialEq, Eq)]
struct Lent {
    chart: Vec<i32>,
    record: Record,
    table: Vec<i32>,
    list: Vec<i32>,
    space: Vec<u8>,
}

impl Lent {
    fn new(random: &mut Random, memory: &Memory, record: Record, space: usize) -> Self {
        let mut fenced = |words: &[i32]| {
            let (before, after) = (rubbish(random, FENCE), rubbish(random, FENCE));
            [&before, words, &after].concat()
        };
        let (table, list) = (fenced(&memory.table), fenced(&memory.waitlist));
        let mut chart = fenced(&memory.chart);
        let more = random.below(4);
        chart.extend(rubbish(random, more));
        let space = (0..space + 2 * FENCE).map(|_| random.below(256) as u8).collect();
        Lent { chart, record, table, list, space }
    }

    fn make(&mut self, made: Made, calls: Calls) -> Reply {
        let chart = within(&self.chart);
        let (table, list) = (within_mut(&mut self.table), within_mut(&mut self.list));
        let called = match made {
            Made::Begin { settings, capacity, budget } => {
                (calls.begin)(chart, settings, capacity, budget, self.record, table, list)
            }
            Made::Run { budget } => (calls.run)(chart, budget, self.record, table, list),
            Made::Report(report) => {
                let space = within_mut(&mut self.space);
                let call = match report {
                    Report::Listing => calls.listing,
                    Report::Path => calls.path,
                };
                return call(chart, self.record, table, list, space);
            }
        };
        self.record = called.record;
        called.reply
    }
}

fn within<T>(buffer: &[T]) -> &[T] {
    &buffer[FENCE..buffer.len() - FENCE]
}

fn within_mut<T>(buffer: &mut [T]) -> &mut [T] {
    let end = buffer.len() - FENCE;
    &mut buffer[FENCE..end]
}

/// Words of any kind, or all of them what would be in form there.
fn rubbish(random: &mut Random, count: usize) -> Vec<i32> {
    match random.below(3) {
        0 => vec![0; count],
        _ => (0..count)
            .map(|_| match random.below(8) {
                0 => random.pick(&[i32::MIN, i32::MAX, TOP, 0, 1]),
                _ => random.between(-40_000, 40_000),
            })
            .collect(),
    }
}

/// Makes the call by both; fails where anything differs.
fn compare(lent: &mut Lent, made: Made) -> Reply {
    let before = lent.clone();
    let mut expected = lent.clone();
    let reply = lent.make(made, LIBRARY);
    let expected_reply = expected.make(made, WALKER);
    let shown = || format!("{made:?} on {before:?}");
    assert_eq!(reply, expected_reply, "{}", shown());
    assert_eq!(lent.record, expected.record, "{}", shown());
    assert!(lent.table == expected.table, "the tables differ: {}", shown());
    assert!(lent.list == expected.list, "the waitlists differ: {}", shown());
    assert!(lent.space == expected.space, "the texts differ: {}", shown());
    assert!(lent.chart == before.chart, "the chart is written: {}", shown());
    assert!(reply.number == 0 || *lent == before, "refused and written: {}", shown());
    reply
}

fn label(made: Made, number: u32) -> String {
    let name = match made {
        Made::Begin { .. } => "begin",
        Made::Run { .. } => "run",
        Made::Report(Report::Listing) => "listing",
        Made::Report(Report::Path) => "path",
    };
    format!("{name} {number}")
}

/// Every answer that a call can give.
fn labels() -> Vec<String> {
    [
        ("begin", &[0, 6, 11, 12, 13, 14, 20][..]),
        ("run", &[0, 13, 14, 20, 21, 22, 23]),
        ("listing", &[0, 14, 15, 20, 21]),
        ("path", &[0, 14, 15, 20, 21, 24]),
    ]
    .iter()
    .flat_map(|(name, numbers)| numbers.iter().map(move |number| format!("{name} {number}")))
    .collect()
}

/// The analysis that a call leaves in what it is lent, where it goes through and is a begin or a run.
fn left(made: Made, lent: &Memory) -> Option<Analysis> {
    let Memory { chart, table, waitlist, record } = lent;
    match made {
        Made::Begin { settings, capacity, budget } => {
            begun(chart, settings.named()?, capacity, budget, table, waitlist).ok()
        }
        Made::Run { budget } => advanced(chart, budget, table, waitlist, record).ok(),
        Made::Report(_) => None,
    }
}

/// A code that mostly names nothing.
fn odd_code(random: &mut Random) -> u32 {
    random.pick(&[1, 2, 3, 4, 255, 256, 1 << 16, 1 << 31, u32::MAX])
}

/// Of what a caller in another language can write into a record and the walker's types cannot hold.
fn make_odd(random: &mut Random, record: &mut Record) {
    let high = random.pick(&[1 << 32, 1 << 33, 1 << 63, usize::MAX << 32]);
    match random.below(8) {
        0 => record.merge = odd_code(random),
        1 => record.stop = odd_code(random),
        2 => record.order = odd_code(random),
        3 | 4 => record.verdict = odd_code(random),
        5 => record.used |= high,
        6 => record.waiting |= high,
        _ => record.edge |= high,
    }
}

fn random_call(random: &mut Random, chart: &Chart, is_begun: bool) -> Made {
    let call = match is_begun || random.percent(20) {
        true => call(random, chart),
        false => Call::Begin(begin(random, chart)),
    };
    match call {
        Call::Begin(Begin { settings, capacity, budget }) => {
            let mut settings = Settings::from(settings);
            if random.percent(6) {
                let code = odd_code(random);
                match random.below(3) {
                    0 => settings.merge = code,
                    1 => settings.stop = code,
                    _ => settings.order = code,
                }
            }
            Made::Begin { settings, capacity, budget }
        }
        Call::Run { budget } => Made::Run { budget },
        Call::Report(report) => Made::Report(report),
    }
}

/// Buffers of other sizes, with anything after what the analysis takes of them.
fn lend(random: &mut Random, memory: &Memory, made: Made) -> Memory {
    let capacity = match made {
        Made::Begin { capacity, .. } => capacity.unsigned_abs(),
        _ => memory.record.capacity,
    };
    let mut lent = relend(random, memory, capacity);
    let taken = memory.record.capacity as usize;
    for (words, taken) in
        [(&mut lent.table, taken * memory.slot_width()), (&mut lent.waitlist, taken)]
    {
        if words.len() > taken {
            let after = rubbish(random, words.len() - taken);
            words[taken..].copy_from_slice(&after);
        }
    }
    lent
}

/// How many bytes are lent beside the words; to a begin or a run a few, which it must leave alone.
fn space(random: &mut Random, memory: &Memory, made: Made) -> usize {
    match made {
        Made::Report(report) => report_space(random, memory, report),
        Made::Begin { .. } | Made::Run { .. } => random.below(4),
    }
}

/// What a begin meets in what it is lent; with a code that names nothing, which refusals 6 comes before.
fn begin_met(made: Made, lent: &Memory) -> Vec<BeginCorner> {
    let Made::Begin { settings, capacity, budget } = made else {
        return Vec::new();
    };
    if let Some(settings) = settings.named() {
        let begin = Begin { settings, capacity, budget };
        return begin_corners_of(begin, lent).into_iter().collect();
    }
    // Those of the same begin with other codes, which 12 refuses where merge and stop are named so.
    let merge = if (settings.merge, settings.stop) == (0, 1) { Merge::Sep } else { Merge::Join };
    let settings = analysis::Settings { merge, stop: Stop::Join, order: Order::Old };
    let others = refusals(Begin { settings, capacity, budget }, lent);
    others.into_iter().map(|other| BeginCorner::Before(6, other)).collect()
}

/// Whatever the calls are lent: sizes of their own, rubbish past what is in use, and at times a
/// damaged record, word or chart. A call that goes through leaves what the next is lent.
#[test]
fn lists_of_calls_are_answered_alike() {
    let mut random = Random::new(seed());
    let (mut answers, mut verdicts) = (Met::new(), Met::new());
    let (mut corners, mut begins) = (Met::new(), Met::new());
    let (mut path_calls, mut paths) = (Met::new(), Met::new());
    for _ in 0..count_at_least(5_000) {
        let chart = inputs::chart(&mut random);
        let mut memory = Memory::new(&chart, 256 * chart.slot_width(), 256);
        let mut is_begun = false;
        for _ in 0..CALLS_PER_CHART {
            let made = random_call(&mut random, &chart, is_begun);
            let mut next = lend(&mut random, &memory, made);
            if random.percent(20) {
                disturb(&mut random, &mut next);
            }
            if random.percent(1) {
                next.chart.clear();
            }
            let space = space(&mut random, &next, made);
            let mut record = Record::from(next.record);
            if random.percent(6) {
                make_odd(&mut random, &mut record);
            }
            let mut lent = Lent::new(&mut random, &next, record, space);
            let reply = compare(&mut lent, made);
            answers.add(label(made, reply.number));
            next.record = held(&record);
            let whole = Memory { chart: within(&lent.chart).to_vec(), ..next.clone() };
            begins.add_all(begin_met(made, &whole));
            if let Made::Report(Report::Path) = made {
                path_calls.add_all(path_corners_of(&whole, space));
            }
            if let Some(analysis) = left(made, &whole) {
                corners.add_all(corner_labels_of(&analysis));
                // What it has met is known here alone, so that its path is looked at at once.
                if analysis.verdict == Verdict::Alarm {
                    let chart = held_chart(&whole.chart).expect("the call has gone through");
                    paths.add_all(alarm_corners_of(&chart, &analysis));
                    let shown = Lent { space: vec![0; SPACE + 2 * FENCE], ..lent.clone() };
                    compare(&mut shown.clone(), Made::Report(Report::Path));
                }
            }
            if reply.number == 0 {
                next.table = within(&lent.table).to_vec();
                next.waitlist = within(&lent.list).to_vec();
                next.record = held(&lent.record);
                verdicts.add(analysis_label(next.record.settings, next.record.verdict));
                memory = next;
                is_begun = true;
            }
        }
    }
    answers.assert_exactly(&labels(), FEWEST);
    verdicts.assert_exactly(&analysis_labels(), FEWEST);
    corners.assert_exactly(&corner_labels(), FEWEST_CORNERS);
    let codes_first = [11, 12, 13, 20, 14].map(|number| BeginCorner::Before(6, number));
    begins.assert_exactly(&[&begin_corners()[..], &codes_first].concat(), FEWEST_CORNERS);
    path_calls.assert_exactly(&path_corners(), FEWEST_CORNERS);
    paths.assert_exactly(&alarm_corners(), FEWEST_CORNERS);
}

/// Case A after three iterations, and at its alarm, with each word and each field of the record given
/// many values.
#[test]
fn every_word_and_field_is_judged_alike() {
    let chart = reader::read(files::case_a()).expect("case A is accepted");
    let mut answers = Met::new();
    for (settings, budget) in [(permitted_settings()[0], 3), (permitted_settings()[5], 100)] {
        let mut memory = Memory::new(&chart, 8 * chart.slot_width() + 2, 10);
        memory.begin(settings, 8, budget);
        judge_every_change(&memory, &mut answers);
    }
    let wanted = ["run 0", "run 14", "run 21", "run 22", "run 23", "listing 0", "listing 14"];
    let wanted = wanted.into_iter().chain(["listing 21", "begin 0", "path 0", "path 14"]);
    let wanted = wanted.chain(["path 21", "path 24"]).map(String::from);
    answers.assert_exactly(&wanted.collect::<Vec<_>>(), 1);
}

fn judge_every_change(memory: &Memory, answers: &mut Met<String>) {
    let mut random = Random::new(seed() ^ 1);
    let underway = Lent::new(&mut random, memory, Record::from(memory.record), SPACE);
    let settings = Settings::from(memory.record.settings);
    let begin = Made::Begin { settings, capacity: 8, budget: 2 };
    let runs = [0, 2].map(|budget| Made::Run { budget });
    let reports = [Report::Listing, Report::Path].map(Made::Report);
    let mut judge = |changed: Lent| {
        for made in [begin].into_iter().chain(runs).chain(reports) {
            answers.add(label(made, compare(&mut changed.clone(), made).number));
        }
    };

    let extremes = [255, 256, 257, 32_767, -32_768, -32_769, TOP, TOP + 1, i32::MAX, i32::MIN];
    let extremes = extremes.into_iter().chain([65_534, 65_535, 65_536]);
    for value in (-3..=12).chain(extremes) {
        for place in 0..within(&underway.table).len() {
            let mut changed = underway.clone();
            within_mut(&mut changed.table)[place] = value;
            judge(changed);
        }
        for place in 0..within(&underway.list).len() {
            let mut changed = underway.clone();
            within_mut(&mut changed.list)[place] = value;
            judge(changed);
        }
    }
    let extremes = [59_999, 60_000, 60_001, u32::MAX as usize, 1 << 32, usize::MAX];
    for value in (0..=12).chain([255, 256, 257]).chain(extremes) {
        for field in 0..9 {
            let mut changed = underway.clone();
            let record = &mut changed.record;
            match field {
                0 => record.merge = value as u32,
                1 => record.stop = value as u32,
                2 => record.order = value as u32,
                3 => record.capacity = value as u32,
                4 => record.iterations = value as u32,
                5 => record.used = value,
                6 => record.waiting = value,
                7 => record.verdict = value as u32,
                _ => record.edge = value,
            }
            judge(changed);
        }
    }
}

/// The walk program by the library's calls: what each accepted case and example prints.
#[test]
fn every_listing_and_path_is_the_one_expected() {
    let (mut listings, mut paths) = (0, 0);
    for worked in cases().into_iter().chain(examples()).chain(example_paths()) {
        let (call, count) = match &worked.output {
            output if output.starts_with(b"walk\t") => (LIBRARY.listing, &mut listings),
            output if output.starts_with(b"path\t") => (LIBRARY.path, &mut paths),
            _ => continue,
        };
        let (go, _) = read_go_line(&worked.input).expect("it is accepted");
        let mut chart = [0; MAX_WORDS];
        assert_eq!((LIBRARY.read)(chart_part(&worked.input), &mut chart).number, 0);
        let (mut table, mut list) = ([0; 256 * 11], [0; 256]);
        let settings = Settings::from(go.settings);
        let (capacity, budget) = (go.capacity as i32, go.budget as i32);
        let Called { reply, record } =
            (LIBRARY.begin)(&chart, settings, capacity, budget, NO_RECORD, &mut table, &mut list);
        assert_eq!(reply, Reply { number: 0, line: 0, length: 0 }, "{}", worked.name);
        let mut space = [0; SPACE];
        let reply = call(&chart, record, &table, &list, &mut space);
        assert_eq!(reply, Reply { number: 0, line: 0, length: worked.output.len() });
        assert!(space[..reply.length] == worked.output, "{}", worked.name);
        *count += 1;
    }
    println!("{listings} listings, {paths} paths");
    assert!(listings > 40 && paths > 15);
}
