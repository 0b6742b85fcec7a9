//! Random lists of calls, matched with what the rules make of the list, and
//! calls on disturbed words, of which every refusal is met.

use reference::analysis::{Analysis, Verdict};
use reference::begins::{begin_corners, begin_corners_of, refusals, Begin};
use reference::calls::{Answer, Record};
use reference::chart::Chart;
use reference::coverage::{corner_labels, corner_labels_of, Met};
use reference::listing::Report;
use reference::memory::Memory;
use reference::paths::{self, alarm_corners, alarm_corners_of, path_corners, path_corners_of};
use reference::random::calls::{begin, call, disturb, relend, report_space, Call, REPORT_BYTES};
use reference::random::{count_at_least, inputs, seed, Random};

const CALLS_PER_CHART: usize = 12;
/// Of each number, so that another seed finds it too.
const FEWEST: usize = 20;
/// Of each corner.
const FEWEST_CORNERS: usize = 5;

/// What the rules make of one call with so much lent; a refused one leaves the analysis alone.
fn expected(
    chart: &Chart,
    analysis: &mut Option<Analysis>,
    call: Call,
    lent: &Memory,
    space: usize,
) -> (u32, Vec<u8>) {
    let is_short = |capacity: usize| {
        lent.table.len() < capacity * chart.slot_width() || lent.waitlist.len() < capacity
    };
    let mut text = Vec::new();
    let number = match (call, analysis.as_mut()) {
        (Call::Begin(Begin { capacity, .. }), _) if !(1..=256).contains(&capacity) => 11,
        (Call::Begin(Begin { settings, .. }), _) if !settings.is_sound() => 12,
        (Call::Begin(Begin { budget, .. }), _) if !(0..=60_000).contains(&budget) => 13,
        (Call::Begin(Begin { capacity, .. }), _) if is_short(capacity as usize) => 14,
        (Call::Begin(Begin { settings, capacity, budget }), _) => {
            let mut begun = Analysis::start(chart, settings, capacity as usize);
            if begun.verdict == Verdict::Open {
                begun.run(chart, budget as u32);
            }
            *analysis = Some(begun);
            0
        }
        (Call::Run { budget }, _) if !(0..=60_000).contains(&budget) => 13,
        (_, None) => unreachable!("the first begin has gone through"),
        (_, Some(analysis)) if is_short(analysis.capacity) => 14,
        (Call::Run { .. }, Some(analysis)) if analysis.verdict != Verdict::Open => 22,
        (Call::Run { budget }, Some(analysis)) => {
            analysis.run(chart, budget as u32);
            0
        }
        (Call::Report(report), Some(analysis)) => match report.text(chart, analysis) {
            Err(reason) => reason as u32,
            Ok(whole) if whole.len() > space => 15,
            Ok(whole) => {
                text = whole;
                0
            }
        },
    };
    (number, text)
}

fn make(memory: &mut Memory, call: Call, space: usize) -> (Answer, Vec<u8>) {
    match call {
        Call::Begin(Begin { settings, capacity, budget }) => {
            (memory.begin(settings, capacity, budget), Vec::new())
        }
        Call::Run { budget } => (memory.run(budget), Vec::new()),
        Call::Report(report) => memory.report(report, space),
    }
}

/// The bytes lent to a call: none to one that prints nothing.
fn space(random: &mut Random, lent: &Memory, call: Call) -> usize {
    match call {
        Call::Report(report) => report_space(random, lent, report),
        Call::Begin(_) | Call::Run { .. } => 0,
    }
}

/// Buffers of other sizes, about what the call takes.
fn lend(random: &mut Random, memory: &Memory, call: Call) -> Memory {
    let capacity = match call {
        Call::Begin(begin) => begin.capacity.unsigned_abs(),
        _ => memory.record.capacity,
    };
    relend(random, memory, capacity)
}

fn assert_holds(memory: &Memory, analysis: &Analysis) {
    let (width, mut words) = (memory.slot_width(), memory.table.chunks(memory.slot_width()));
    for (row, origin) in analysis.reached.slots() {
        let (parent, edge) = origin.map_or((65_535, 0), |origin| (origin.parent.0, origin.edge.0));
        let expected = [row, &[parent as i32, edge as i32]].concat();
        assert_eq!((words.next(), expected.len()), (Some(&expected[..]), width));
    }
    let waiting: Vec<i32> = analysis.waitlist.slots().map(|slot| slot.0 as i32).collect();
    assert_eq!(memory.waitlist[..waiting.len()], waiting);
    let record = Record {
        settings: analysis.settings,
        capacity: analysis.capacity as u32,
        iterations: analysis.iterations,
        used: analysis.reached.len() as u32,
        waiting: waiting.len() as u32,
        verdict: analysis.verdict,
        edge: analysis.edge.map_or(0, |edge| edge.0 as u32),
    };
    assert_eq!(memory.record, record);
}

#[test]
fn whole_walks() {
    let mut random = Random::new(seed());
    let (mut met, mut corners, mut paths) = (Met::new(), Met::new(), Met::new());
    for _ in 0..count_at_least(5_000) {
        let chart = inputs::chart(&mut random);
        let mut memory = Memory::new(&chart, 256 * chart.slot_width(), 256);
        let mut analysis = None;
        for _ in 0..CALLS_PER_CHART {
            let call = match analysis {
                None => Call::Begin(begin(&mut random, &chart)),
                Some(_) => call(&mut random, &chart),
            };
            let mut lent = lend(&mut random, &memory, call);
            let space = space(&mut random, &lent, call);
            let expected = expected(&chart, &mut analysis, call, &lent, space);
            let (answer, text) = make(&mut lent, call, space);
            assert_eq!((answer.number, answer.line, text), (expected.0, 0, expected.1), "{call:?}");
            met.add(answer.number);
            if answer == Answer::DONE {
                memory = lent;
            }
            if let Some(analysis) = &mut analysis {
                assert_holds(&memory, analysis);
                match call {
                    Call::Report(Report::Path) if answer == Answer::DONE => {
                        paths.add_all(alarm_corners_of(&chart, analysis));
                    }
                    Call::Begin(_) | Call::Run { .. } if answer == Answer::DONE => {
                        corners.add_all(corner_labels_of(analysis));
                        analysis.corners.clear();
                    }
                    _ => {}
                }
            }
        }
    }
    met.assert_exactly(&[0, 11, 12, 13, 14, 15, 22, 24], FEWEST);
    corners.assert_exactly(&corner_labels(), FEWEST_CORNERS);
    paths.assert_exactly(&alarm_corners(), FEWEST_CORNERS);
}

/// On words that may be out of form no call panics, a refused one changes
/// nothing, and one that goes through leaves words in form.
#[test]
fn disturbed_words_meet_every_refusal() {
    let mut random = Random::new(seed() ^ 1);
    let (mut met, mut begins, mut path_calls) = (Met::new(), Met::new(), Met::new());
    for _ in 0..count_at_least(3_000) {
        let (chart, settings, capacity) = inputs::analysis(&mut random);
        let mut memory = Memory::new(&chart, 256 * chart.slot_width() + 4, 260);
        let budget = random.between(0, 6);
        memory.begin(settings, capacity, if random.percent(60) { budget } else { 60_000 });
        for _ in 0..CALLS_PER_CHART {
            let call = call(&mut random, &chart);
            let mut disturbed = lend(&mut random, &memory, call);
            disturb(&mut random, &mut disturbed);
            let before = disturbed.clone();
            let space = space(&mut random, &disturbed, call);
            let (answer, _) = make(&mut disturbed, call, space);
            met.add(answer.number);
            if answer == Answer::DONE {
                assert_eq!(disturbed.listing(REPORT_BYTES).0, Answer::DONE, "{call:?}");
            }
            if let Call::Report(Report::Path) = call {
                let expected = paths::refusals(&before, space).first().copied().unwrap_or(0);
                assert_eq!((answer.number, answer.line), (expected, 0), "{call:?} on {before:?}");
                path_calls.add_all(path_corners_of(&before, space));
            }
            if let Call::Begin(begin) = call {
                let expected = refusals(begin, &before).first().copied().unwrap_or(0);
                assert_eq!((answer.number, answer.line), (expected, 0), "{call:?}");
                begins.add_all(begin_corners_of(begin, &before));
            }
        }
    }
    met.assert_exactly(&[0, 11, 12, 13, 14, 15, 20, 21, 22, 23, 24], FEWEST);
    begins.assert_exactly(&begin_corners(), FEWEST_CORNERS);
    path_calls.assert_exactly(&path_corners(), FEWEST_CORNERS);
}
