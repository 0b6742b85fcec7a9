//! Searches: what is found is a run of the chart, the first of the shortest by two ways, and found exactly where
//! there is one; where an analysis knows every value the two agree; and builds of the call that are wrong in one
//! thing are told apart by random calls.

use reference::analysis::{location_of, Analysis, Settings};
use reference::calls::held_chart;
use reference::chart::{Chart, EdgeId, Operation};
use reference::concrete::{for_each_move, initial_states, outgoing, overruns};
use reference::coverage::Met;
use reference::explorer::Explorer;
use reference::listing::{listing, path, search_text};
use reference::memory;
use reference::random::charts::small;
use reference::random::{count_at_least, permitted_settings, searches, seed, Random};
use reference::renderer::render;
use reference::search::{check_size, search, shortest, Counterexample, MAX_BOUND};
use reference::searches::{refusals, second_text, Search, Ways};
use reference::way::{check_exact, check_run, Exact};

const CALLS: usize = 10_000;
/// Of each sort, so that another seed finds it too.
const FEWEST: usize = 20;
/// Counterexamples of one length that are looked through for another that a wrong build would show.
const MOST: usize = 300;

fn shown(chart: &Chart) -> String {
    String::from_utf8_lossy(&render(chart)).into_owned()
}

#[test]
fn what_is_found_is_a_run_and_the_first_of_the_shortest() {
    let mut random = Random::new(seed());
    let mut met = Met::new();
    for _ in 0..count_at_least(10_000) {
        let chart = searches::chart(&mut random);
        let bound = searches::bound(&mut random, &chart);
        let Ok(text) = search(&chart, bound) else {
            assert!(check_size(&chart).is_err(), "{}", shown(&chart));
            continue;
        };
        assert_eq!(text, second_text(&chart, bound), "{bound} moves: {}", shown(&chart));
        if text.starts_with(b"run\t") {
            match check_run(&chart, &text) {
                Ok(moves) => assert!(moves <= bound, "{moves}: {}", shown(&chart)),
                Err(wrong) => panic!("{wrong}: {}", shown(&chart)),
            }
        }
        met.add(text.starts_with(b"run\t"));
    }
    met.assert_exactly(&[true, false], 1_000);
}

/// With as many moves as there are states, by all states of small charts.
#[test]
fn a_run_is_found_exactly_where_there_is_one() {
    let mut random = Random::new(seed() ^ 1);
    let mut met = Met::new();
    for _ in 0..count_at_least(3_000) {
        let chart = small(&mut random);
        let explorer = Explorer::new(&chart, 10_000).expect("small charts have few states");
        let exists = explorer.reaches_error() || explorer.overruns();
        let found = shortest(&chart, 10_000);
        assert_eq!(found.is_some(), exists, "{}", shown(&chart));
        // And by one move fewer than it takes none is found.
        if let Some(moves) = found.as_ref().map(Counterexample::length) {
            assert_eq!(shortest(&chart, moves), found, "{}", shown(&chart));
            let fewer = moves.checked_sub(1).and_then(|fewer| shortest(&chart, fewer));
            assert_eq!(fewer, None, "{}", shown(&chart));
        }
        met.add(exists);
    }
    met.assert_exactly(&[true, false], 500);
}

/// Every alarm of a chart without unknown values is real, and the search shows it, if it takes no more moves;
/// where it is called safe there is no run.
#[test]
fn an_exact_analysis_agrees() {
    let mut random = Random::new(seed() ^ 2);
    let mut met = Met::new();
    for _ in 0..count_at_least(5_000) {
        let chart = searches::known_chart(&mut random);
        let searched = search(&chart, MAX_BOUND).expect("31 does not apply");
        let sep: [Settings; 2] = [permitted_settings()[0], permitted_settings()[1]];
        for settings in sep {
            let analysis = Analysis::begin(&chart, settings, 256, 60_000);
            let (listing, path) = (listing(&chart, &analysis), path(&chart, &analysis));
            match check_exact(&listing, &path, &searched, MAX_BOUND) {
                // A chart of more states than slots, one of some tens of thousands.
                Ok(Exact::Nothing) => {}
                Ok(exact) => met.add((exact, settings.order.word())),
                Err(wrong) => panic!("{wrong}: {}", shown(&chart)),
            }
        }
    }
    let wanted = [Exact::Safe, Exact::Within, Exact::Beyond]
        .into_iter()
        .flat_map(|exact| ["old", "new"].map(|order| (exact, order)));
    met.assert_exactly(&wanted.collect::<Vec<_>>(), FEWEST);
}

/// A number, and a text.
type Answer = (u32, Vec<u8>);

/// A call, and what comes of it.
struct Made {
    call: Search,
    chart: Option<Chart>,
    right: Answer,
    /// Some of the shortest counterexamples, in their order, where a text is written.
    shortest: Vec<Counterexample>,
}

impl Made {
    fn new(call: Search) -> Self {
        let (chart, right) = (held_chart(&call.chart).ok(), answer(&call));
        let ways = chart.as_ref().filter(|_| right.0 == 0);
        let ways = ways.and_then(|chart| Ways::of(chart, call.bound as usize));
        let shortest = ways.map_or(Vec::new(), |ways| ways.all(MOST));
        Made { call, chart, right, shortest }
    }
}

fn answer(call: &Search) -> Answer {
    let (answer, text) = memory::search(&call.chart, call.bound, call.space);
    (answer.number, text)
}

/// A build of the search call: what it answers, and what it writes.
type Build = fn(&Made) -> Answer;

/// Wrong in one thing each.
const WRONG_BUILDS: [(&str, Build); 48] = [
    ("20 before 30", |made| ordered([20, 30, 31, 15], made)),
    ("31 before 30", |made| ordered([31, 30, 20, 15], made)),
    ("15 before 30", |made| ordered([15, 30, 20, 31], made)),
    ("31 before 20", |made| ordered([30, 31, 20, 15], made)),
    ("15 before 20", |made| ordered([30, 15, 20, 31], made)),
    ("15 before 31", |made| ordered([30, 20, 15, 31], made)),
    ("9 as 8", |made| bounded(made, |bound| bound.min(8))),
    ("-1 as 0", |made| bounded(made, |bound| bound.max(0))),
    ("30 for 0", |made| refused(made, 30, |call| call.bound == 0)),
    ("30 for 8", |made| refused(made, 30, |call| call.bound == 8)),
    ("the last byte of the bound", |made| bounded(made, |bound| bound & 0xFF)),
    ("31 for 16 values", |made| sized(made, |inputs, starts| inputs >= 16 || starts > 4_096)),
    ("17 values let pass", |made| sized(made, |inputs, starts| inputs > 17 || starts > 4_096)),
    ("31 for 4,096 starts", |made| sized(made, |inputs, starts| inputs > 16 || starts >= 4_096)),
    ("4,097 starts let pass", |made| sized(made, |inputs, starts| inputs > 16 || starts > 4_097)),
    ("inputs not looked at", |made| sized(made, |_, starts| starts > 4_096)),
    ("starts not looked at", |made| sized(made, |inputs, _| inputs > 16)),
    ("starts in 32 bits", |made| {
        sized(made, |inputs, starts| inputs > 16 || starts as u32 > 4_096)
    }),
    ("starts in 64 bits", |made| {
        sized(made, |inputs, starts| inputs > 16 || starts as u64 > 4_096)
    }),
    ("known variables counted as starts", |made| {
        let spans = |chart: &Chart| {
            let spans = chart.variables.iter().map(|variable| variable.high - variable.low + 1);
            spans.fold(1_u64, |starts, span| starts.saturating_mul(span as u64))
        };
        match made.right.0 {
            0 | 15 if made.chart.as_ref().is_some_and(|chart| spans(chart) > 4_096) => {
                (31, Vec::new())
            }
            _ => made.right.clone(),
        }
    }),
    ("15 where the text just fits", |made| match &made.right {
        (0, text) if text.len() == made.call.space => (15, Vec::new()),
        answer => answer.clone(),
    }),
    ("one move fewer", |made| found(made, |chart, bound| shortest(chart, bound.checked_sub(1)?))),
    ("one move more", |made| found(made, |chart, bound| shortest(chart, bound + 1))),
    ("an overrun is no move", |made| {
        let counted = |found: &Counterexample| found.moves.len();
        found(made, |chart, bound| {
            shortest(chart, bound + 1).filter(|found| counted(found) <= bound)
        })
    }),
    ("overruns not looked for", |made| only(made, |found| found.overrun.is_none())),
    ("error locations not looked for", |made| only(made, |found| found.overrun.is_some())),
    ("the start not looked at", |made| {
        found(made, |chart, bound| shortest(chart, bound).filter(|found| found.length() > 0))
    }),
    ("overruns first", |made| least(made, |found| found.overrun.is_none())),
    ("error locations first", |made| least(made, |found| found.overrun.is_some())),
    ("the last start", |made| least(made, |found| negated(&found.start))),
    ("starts by the last variable", |made| {
        least(made, |found| found.start.iter().rev().copied().collect::<Vec<_>>())
    }),
    ("starts without their sign", |made| {
        least(made, |found| found.start.iter().map(|&value| value as u32).collect::<Vec<_>>())
    }),
    ("moves before starts", |made| least(made, edges)),
    ("the last edge", |made| least(made, |found| (found.start.clone(), negated(&edges(found))))),
    ("edges of all moves before inputs", |made| {
        least(made, |found| (found.start.clone(), edges(found)))
    }),
    ("the last input", |made| {
        least(made, |found| {
            let moves = found.moves.iter().map(|(edge, state)| (edge.0, negated(state)));
            (found.start.clone(), moves.collect::<Vec<_>>(), found.overrun.map(|edge| edge.0))
        })
    }),
    ("inputs without their sign", |made| {
        least(made, |found| {
            let unsigned = |state: &[i32]| state.iter().map(|&each| each as u32).collect();
            let moves = found.moves.iter().map(|(edge, state)| (edge.0, unsigned(state)));
            (found.start.clone(), moves.collect::<Vec<(usize, Vec<u32>)>>())
        })
    }),
    ("starts before lengths", |made| {
        found(made, |chart, bound| {
            let starts = initial_states(chart);
            if starts.len() > MOST {
                return shortest(chart, bound);
            }
            let from = |start| Some(Ways::from(chart, bound, vec![start])?.first());
            starts.into_iter().find_map(from)
        })
    }),
    ("the first way down", |made| found(made, first_down)),
    ("no way back", |made| {
        found(made, |chart, bound| (0..=bound).find_map(|bound| without_return(chart, bound)))
    }),
    ("the lowest start alone", |made| {
        found(made, |chart, bound| {
            let first = initial_states(chart).swap_remove(0);
            Some(Ways::from(chart, bound, vec![first])?.first())
        })
    }),
    ("without the highest start", |made| {
        found(made, |chart, bound| {
            let mut starts = initial_states(chart);
            if starts.len() > 1 {
                starts.pop();
            }
            Some(Ways::from(chart, bound, starts)?.first())
        })
    }),
    ("the lowest input alone", |made| narrowed(made, |low, _| low)),
    ("without the highest input", |made| narrowed(made, |low, high| (high - 1).max(low))),
    ("none of 8", |made| {
        edited(made, |lines| {
            if lines[0][0] == "none" {
                lines[0][1] = "8".to_string();
            }
        })
    }),
    ("states counted", |made| {
        edited(made, |lines| {
            if lines[0][0] == "run" {
                let states = lines[1..].iter().filter(|line| line.len() > 1).count();
                lines[0][1] = states.to_string();
            }
        })
    }),
    ("an overrun with the state before it", |made| {
        edited(made, |lines| {
            let last = lines.len() - 1;
            if lines[last].len() == 1 {
                let before = lines[last - 1][1..].to_vec();
                lines[last].extend(before);
            }
        })
    }),
    ("each state with the edge that leaves it", |made| {
        edited(made, |lines| {
            for place in 1..lines.len() - 1 {
                lines[place][0] = lines[place + 1][0].clone();
            }
        })
    }),
];

/// With the refusals in another order.
fn ordered(order: [u32; 4], made: &Made) -> Answer {
    let apply = refusals(&made.call);
    match order.into_iter().find(|number| apply.contains(number)) {
        Some(number) => (number, Vec::new()),
        None => made.right.clone(),
    }
}

/// With another bound.
fn bounded(made: &Made, bound: impl Fn(i32) -> i32) -> Answer {
    match bound(made.call.bound) {
        bound if bound == made.call.bound => made.right.clone(),
        bound => answer(&Search { bound, ..made.call.clone() }),
    }
}

/// With a first refusal more.
fn refused(made: &Made, number: u32, applies: impl Fn(&Search) -> bool) -> Answer {
    match applies(&made.call) {
        true => (number, Vec::new()),
        false => made.right.clone(),
    }
}

/// With 31 by the widest input and the starts, of which 96 bits are looked at. What is written where it lets
/// more pass does not matter: the number tells.
fn sized(made: &Made, is_large: impl Fn(i32, u128) -> bool) -> Answer {
    let Some(chart) = &made.chart else {
        return made.right.clone();
    };
    let widths = chart.edges.iter().filter_map(|edge| match edge.operation {
        Operation::In { low, high, .. } => Some(high - low + 1),
        _ => None,
    });
    let unspecific = chart.variables.iter().filter(|variable| variable.init.is_none());
    let starts = unspecific
        .map(|variable| (variable.high - variable.low + 1) as u128)
        .fold(1_u128, |starts, span| (starts * span).min(1 << 96));
    match (made.right.0, is_large(widths.max().unwrap_or(0), starts)) {
        (31, false) => (0, Vec::new()),
        (0 | 15, true) => (31, Vec::new()),
        _ => made.right.clone(),
    }
}

/// With another counterexample, or none, where a text is written; one that does not fit is 15.
fn found(made: &Made, search: impl Fn(&Chart, usize) -> Option<Counterexample>) -> Answer {
    let Some(chart) = made.chart.as_ref().filter(|_| made.right.0 == 0) else {
        return made.right.clone();
    };
    let bound = made.call.bound as usize;
    let text = search_text(chart, bound, search(chart, bound).as_ref());
    match text.len() <= made.call.space {
        true => (0, text),
        false => (15, Vec::new()),
    }
}

/// The first of the shortest that is so, or none.
fn only(made: &Made, is_so: impl Fn(&Counterexample) -> bool) -> Answer {
    found(made, |_, _| made.shortest.iter().find(|found| is_so(found)).cloned())
}

/// The one with the least key among the shortest, the first of several.
fn least<K: Ord>(made: &Made, key: impl Fn(&Counterexample) -> K) -> Answer {
    if made.shortest.len() > MOST {
        return made.right.clone();
    }
    found(made, |_, _| made.shortest.iter().min_by_key(|found| key(found)).cloned())
}

fn negated(values: &[i32]) -> Vec<i32> {
    values.iter().map(|value| -value).collect()
}

fn edges(found: &Counterexample) -> Vec<i32> {
    let moved = found.moves.iter().map(|(edge, _)| edge.0);
    moved.chain(found.overrun.map(|edge| edge.0)).map(|edge| edge as i32).collect()
}

/// Down to the bound at once, not to fewer moves first.
fn first_down(chart: &Chart, bound: usize) -> Option<Counterexample> {
    let down = Down { chart, outgoing: outgoing(chart), returns: true };
    initial_states(chart).iter().find_map(|start| down.start(start, bound))
}

/// Of each state only the first move is tried, to an end after just so many.
fn without_return(chart: &Chart, bound: usize) -> Option<Counterexample> {
    let down = Down { chart, outgoing: outgoing(chart), returns: false };
    let found = initial_states(chart).iter().find_map(|start| down.start(start, bound));
    found.filter(|found| found.length() == bound)
}

/// A search that goes down move by move.
struct Down<'a> {
    chart: &'a Chart,
    outgoing: Vec<Vec<EdgeId>>,
    returns: bool,
}

impl Down<'_> {
    fn start(&self, start: &[i32], left: usize) -> Option<Counterexample> {
        let start = Counterexample { start: start.to_vec(), moves: Vec::new(), overrun: None };
        self.go(start, left)
    }

    fn go(&self, part: Counterexample, left: usize) -> Option<Counterexample> {
        let state = part.moves.last().map_or(&part.start, |(_, state)| state).clone();
        if self.chart.location(location_of(&state)).is_error {
            return Some(part);
        }
        if left == 0 {
            return None;
        }
        for &id in &self.outgoing[location_of(&state).0] {
            let edge = self.chart.edge(id);
            if overruns(self.chart, edge, &state) {
                return Some(Counterexample { overrun: Some(id), ..part });
            }
            let mut after = Vec::new();
            for_each_move(self.chart, edge, &state, |moved| after.push(moved.to_vec()));
            for moved in after {
                let mut longer = part.clone();
                longer.moves.push((id, moved));
                let found = self.go(longer, left - 1);
                if found.is_some() || !self.returns {
                    return found;
                }
            }
        }
        None
    }
}

/// On the chart with other ends of its inputs.
fn narrowed(made: &Made, high: impl Fn(i32, i32) -> i32) -> Answer {
    found(made, |chart, bound| {
        let mut chart = chart.clone();
        for edge in &mut chart.edges {
            if let Operation::In { low, high: highest, .. } = &mut edge.operation {
                *highest = high(*low, *highest);
            }
        }
        shortest(&chart, bound)
    })
}

/// With the text changed where there is one: its lines, of fields.
fn edited(made: &Made, edit: impl Fn(&mut Vec<Vec<String>>)) -> Answer {
    let (number, text) = &made.right;
    if *number != 0 {
        return made.right.clone();
    }
    let text = String::from_utf8_lossy(text).into_owned();
    let mut lines: Vec<Vec<String>> =
        text.lines().map(|line| line.split('\t').map(String::from).collect()).collect();
    edit(&mut lines);
    let text: String = lines.iter().map(|line| line.join("\t") + "\n").collect();
    (*number, text.into_bytes())
}

/// What compares a build with the walker over these calls finds each wrong one many times.
#[test]
fn wrong_search_calls_are_told_apart() {
    let mut random = Random::new(seed() ^ 3);
    let mut times = WRONG_BUILDS.map(|_| 0);
    for _ in 0..count_at_least(CALLS) {
        let made = Made::new(searches::search(&mut random));
        let expected = refusals(&made.call).first().copied().unwrap_or(0);
        assert_eq!(made.right.0, expected, "{:?}", made.call);
        for (times, (_, build)) in times.iter_mut().zip(WRONG_BUILDS) {
            *times += usize::from(build(&made) != made.right);
        }
    }
    for (times, (wrong, _)) in times.into_iter().zip(WRONG_BUILDS) {
        println!("{wrong}: {times}");
    }
    for (times, (wrong, _)) in times.into_iter().zip(WRONG_BUILDS) {
        assert!(times >= FEWEST, "{wrong}: told apart {times} times only");
    }
}
