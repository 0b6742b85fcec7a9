//! The generators reach everything there is to compare: every operation and
//! relation, every refusal number, every verdict and every corner of an analysis,
//! of a begin, of a path and of a search; and neither overruns nor safe charts are rare.

use std::ops::RangeInclusive;

use reference::analysis::{Analysis, Merge, Verdict};
use reference::begins::{begin_corners, begin_corners_of, spent_corner_of, spent_corners};
use reference::chart::{Chart, Operand, Operation};
use reference::coverage::{
    corner_labels, corner_labels_of, path_labels, program_label, program_labels, search_labels, Met,
};
use reference::explorer::Explorer;
use reference::listing::Report;
use reference::paths::{alarm_corners, alarm_corners_of, path_corners, path_corners_of};
use reference::program::{printed, read_go_line, walk, Asked};
use reference::random::charts::small;
use reference::random::{
    calls, count_at_least, inputs, permitted_settings, searches, seed, Random,
};
use reference::reader;
use reference::search::check_bound;
use reference::searches::{found_corners, found_corners_of, search_corners, search_corners_of};
use reference::text;

const INPUTS: usize = 14_000;
const BEGINS: usize = 8_000;
const PATHS: usize = 10_000;
const SEARCHES: usize = 15_000;
/// Of each, so that another seed finds it too.
const FEWEST: usize = 20;
/// Of what becomes of a budget.
const FEWEST_BUDGETS: usize = 5;

#[test]
fn inputs_meet_every_refusal_verdict_and_corner() {
    let mut random = Random::new(seed());
    let (mut met, mut corners, mut budgets) = (Met::new(), Met::new(), Met::new());
    let (mut met_by_path, mut paths) = (Met::new(), Met::new());
    for _ in 0..count_at_least(INPUTS) {
        let input = inputs::program_input(&mut random);
        let walked = walk(&input);
        met.add(program_label(&printed(Report::Listing, &walked)));
        met_by_path.add(program_label(&printed(Report::Path, &walked)));
        if let Ok((chart, analysis)) = walked {
            corners.add_all(corner_labels_of(&analysis));
            paths.add_all(alarm_corners_of(&chart, &analysis));
            let (go, _) = read_go_line(&input).expect("it is accepted");
            budgets.add(spent_corner_of(go.budget, &analysis));
        }
    }
    met.assert_exactly(&program_labels(), FEWEST);
    corners.assert_exactly(&corner_labels(), FEWEST);
    budgets.assert_exactly(&spent_corners(), FEWEST_BUDGETS);
    met_by_path.assert_exactly(&path_labels(), FEWEST);
    paths.assert_exactly(&alarm_corners(), FEWEST);
}

#[test]
fn path_calls_meet_every_corner() {
    let mut random = Random::new(seed() ^ 5);
    let mut corners = Met::new();
    for _ in 0..count_at_least(PATHS) {
        let (lent, space) = calls::lent_to_path(&mut random);
        corners.add_all(path_corners_of(&lent, space));
    }
    corners.assert_exactly(&path_corners(), FEWEST);
}

#[test]
fn begins_meet_every_corner() {
    let mut random = Random::new(seed() ^ 4);
    let mut corners = Met::new();
    for _ in 0..count_at_least(BEGINS) {
        let chart = inputs::chart(&mut random);
        let begin = calls::begin(&mut random, &chart);
        let lent = calls::lent_to_begin(&mut random, &chart, begin.capacity);
        corners.add_all(begin_corners_of(begin, &lent));
    }
    corners.assert_exactly(&begin_corners(), FEWEST);
}

#[test]
fn search_calls_meet_every_corner() {
    let mut random = Random::new(seed() ^ 6);
    let mut corners = Met::new();
    for _ in 0..count_at_least(SEARCHES) {
        corners.add_all(search_corners_of(&searches::search(&mut random)));
    }
    corners.assert_exactly(&search_corners(), FEWEST);
}

#[test]
fn search_inputs_meet_every_refusal_and_corner() {
    let mut random = Random::new(seed() ^ 7);
    let (mut met, mut corners) = (Met::new(), Met::new());
    for _ in 0..count_at_least(SEARCHES) {
        let (bound, file) = searches::program_input(&mut random);
        met.add(program_label(&Asked::Search(bound.as_bytes()).respond(&file)));
        let bound = text::number(bound.as_bytes()).and_then(|bound| check_bound(bound).ok());
        if let (Some(bound), Ok(chart)) = (bound, reader::read(&file)) {
            corners.add_all(found_corners_of(&chart, bound));
        }
    }
    met.assert_exactly(&search_labels(), FEWEST);
    corners.assert_exactly(&found_corners(), FEWEST);
}

fn assert_share(what: &str, part: usize, whole: usize, percent: RangeInclusive<usize>) {
    println!("{what}: {part} of {whole}");
    let range = whole * percent.start()..=whole * percent.end();
    assert!(range.contains(&(part * 100)), "{what}: {part} of {whole}, not {percent:?} percent");
}

/// A count, an error location or an overrun must not end most walks early: with `sep` hundreds of slots
/// are followed, with `join` one slot after the other is widened and followed again.
#[test]
fn long_walks_are_not_rare() {
    let mut random = Random::new(seed() ^ 3);
    let (mut walks, mut long_walks) = ([0, 0], [0, 0]);
    for _ in 0..count_at_least(INPUTS) {
        if let Ok((_, analysis)) = walk(&inputs::program_input(&mut random)) {
            let (place, long) = match analysis.settings.merge {
                Merge::Sep => (0, 100),
                Merge::Join => (1, 8),
            };
            walks[place] += 1;
            long_walks[place] += usize::from(analysis.iterations >= long);
        }
    }
    assert_share("with sep, 100 iterations", long_walks[0], walks[0], 5..=30);
    assert_share("with join, 8 iterations", long_walks[1], walks[1], 2..=20);
}

/// Of small charts and what is made of them with enough room.
#[test]
fn overruns_are_neither_rare_nor_the_rule() {
    let mut random = Random::new(seed() ^ 2);
    let charts = count_at_least(3_000);
    let (mut overrunning, mut erring, mut false_alarms) = (0, 0, 0);
    let mut by_settings = permitted_settings().map(|settings| (settings, 0, 0, 0));
    for _ in 0..charts {
        let chart = small(&mut random);
        let explorer = Explorer::new(&chart, 10_000).expect("small charts have few states");
        overrunning += usize::from(explorer.overruns());
        erring += usize::from(explorer.reaches_error());
        for (settings, safe, alarms, overruns) in &mut by_settings {
            let analysis = Analysis::begin(&chart, *settings, 256, 60_000);
            *safe += usize::from(analysis.verdict == Verdict::Safe);
            *alarms += usize::from(analysis.verdict == Verdict::Alarm);
            // An alarm along an edge to an ordinary location.
            let is_overrun =
                analysis.edge.is_some_and(|id| !chart.location(chart.edge(id).to).is_error);
            *overruns += usize::from(is_overrun);
            false_alarms += usize::from(is_overrun && !explorer.overruns());
        }
    }
    assert_share("charts with a run that overruns", overrunning, charts, 20..=50);
    assert_share("charts with a run to an error location", erring, charts, 12..=40);
    let mut all_overruns = 0;
    for (settings, safe, alarms, overruns) in by_settings {
        assert_share(&format!("{settings:?}, safe"), safe, charts, 35..=70);
        assert_share(&format!("{settings:?}, overruns"), overruns, alarms, 35..=75);
        all_overruns += overruns;
    }
    assert_share("overruns of no run", false_alarms, all_overruns, 3..=25);
}

#[test]
fn charts_have_every_operation() {
    let mut random = Random::new(seed() ^ 1);
    let mut met = Met::new();
    for _ in 0..count_at_least(4_000) {
        let chart = inputs::chart(&mut random);
        for label in labels(&chart) {
            met.add(label);
        }
    }
    let mut wanted: Vec<String> = Vec::new();
    for operation in ["set", "add", "sub", "if eq", "if ne", "if lt", "if le", "if gt", "if ge"] {
        wanted.push(format!("{operation}, number"));
        wanted.push(format!("{operation}, variable"));
    }
    for label in [
        "skip",
        "in, one value",
        "in, several values",
        "literal -32768",
        "literal 32767",
        "a variable with itself",
        "self-loop",
        "no variable",
        "eight variables",
        "init *",
        "init * on one value",
        "range from -32768",
        "range to 32767",
        "error location at the start",
    ] {
        wanted.push(label.to_string());
    }
    met.assert_exactly(&wanted, FEWEST);
}

fn labels(chart: &Chart) -> Vec<String> {
    let mut labels = Vec::new();
    let mut label = |holds: bool, text: &str| {
        if holds {
            labels.push(text.to_string());
        }
    };
    label(chart.variables.is_empty(), "no variable");
    label(chart.variables.len() == 8, "eight variables");
    label(chart.locations[0].is_error, "error location at the start");
    for variable in &chart.variables {
        label(variable.init.is_none(), "init *");
        label(variable.init.is_none() && variable.low == variable.high, "init * on one value");
        label(variable.low == -32_768, "range from -32768");
        label(variable.high == 32_767, "range to 32767");
    }
    for edge in &chart.edges {
        label(edge.from == edge.to, "self-loop");
        let (word, target, operands) = match edge.operation {
            Operation::Skip => {
                label(true, "skip");
                continue;
            }
            Operation::In { low, high, .. } => {
                label(true, if low == high { "in, one value" } else { "in, several values" });
                continue;
            }
            Operation::Set { target, value } => ("set".to_string(), target, vec![value]),
            Operation::Add { target, left, right } => {
                ("add".to_string(), target, vec![left, right])
            }
            Operation::Sub { target, left, right } => {
                ("sub".to_string(), target, vec![left, right])
            }
            Operation::If { target, relation, right } => {
                (format!("if {}", relation.word()), target, vec![right])
            }
        };
        for operand in operands {
            match operand {
                Operand::Number(number) => {
                    label(true, &format!("{word}, number"));
                    label(number == -32_768, "literal -32768");
                    label(number == 32_767, "literal 32767");
                }
                Operand::Variable(variable) => {
                    label(true, &format!("{word}, variable"));
                    label(variable == target, "a variable with itself");
                }
            }
        }
    }
    labels
}
