//! Random inputs of the walk program.

use super::{charts, damage, permitted_settings, Random};
use crate::analysis::{Analysis, Settings, MAX_CAPACITY, MAX_ITERATIONS};
use crate::chart::Chart;
use crate::renderer::render;

/// A go line and a chart, of which more than a quarter have been damaged.
pub fn program_input(random: &mut Random) -> Vec<u8> {
    if random.percent(40) {
        return corner_input(random);
    }
    let chart = chart(random);
    let (mut input, mut file) = (go_line(random, &chart), render(&chart));
    if random.percent(10) {
        damage::go_line(random, &mut input);
    }
    if random.percent(2) {
        damage::go_line_alone(random, &mut input);
        return input;
    }
    if random.percent(40) {
        damage::chart_file(random, &mut file);
    }
    input.extend(file);
    input
}

/// An accepted input for what few others meet: all 256 slots used, a taken slot that waits again
/// when its iteration ends in an alarm or in a full table, an overrun of each sort, a comparison
/// of each sort with one side unspecific, or a long path.
fn corner_input(random: &mut Random) -> Vec<u8> {
    let (sep, join) = (&permitted_settings()[..2], &permitted_settings()[2..]);
    let (chart, settings, capacity) = match random.below(16) {
        0 | 1 => (charts::fan(random), random.pick(sep), 256),
        14 | 15 => long_way(random),
        2..=5 => {
            let (chart, settings) = (charts::hub(random), random.pick(join));
            let capacity = tight_capacity(random, &chart, settings);
            (chart, settings, capacity)
        }
        6..=10 => {
            let (chart, settings) = (charts::brink(random), random.settings());
            let capacity = capacity(random, &chart, settings);
            (chart, settings, capacity)
        }
        _ => (charts::gates(random), random.settings(), 256),
    };
    let budget = match random.percent(10) {
        true => tight_budget(random, &chart, settings, capacity),
        false => 60_000,
    };
    [go_line_of(settings, capacity, budget), render(&chart)].concat()
}

/// Any chart, with settings and a capacity for it; more often than a chart alone would a long path comes of it.
pub fn analysis(random: &mut Random) -> (Chart, Settings, i32) {
    if random.percent(15) {
        return long_way(random);
    }
    let (chart, settings) = (chart(random), random.settings());
    let capacity = capacity(random, &chart, settings);
    (chart, settings, capacity)
}

fn long_way(random: &mut Random) -> (Chart, Settings, i32) {
    (charts::chain(random), random.pick(&permitted_settings()[..2]), MAX_CAPACITY as i32)
}

/// A chart of any shape; some have an error location at their start, which few would have by chance.
pub fn chart(random: &mut Random) -> Chart {
    let mut chart = any_chart(random);
    if random.percent(3) {
        chart.locations[Chart::START.0].is_error = true;
    }
    chart
}

fn any_chart(random: &mut Random) -> Chart {
    let shape = match random.below(26) {
        0..=3 => charts::LARGE,
        4 | 5 => charts::DEEP,
        6..=8 => return charts::hub(random),
        9..=12 => return charts::brink(random),
        13..=15 => return charts::gates(random),
        16..=18 => return charts::fan(random),
        19..=21 => return charts::chain(random),
        _ => charts::SMALL,
    };
    charts::chart(random, shape)
}

fn go_line(random: &mut Random, chart: &Chart) -> Vec<u8> {
    let settings = random.settings();
    let capacity = capacity(random, chart, settings);
    let budget = match random.below(20) {
        0 => tight_budget(random, chart, settings, capacity),
        1 | 2 => 0,
        _ => budget(random),
    };
    go_line_of(settings, capacity, budget)
}

fn go_line_of(settings: Settings, capacity: i32, budget: i32) -> Vec<u8> {
    let Settings { merge, stop, order } = settings;
    format!("go\t{}\t{}\t{}\t{capacity}\t{budget}\n", merge.word(), stop.word(), order.word())
        .into_bytes()
}

/// Small ones fill up, large ones let an analysis end, and tight ones are just enough or just not.
pub fn capacity(random: &mut Random, chart: &Chart, settings: Settings) -> i32 {
    match random.below(8) {
        0 => random.between(1, 3),
        1 => random.between(4, 12),
        2 | 3 => 256,
        4..=6 => tight_capacity(random, chart, settings),
        _ => random.between(12, 256),
    }
}

/// The slots that an analysis takes, or one fewer.
fn tight_capacity(random: &mut Random, chart: &Chart, settings: Settings) -> i32 {
    let analysis = Analysis::begin(chart, settings, MAX_CAPACITY, MAX_ITERATIONS);
    (analysis.reached.len() as i32 - random.between(0, 1)).max(1)
}

/// One to three iterations fewer than an analysis takes, as far as there are so many.
fn tight_budget(random: &mut Random, chart: &Chart, settings: Settings, capacity: i32) -> i32 {
    (iterations(chart, settings, capacity) - random.between(1, 3)).max(0)
}

/// The iterations that an analysis takes.
pub fn iterations(chart: &Chart, settings: Settings, capacity: i32) -> i32 {
    Analysis::begin(chart, settings, capacity as usize, MAX_ITERATIONS).iterations as i32
}

pub fn budget(random: &mut Random) -> i32 {
    match random.below(6) {
        0 => random.between(0, 4),
        1 => random.between(5, 40),
        2 => 60_000,
        _ => random.between(40, 60_000),
    }
}
