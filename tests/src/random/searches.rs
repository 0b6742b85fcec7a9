//! Random searches, of the library's call and of the program.
//!
//! A search may be made by going down move by move without remembering a state: each one here is small
//! enough for that.

use super::{calls, charts, damage, inputs, Random};
use crate::calls::held_chart;
use crate::chart::{Chart, Operation};
use crate::encoding::encode;
use crate::memory;
use crate::reader;
use crate::renderer::render;
use crate::search::{check_size, shortest, MAX_BOUND};
use crate::searches::{self, Search};

/// More than any text takes.
pub const SEARCH_BYTES: usize = 1_024;

/// The most edges that a search without memory may look at.
const MOST_EFFORT: usize = 300_000;

const REFUSED_BOUNDS: [i32; 7] = [-1, 9, -8, 264, 65_544, i32::MIN, i32::MAX];

/// Arguments in place of a bound: malformed, or numbers that are none, some of them one by their last bits.
#[rustfmt::skip]
pub const ODD_BOUNDS: [&str; 40] = [
    "-1", "9", "08", "", "x", "-0", "00", "+1", "--1", "-", "1x", "x1", " 1", "1 ", "1\n", "\n1", "1\t", "1\t2",
    "0x1", "1e0", "1.0", "*", "$0", "%d", "é", "10", "-8", "256", "264", "-248", "32767", "32768", "-32768",
    "65544", "99999", "4294967296", "4294967304", "-4294967288", "18446744073709551616", "18446744073709551624",
];

/// A chart to search.
pub fn chart(random: &mut Random) -> Chart {
    let mut chart = match random.below(20) {
        0..=5 => charts::stairs(random),
        6..=9 => charts::rivals(random),
        10..=12 => charts::climb(random),
        13..=15 => charts::wide(random),
        16..=18 => charts::small(random),
        _ => inputs::chart(random),
    };
    if random.percent(3) {
        chart.locations[Chart::START.0].is_error = true;
    }
    chart
}

/// Often the largest, or just what the shortest counterexample takes, or one fewer; and the largest of those that
/// are small enough where this one is not.
pub fn bound(random: &mut Random, chart: &Chart) -> usize {
    let wanted = match random.below(20) {
        0..=7 => MAX_BOUND,
        8..=13 => tight(random, chart),
        _ => random.below(MAX_BOUND + 1),
    };
    affordable(chart, wanted)
}

fn tight(random: &mut Random, chart: &Chart) -> usize {
    let bound = affordable(chart, MAX_BOUND);
    let found =
        Some(()).filter(|()| check_size(chart).is_ok()).and_then(|()| shortest(chart, bound));
    found.map_or(MAX_BOUND, |found| found.length().saturating_sub(random.below(2)))
}

fn affordable(chart: &Chart, wanted: usize) -> usize {
    match check_size(chart) {
        Ok(()) => searches::affordable(chart, wanted, MOST_EFFORT),
        Err(_) => wanted,
    }
}

/// A call, mostly one that goes through, now and then one with so much wrong that the order of refusals is seen.
pub fn search(random: &mut Random) -> Search {
    let wrong = if random.percent(12) { 50 } else { 5 };
    let chart = if random.percent(wrong / 2) { charts::wide(random) } else { chart(random) };
    let mut words = encode(&chart);
    if random.percent(wrong) {
        (0..random.pick(&[1, 1, 2])).for_each(|_| calls::disturb_word(random, &mut words));
    }
    if random.percent(wrong / 4) {
        words.truncate(random.below(words.len() + 1));
    }
    if random.percent(wrong / 5) {
        words.iter_mut().for_each(|word| *word = random.between(-1, 3));
    }
    if random.percent(30) {
        let past = (0..random.between(1, 20)).map(|_| random.between(-40_000, 40_000));
        words.extend(past.collect::<Vec<_>>());
    }
    let bound = match held_chart(&words) {
        Ok(chart) => bound(random, &chart),
        Err(_) => random.below(MAX_BOUND + 1),
    };
    let bound = if random.percent(wrong) { random.pick(&REFUSED_BOUNDS) } else { bound as i32 };
    let space = space(random, &words, bound, wrong);
    Search { chart: words, bound, space }
}

/// Enough for any text, just enough, one more or one fewer, or few.
fn space(random: &mut Random, chart: &[i32], bound: i32, wrong: usize) -> usize {
    match random.below(8) {
        0..=3 => {
            let length = memory::search(chart, bound, SEARCH_BYTES).1.len();
            (length + random.below(3)).saturating_sub(1)
        }
        _ if random.percent(wrong) => random.below(8),
        _ => SEARCH_BYTES,
    }
}

/// The program's argument and its input.
pub fn program_input(random: &mut Random) -> (String, Vec<u8>) {
    let mut file = render(&chart(random));
    if random.percent(30) {
        damage::chart_file(random, &mut file);
    }
    (bound_argument(random, &file), file)
}

fn bound_argument(random: &mut Random, file: &[u8]) -> String {
    match random.below(20) {
        0 => random.pick(&ODD_BOUNDS).to_string(),
        1 if random.percent(20) => {
            let digit = random.pick(&["0", "1", "9", "-", "00", "8 "]);
            digit.repeat(random.pick(&[2, 19, 20, 63, 64, 65, 100, 4_096, 30_000]))
        }
        _ => match reader::read(file) {
            Ok(chart) => bound(random, &chart).to_string(),
            Err(_) => random.below(MAX_BOUND + 1).to_string(),
        },
    }
}

/// One of which an analysis knows every value: no `*`, and inputs of one value; searched through with any bound.
pub fn known_chart(random: &mut Random) -> Chart {
    loop {
        let mut chart = match random.below(10) {
            0..=2 => charts::stairs(random),
            3 | 4 => charts::climb(random),
            _ => charts::small(random),
        };
        for variable in &mut chart.variables {
            variable.init.get_or_insert(random.between(variable.low, variable.high));
        }
        for edge in &mut chart.edges {
            if let Operation::In { low, high, .. } = &mut edge.operation {
                *high = *low;
            }
        }
        if affordable(&chart, MAX_BOUND) == MAX_BOUND {
            return chart;
        }
    }
}
