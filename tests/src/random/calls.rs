//! Random calls on lent words, and disturbances of what the words hold.

use super::{inputs, Random};
use crate::analysis::{Merge, Settings, Stop, Verdict, MAX_ITERATIONS};
use crate::begins::Begin;
use crate::calls::held_chart;
use crate::chart::{Chart, LocationId, ORIGIN_WORDS};
use crate::domain::TOP;
use crate::listing::Report;
use crate::memory::{Memory, JUNK};

#[derive(Clone, Copy, Debug)]
pub enum Call {
    Begin(Begin),
    Run { budget: i32 },
    Report(Report),
}

/// More than any listing or path takes.
pub const REPORT_BYTES: usize = 24_576;

const REFUSED_CAPACITIES: [i32; 5] = [0, 257, -1, i32::MIN, i32::MAX];
const REFUSED_BUDGETS: [i32; 4] = [-1, 60_001, i32::MIN, i32::MAX];

/// Any call, mostly one with settings that are not refused.
pub fn call(random: &mut Random, chart: &Chart) -> Call {
    match random.below(13) {
        0..=2 => Call::Begin(begin(random, chart)),
        3..=7 => Call::Run {
            budget: match random.below(12) {
                0 => random.pick(&REFUSED_BUDGETS),
                1..=5 => random.between(0, 3),
                6 | 7 => random.between(4, 40),
                _ => inputs::budget(random),
            },
        },
        8 | 9 => Call::Report(Report::Listing),
        _ => Call::Report(Report::Path),
    }
}

/// How many bytes to lend for a listing or a path: enough for any, just enough, one more or one fewer, or few.
pub fn report_space(random: &mut Random, memory: &Memory, report: Report) -> usize {
    match random.below(8) {
        0 => random.below(25),
        1 => random.below(200),
        2..=4 => {
            let length = memory.report(report, REPORT_BYTES).1.len();
            (length + random.below(3)).saturating_sub(1)
        }
        _ => REPORT_BYTES,
    }
}

/// Mostly one that is not refused, now and then one with so much wrong that the order of refusals is seen.
pub fn begin(random: &mut Random, chart: &Chart) -> Begin {
    let wrong = if random.percent(12) { 50 } else { 5 };
    let mut settings = random.settings();
    if random.percent(wrong) {
        settings.merge = Merge::Sep;
        settings.stop = Stop::Join;
    }
    let capacity = match random.percent(wrong) {
        true => random.pick(&REFUSED_CAPACITIES),
        false => inputs::capacity(random, chart, settings),
    };
    let budget = match random.percent(wrong) {
        true => random.pick(&REFUSED_BUDGETS),
        false => begin_budget(random, chart, settings, capacity),
    };
    Begin { settings, capacity, budget }
}

/// Often none or few, so that a run has something left to do; and just enough, or one too few or too many.
fn begin_budget(random: &mut Random, chart: &Chart, settings: Settings, capacity: i32) -> i32 {
    match random.below(10) {
        0..=2 => 0,
        3..=5 => random.between(1, 3),
        6 | 7 if !REFUSED_CAPACITIES.contains(&capacity) => {
            (inputs::iterations(chart, settings, capacity) + random.between(-1, 1)).max(0)
        }
        _ => inputs::budget(random),
    }
}

/// What a begin with this capacity may be lent: words before the first one, or an analysis that is under
/// way or has ended, at times disturbed or at the limit of its iterations.
pub fn lent_to_begin(random: &mut Random, chart: &Chart, capacity: i32) -> Memory {
    let mut memory = Memory::new(chart, 256 * chart.slot_width(), 256);
    if random.percent(80) {
        let settings = random.settings();
        let (capacity, budget) =
            (inputs::capacity(random, chart, settings), inputs::budget(random));
        memory.begin(settings, capacity, if random.percent(50) { budget } else { budget.min(2) });
    }
    let mut lent = relend(random, &memory, capacity.unsigned_abs());
    match random.below(10) {
        0 | 1 => lent.record.iterations = MAX_ITERATIONS,
        2..=5 => disturb(random, &mut lent),
        6 => disturb_word(random, &mut lent.chart),
        _ => {}
    }
    lent
}

/// What a path call may be lent, and how many bytes: mostly an analysis with an alarm, at times disturbed
/// or with so much wrong that the order of refusals is seen.
pub fn lent_to_path(random: &mut Random) -> (Memory, usize) {
    let memory = loop {
        let (chart, settings, capacity) = inputs::analysis(random);
        let mut memory = Memory::new(&chart, 256 * chart.slot_width(), 256);
        let budget = if random.percent(80) { MAX_ITERATIONS as i32 } else { random.between(0, 3) };
        memory.begin(settings, capacity, budget);
        if memory.record.verdict == Verdict::Alarm || random.percent(30) {
            break memory;
        }
    };
    let mut lent = relend(random, &memory, memory.record.capacity);
    match random.below(10) {
        0 | 1 => disturb(random, &mut lent),
        2 | 3 => disturb_origin(random, &mut lent),
        4 => (0..3).for_each(|_| disturb(random, &mut lent)),
        _ => {}
    }
    let space = report_space(random, &lent, Report::Path);
    (lent, space)
}

/// Buffers of other sizes with the same words as far as they go, anything
/// after; mostly enough for any capacity, else about what `capacity` takes.
pub fn relend(random: &mut Random, memory: &Memory, capacity: u32) -> Memory {
    const ENOUGH: usize = 256;
    let width = memory.slot_width();
    let capacity = capacity.min(2 * ENOUGH as u32) as usize;
    let size = |random: &mut Random, held: usize, words: usize| match random.below(10) {
        0 => words.saturating_sub(1),
        1 => words,
        _ => held.max(ENOUGH * width) + random.below(20),
    };
    let mut lent = memory.clone();
    let table = size(random, memory.table.len(), capacity * width);
    lent.table.resize(table, JUNK);
    let waitlist = size(random, memory.waitlist.len(), capacity);
    lent.waitlist.resize(waitlist, JUNK);
    lent
}

/// Changes one or two things that a call may find out of form, or in form and unusual.
pub fn disturb(random: &mut Random, memory: &mut Memory) {
    for _ in 0..random.pick(&[1, 1, 2]) {
        let record = memory.record;
        match random.below(20) {
            0 | 1 => disturb_word(random, &mut memory.chart),
            2 => {
                let length = random.below(memory.chart.len() + 1);
                memory.chart.truncate(length.max(1));
            }
            3 => memory.record.used = near(random, record.used),
            4 => memory.record.waiting = near(random, record.waiting),
            5 => memory.record.capacity = near(random, record.capacity),
            // More often than another, since it must meet an analysis that is in form and open.
            6..=8 => {
                let iterations = [0, 59_998, 59_999, 60_000, 60_000, 60_000, 60_001];
                memory.record.iterations = random.pick(&iterations);
            }
            9 => memory.record.edge = near(random, record.edge),
            10 => memory.record.verdict = random.pick(&Verdict::ALL),
            11 => memory.record.settings.stop = random.pick(&Stop::ALL),
            12 => disturb_word(random, &mut memory.waitlist),
            13 => {
                let waiting = (record.waiting as usize).min(memory.waitlist.len());
                random.shuffle(&mut memory.waitlist[..waiting]);
            }
            14..=17 => disturb_origin(random, memory),
            _ => {
                // A little beyond the slots in use, where words are 0.
                let words = (record.used as usize + 2) * memory.slot_width();
                let words = words.min(memory.table.len());
                disturb_word(random, &mut memory.table[..words]);
            }
        }
    }
}

/// Gives a slot in use another origin: mostly one that is right but for one thing, or right in all.
fn disturb_origin(random: &mut Random, memory: &mut Memory) {
    let width = memory.slot_width();
    let used = (memory.record.used as usize).min(memory.table.len() / width);
    let Some(chart) = held_chart(&memory.chart).ok().filter(|_| used > 0) else {
        return;
    };
    let locations: Vec<i32> = memory.table.chunks(width).map(|words| words[0]).collect();
    let sort = random.below(16);
    // Not every slot has an edge for each sort.
    for _ in 0..10 {
        // Slot 0 more often than another would be.
        let slot = if random.percent(6) { 0 } else { random.below(used) };
        if let Some(origin) = odd_origin(random, &chart, &locations[..used], slot, sort) {
            memory.table[(slot + 1) * width - ORIGIN_WORDS..][..ORIGIN_WORDS]
                .copy_from_slice(&origin);
            return;
        }
    }
}

/// A parent and an edge for a slot, among slots at these locations.
fn odd_origin(
    random: &mut Random,
    chart: &Chart,
    locations: &[i32],
    slot: usize,
    sort: usize,
) -> Option<[i32; ORIGIN_WORDS]> {
    if slot == 0 {
        let parent = random.pick(&[65_535, 65_535, 65_534, 65_536, 0, -1]);
        return Some([parent, random.pick(&[0, 0, 1, -1])]);
    }
    let earlier = random.below(slot);
    let (parent, is_from, is_to) = match sort {
        0 => (earlier, true, true),
        1 => return Some([65_535, 0]),
        2 | 3 => {
            let past = chart.edges.len() as i32 + 1;
            return Some([earlier as i32, random.pick(&[0, 0, -1, past, past, i32::MAX])]);
        }
        4..=6 => (slot, true, true),
        7..=9 => (slot + 1 + random.below(3), true, true),
        10..=12 => (earlier, false, true),
        _ => (earlier, true, false),
    };
    let is_at = |location: LocationId, of: usize| locations.get(of) == Some(&(location.0 as i32));
    let edges: Vec<i32> = (1..)
        .zip(&chart.edges)
        .filter(|(_, edge)| is_at(edge.from, parent) == is_from && is_at(edge.to, slot) == is_to)
        .map(|(number, _)| number)
        .collect();
    let edge = random.pick(edges.get(..).filter(|edges| !edges.is_empty())?);
    // An edge that leads here, from a slot that there is not.
    let parent = match random.percent(10) {
        true => random.pick(&[-1, 65_535, locations.len() as i32, i32::MIN, i32::MAX]),
        false => parent as i32,
    };
    Some([parent, edge])
}

/// Gives one word another value that may just be or just not be in form.
pub fn disturb_word(random: &mut Random, words: &mut [i32]) {
    if words.is_empty() {
        return;
    }
    let place = random.below(words.len());
    words[place] = match random.below(6) {
        0 => words[place].wrapping_add(1),
        1 => words[place].wrapping_sub(1),
        2 => random.pick(&[TOP, TOP + 1, -32_768, -32_769, 32_767, i32::MIN, i32::MAX]),
        3 => random.between(0, 300),
        4 => words[random.below(words.len())],
        _ => random.between(-2, 3),
    };
}

fn near(random: &mut Random, count: u32) -> u32 {
    match random.below(6) {
        0 => 0,
        1 => count.wrapping_sub(1),
        2 => count.saturating_add(1),
        3 => random.pick(&[255, 256, 257, 300, u32::MAX]),
        _ => random.below(8) as u32,
    }
}
