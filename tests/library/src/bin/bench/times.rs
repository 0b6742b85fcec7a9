//! Times. A round times a batch of calls of each, and they take turns at going first; shown are the
//! median over the rounds and the quartiles. The ratio is taken in each round, so that what slows the
//! machine down for a while slows both.

use std::time::{Duration, Instant};

use library::walker::WALKER;
use library::{Calls, Record, LIBRARY};

use crate::subjects::{
    charts, costliest, growth, searches, Call, Lent, BEGIN_ZERO, LISTING, PATH, READ,
};

/// For one row; the fewest rounds even where that takes longer.
const TIME: Duration = Duration::from_secs(2);
const FEWEST_ROUNDS: usize = 21;
const MOST_ROUNDS: usize = 501;
const BATCH: Duration = Duration::from_micros(500);

pub fn print() {
    println!(
        "| chart | call | does | library, µs | walker, µs | library / walker | library, iterations a second |"
    );
    println!("|---|---|---|---|---|---|---|");
    for subject in charts().into_iter().chain([costliest()]) {
        for &call in subject.calls {
            let mut lent = subject.lent();
            let Times { library, walker, ratio } = measure(&mut lent, call);
            let (does, rate) = match call.name {
                name if name == READ.name => (format!("{} bytes", subject.file.len()), None),
                name if [LISTING.name, PATH.name].contains(&name) => {
                    (format!("{} bytes", lent.length), None)
                }
                name if name == BEGIN_ZERO.name => (walked(&lent.record), None),
                _ => (walked(&lent.record), Some(iterations(&lent) * 1e6 / library.median)),
            };
            let rate = rate.map_or("-".to_string(), |rate| format!("{rate:.0}"));
            println!(
                "| {} | {} | {does} | {library} | {walker} | {ratio} | {rate} |",
                subject.name, call.name
            );
        }
    }
    println!();
    print_searches();
    println!("\n| chart | call | library, µs an iteration | walker, µs an iteration | library / walker |");
    println!("|---|---|---|---|---|");
    for subject in growth() {
        for &call in subject.calls {
            let mut lent = subject.lent();
            let Times { library, walker, ratio } = measure(&mut lent, call);
            let each = iterations(&lent);
            let (library, walker) = (library.over(each), walker.over(each));
            println!("| {} | {} | {library} | {walker} | {ratio} |", subject.name, call.name);
        }
    }
}

pub fn print_searches() {
    println!("| chart | call | finds | library, µs | walker, µs | library / walker |");
    println!("|---|---|---|---|---|---|");
    for subject in searches() {
        for &call in subject.calls {
            let mut lent = subject.lent();
            let Times { library, walker, ratio } = measure(&mut lent, call);
            let (name, finds) = (&subject.name, lent.header());
            println!("| {name} | {} | {finds} | {library} | {walker} | {ratio} |", call.name);
        }
    }
}

fn walked(record: &Record) -> String {
    let verdict = ["open", "safe", "alarm", "room"][record.verdict as usize];
    format!("{} iterations, {} slots, {verdict}", record.iterations, record.used)
}

pub fn iterations(lent: &Lent) -> f64 {
    f64::from(lent.record.iterations)
}

struct Times {
    library: Spread,
    walker: Spread,
    ratio: Spread,
}

fn measure(lent: &mut Lent, call: Call) -> Times {
    assert_alike(lent, call);
    let (calls, batch) = calls_in_a_batch(lent, call);
    let rounds = (TIME.as_micros() as f64 / (2.0 * batch)) as usize;
    let (mut library, mut walker, mut ratio) = (Vec::new(), Vec::new(), Vec::new());
    for round in 0..rounds.clamp(FEWEST_ROUNDS, MOST_ROUNDS) {
        let mut time = |of| microseconds(lent, call, of, calls);
        let (one, other) = if round % 2 == 0 {
            let one = time(LIBRARY);
            (one, time(WALKER))
        } else {
            let other = time(WALKER);
            (time(LIBRARY), other)
        };
        library.push(one);
        walker.push(other);
        ratio.push(one / other);
    }
    Times { library: Spread::of(library), walker: Spread::of(walker), ratio: Spread::of(ratio) }
}

/// Only what comes to the same is worth comparing.
fn assert_alike(lent: &Lent, call: Call) {
    let (mut one, mut other) = (lent.clone(), lent.clone());
    (call.make)(&mut one, LIBRARY);
    (call.make)(&mut other, WALKER);
    assert!(one == other, "the library and the walker differ");
}

/// As many as fill a batch by the slower of the two, and how many microseconds that takes.
fn calls_in_a_batch(lent: &mut Lent, call: Call) -> (u32, f64) {
    let mut calls = 1;
    loop {
        let each = [LIBRARY, WALKER].map(|of| microseconds(lent, call, of, calls));
        let batch = each[0].max(each[1]) * f64::from(calls);
        if batch >= BATCH.as_micros() as f64 {
            return (calls, batch);
        }
        calls *= 2;
    }
}

/// Of one call, over so many.
fn microseconds(lent: &mut Lent, call: Call, of: Calls, calls: u32) -> f64 {
    let begun = Instant::now();
    for _ in 0..calls {
        (call.make)(lent, of);
    }
    begun.elapsed().as_secs_f64() * 1e6 / f64::from(calls)
}

struct Spread {
    median: f64,
    low: f64,
    high: f64,
}

impl Spread {
    fn of(mut values: Vec<f64>) -> Self {
        values.sort_by(f64::total_cmp);
        let at = |quarter: usize| values[(values.len() - 1) * quarter / 4];
        Spread { median: at(2), low: at(1), high: at(3) }
    }

    fn over(self, count: f64) -> Self {
        Spread { median: self.median / count, low: self.low / count, high: self.high / count }
    }
}

impl std::fmt::Display for Spread {
    fn fmt(&self, formatter: &mut std::fmt::Formatter<'_>) -> std::fmt::Result {
        let Spread { median, low, high } = self;
        let digits = if *median < 100.0 { 2 } else { 0 };
        write!(formatter, "{median:.digits$} ({low:.digits$} to {high:.digits$})")
    }
}
