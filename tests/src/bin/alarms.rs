//! How many false alarms a walk program raises, with each merge.
//!
//! `alarms WALK [COUNT [SEED]]` asks the program at the path WALK, `alarms --reference` the walker itself.
//! The edges of each chart lead to an error location; but no run stands there, and none overruns, as all
//! concrete states show. The charts depend on the seed alone.

use std::collections::BTreeMap;
use std::io::Write;
use std::process::{Command, Stdio};

use reference::analysis::Merge;
use reference::chart::{
    Chart, Edge, Location, LocationId, Name, Operand, Operation, Relation, Variable,
};
use reference::explorer::Explorer;
use reference::listing::Report;
use reference::program::respond;
use reference::random::Random;
use reference::renderer::render;

const COUNT: u64 = 240;
const SEED: u64 = 26;
const MAX_STATES: usize = 10_000;

fn main() {
    let words: Vec<String> = std::env::args().skip(1).collect();
    let number = |word: &str| word.parse::<u64>().expect("COUNT and SEED are numbers");
    let (walk, count, seed) = match words.iter().map(String::as_str).collect::<Vec<_>>()[..] {
        [walk] => (walk, COUNT, SEED),
        [walk, count] => (walk, number(count), SEED),
        [walk, count, seed] => (walk, number(count), number(seed)),
        _ => panic!("alarms WALK [COUNT [SEED]], or --reference for WALK"),
    };

    let mut random = Random::new(seed);
    let charts = std::iter::repeat_with(|| chart(&mut random));
    let files: Vec<Vec<u8>> =
        charts.filter(is_harmless).take(count as usize).map(|chart| render(&chart)).collect();
    for merge in Merge::ALL {
        let mut counts: BTreeMap<String, usize> = BTreeMap::new();
        for file in &files {
            *counts.entry(verdict(walk, merge, file)).or_default() += 1;
        }
        let share = 100.0 * counts.get("alarm").copied().unwrap_or(0) as f64 / count as f64;
        let counts: Vec<String> =
            counts.iter().map(|(verdict, count)| format!("{verdict} {count}")).collect();
        println!("{}: {}; {share:.1} % false alarms", merge.word(), counts.join(", "));
    }
}

fn verdict(walk: &str, merge: Merge, file: &[u8]) -> String {
    let go_line = format!("go\t{}\tsep\told\t256\t60000\n", merge.word());
    let input = [go_line.as_bytes(), file].concat();
    let output = match walk {
        "--reference" => respond(Report::Listing, &input),
        program => output(program, &input),
    };
    let listing = String::from_utf8(output).expect("a listing is text");
    let verdict = listing.lines().next().and_then(|header| header.split('\t').nth(4));
    verdict.unwrap_or_else(|| panic!("no verdict in {listing}")).to_string()
}

fn output(program: &str, input: &[u8]) -> Vec<u8> {
    let mut running = Command::new(program)
        .stdin(Stdio::piped())
        .stdout(Stdio::piped())
        .spawn()
        .expect("the program can be started");
    let mut stdin = running.stdin.take().expect("its input is piped");
    stdin.write_all(input).expect("the program reads its input");
    drop(stdin);
    running.wait_with_output().expect("the program ends").stdout
}

/// Whether no run goes wrong, so that every alarm is a false one.
fn is_harmless(chart: &Chart) -> bool {
    let explorer = Explorer::new(chart, MAX_STATES).expect("it has few states");
    !explorer.reaches_error() && !explorer.overruns()
}

/// To each location an edge leads from an earlier one, to the error location by comparisons alone: an analysis
/// that saw no values would always raise an alarm.
fn chart(random: &mut Random) -> Chart {
    let name = |letter: char, index: usize| {
        Name::new(format!("{letter}{index}").as_bytes()).expect("it is short")
    };
    let variables: Vec<Variable> = (0..random.pick(&[2, 2, 3]))
        .map(|index| {
            let high = random.pick(&[1, 1, 2, 3, 4, 9]);
            let init = (!random.percent(40)).then(|| random.between(0, high));
            Variable { name: name('v', index), low: 0, high, init }
        })
        .collect();
    let count = random.between(5, 8) as usize;
    let locations: Vec<Location> = (0..count)
        .map(|index| Location { name: name('l', index), is_error: index + 1 == count })
        .collect();
    let mut edges = Vec::new();
    for to in 1..random.between(count as i32 + 2, 15) as usize {
        let (from, to) = match to < count {
            true => (random.below(to), to),
            false => (random.below(count - 1), random.below(count)),
        };
        let operation = match locations[to].is_error || random.percent(35) {
            true => comparison(random, &variables),
            false => assignment(random, &variables),
        };
        edges.push(Edge { from: LocationId(from), to: LocationId(to), operation });
    }
    Chart { variables, locations, edges }
}

fn comparison(random: &mut Random, variables: &[Variable]) -> Operation {
    let target = random.below(variables.len());
    let right = match random.percent(30) {
        true => Operand::Variable(random.below(variables.len())),
        false => Operand::Number(random.between(0, variables[target].high)),
    };
    Operation::If { target, relation: random.pick(&Relation::ALL), right }
}

/// Or a skip; counting by one and taking over a value may overrun.
fn assignment(random: &mut Random, variables: &[Variable]) -> Operation {
    let target = random.below(variables.len());
    let high = variables[target].high;
    let (left, right) = (Operand::Variable(target), Operand::Number(1));
    match random.below(10) {
        0..=3 => Operation::Set { target, value: Operand::Number(random.between(0, high)) },
        4 => Operation::Set { target, value: Operand::Variable(random.below(variables.len())) },
        5 | 6 => {
            let low = random.between(0, high);
            Operation::In { target, low, high: random.between(low, high) }
        }
        7 => Operation::Add { target, left, right },
        8 => Operation::Sub { target, left, right },
        _ => Operation::Skip,
    }
}
