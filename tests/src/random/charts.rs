//! Random charts that reading accepts.

use super::operations::{self, Operations};
use super::Random;
use crate::chart::{
    Chart, Edge, Location, LocationId, Name, Operand, Operation, Relation, Variable, MAX_EDGES,
    MAX_LOCATIONS, MAX_VARIABLES, NUMBERS,
};
use crate::domain::{self, TOP};

/// Bounds on a random chart.
#[derive(Clone, Copy, Debug)]
pub struct Shape {
    pub variables: usize,
    pub locations: usize,
    pub edges: usize,
    /// The most values in a variable's range.
    pub span: i32,
    /// One of these is the percentage of sets, adds and subs that may overrun; a chart with many edges bears few.
    pub risks: [usize; 5],
}

/// Few enough states to go through all of them.
pub const SMALL: Shape =
    Shape { variables: 3, locations: 6, edges: 14, span: 5, risks: [0, 0, 5, 15, 40] };

/// Up to what a file may hold; long counts fill even the largest table.
pub const LARGE: Shape = Shape {
    variables: MAX_VARIABLES,
    locations: MAX_LOCATIONS,
    edges: MAX_EDGES,
    span: 65_536,
    risks: [0, 0, 0, 0, 3],
};

/// Few locations with long counts, for full tables and many joins.
pub const DEEP: Shape =
    Shape { variables: 4, locations: 4, edges: 12, span: 400, risks: [0, 0, 0, 5, 15] };

pub fn chart(random: &mut Random, shape: Shape) -> Chart {
    let count = up_to(random, shape.variables);
    let variables: Vec<Variable> = (0..count).map(|index| variable(random, shape, index)).collect();
    let locations = locations(random, shape);
    let operations = Operations {
        variables: &variables,
        risk: random.pick(&shape.risks),
        has_long_counts: random.percent(30),
    };
    let edges = edges(random, shape, &operations, &locations);
    Chart { variables, locations, edges }
}

/// With `sep` about as many slots as there may be, most of them waiting from early on: from the start a
/// value of the first variable is chosen, then one of the second, and then a move alarms, is new or is not.
pub fn fan(random: &mut Random) -> Chart {
    // 1 + firsts + firsts * seconds slots: 256, and 257 by the last choice.
    let (firsts, seconds) = random.pick(&[(3, 84), (5, 50), (15, 16), (17, 14), (16, 15)]);
    let variable = |random: &mut Random, index: usize, high: i32| Variable {
        name: name(random, index),
        low: 0,
        high,
        init: random.pick(&[Some(0), None]),
    };
    let variables = vec![variable(random, 0, firsts), variable(random, 1, seconds)];
    let locations: Vec<Location> =
        (0..4).map(|index| Location { name: name(random, index), is_error: index == 3 }).collect();
    let mut edges = Vec::new();
    let mut lead = |from, to, operation| {
        edges.push(Edge { from: LocationId(from), to: LocationId(to), operation });
    };
    let set = |target, value| Operation::Set { target, value: Operand::Number(value) };
    (1..=firsts).for_each(|value| lead(0, 1, set(0, value)));
    (1..=seconds).for_each(|value| lead(1, 2, set(1, value)));
    let second = random.between(1, seconds);
    match random.below(8) {
        0 | 1 => {}
        2..=5 => {
            let right = Operand::Number(second);
            lead(2, 3, Operation::If { target: 1, relation: Relation::Eq, right });
        }
        6 => lead(2, 2, set(1, second)),
        // The one value that has not been chosen.
        _ => lead(2, 2, set(1, 0)),
    }
    random.shuffle(&mut edges);
    Chart { variables, locations, edges }
}

/// As small as `SMALL`, with much in one iteration: from a hub self-loops that widen it, then edges to
/// each other location, which mostly end in an alarm or a full table; and some edges more.
pub fn hub(random: &mut Random) -> Chart {
    let mut variables: Vec<Variable> =
        (0..random.pick(&[1, 2, 3])).map(|index| variable(random, SMALL, index)).collect();
    if random.percent(70) {
        variables.iter_mut().for_each(|variable| variable.init = Some(variable.low));
    }
    let count = random.pick(&[3, 4, 5]);
    let locations = ending_in_error(random, count, 60);
    let mut ends: Vec<(usize, usize)> =
        [0, 0].into_iter().chain(1..count).map(|to| (0, to)).collect();
    let others = ends.len() - usize::from(random.percent(70));
    random.shuffle(&mut ends[..others]);
    for _ in 0..random.below(count) {
        let place = random.below(ends.len());
        ends.insert(place, (random.below(count), random.below(count)));
    }
    let operations = Operations {
        variables: &variables,
        risk: random.pick(&[0, 20, 50]),
        has_long_counts: false,
    };
    let edge = |(from, to)| {
        let target = random.below(variables.len());
        let operation = match from == to {
            true => operations.widening(random, target),
            false if random.percent(15) => operations::counting(random, target),
            false => operations.passing(random),
        };
        Edge { from: LocationId(from), to: LocationId(to), operation }
    };
    let edges = ends.into_iter().map(edge).collect();
    Chart { variables, locations, edges }
}

/// As small as `SMALL`, with a set, add or sub whose target's range is put beside its results: they fit, or
/// are past it at the low end, at the high end or at both.
pub fn brink(random: &mut Random) -> Chart {
    let variable = |random: &mut Random, index: usize, (low, high): (i32, i32), is_known: bool| {
        let init = is_known.then(|| random.between(low, high));
        Variable { name: name(random, index), low, high, init }
    };
    // The target, two that are unknown and one that is known.
    let mut variables: Vec<Variable> = [true, false, false, true]
        .iter()
        .enumerate()
        .map(|(index, &is_known)| {
            let low = random.between(-3, 3);
            let range = (low, low + random.pick(&[0, 1, 2, 3, 4]));
            variable(random, index, range, is_known)
        })
        .collect();
    let target = 0;
    let operand = |random: &mut Random| match random.below(20) {
        0..=10 => Operand::Variable(random.pick(&[1, 2])),
        11..=14 => Operand::Variable(3),
        _ => Operand::Number(random.between(-4, 4)),
    };
    let (left, right) = (operand(random), operand(random));
    let computation = match random.below(8) {
        0 | 1 => Operation::Set { target, value: left },
        2..=4 => Operation::Add { target, left, right },
        _ => Operation::Sub { target, left, right },
    };
    let range = beside(random, &variables, computation);
    let is_known = random.percent(60);
    variables[target] = variable(random, target, range, is_known);

    let count = random.pick(&[2, 3, 4]);
    let locations = ending_in_error(random, count, 20);
    let operations = Operations { variables: &variables, risk: 0, has_long_counts: false };
    let lead = |from: usize, to: usize, operation: Operation| Edge {
        from: LocationId(from),
        to: LocationId(to),
        operation,
    };
    // Behind a condition on an unknown variable, of which the analysis seldom knows more there, runs may fit.
    let (unknown, from) = (random.pick(&[1, 2]), random.pick(&[0, 1]));
    let mut edges = vec![
        lead(0, 1, operations.condition(random, unknown)),
        lead(from, random.below(count), computation),
    ];
    for _ in 0..random.below(5) {
        let (from, to) = (random.below(count), random.below(count));
        edges.push(lead(from, to, operations.any(random)));
    }
    random.shuffle(&mut edges);
    Chart { variables, locations, edges }
}

/// A range at whose ends the results of `computation` from the initial values fit, just so mostly, or are past.
fn beside(random: &mut Random, variables: &[Variable], computation: Operation) -> (i32, i32) {
    let initial: Vec<i32> = std::iter::once(0)
        .chain(variables.iter().map(|variable| variable.init.unwrap_or(TOP)))
        .collect();
    let (_, result) =
        domain::result(variables, computation, &initial).expect("a set, add or sub has a result");
    let (low, high) = (result.low - random.pick(&[0, 0, 1]), result.high + random.pick(&[0, 0, 1]));
    let past = random.pick(&[1, 1, 2]);
    match random.below(8) {
        0 | 1 => (result.low + past, high.max(result.low + past)),
        2 | 3 => (low.min(result.high - past), result.high - past),
        4..=6 if result.high - result.low > past => (result.low + 1, result.high - past),
        _ => (low, high),
    }
}

/// As small as `SMALL`, with conditions between an unspecific variable and values at the ends of its range or
/// beside them: each leads to a location of its own, from where it goes on.
pub fn gates(random: &mut Random) -> Chart {
    let (lowest, highest) = (*NUMBERS.start(), *NUMBERS.end());
    let reach = random.pick(&[0, 0, 0, 1, 1, 2, 3, 4]);
    let low = random.pick(&[lowest, lowest, highest - reach, highest - reach, -reach, -1, 0, 1, 2]);
    let unspecific = Variable { name: name(random, 0), low, high: low + reach, init: None };
    let known = |random: &mut Random, index: usize| {
        let value = operations::threshold(random, &unspecific);
        let low = (value - random.between(0, 2)).max(lowest);
        let high = (value + random.between(0, 2)).min(highest);
        Variable { name: name(random, index), low, high, init: Some(value) }
    };
    let mut variables = vec![unspecific, known(random, 1), known(random, 2)];
    if random.percent(15) {
        variables[2].init = None;
    }

    let count = random.pick(&[8, 12, 16]);
    let locations = ending_in_error(random, count, 20);
    let operations =
        Operations { variables: &variables, risk: random.pick(&[0, 10]), has_long_counts: false };
    let gate = |random: &mut Random| {
        let relation = random.pick(&Relation::ALL);
        let other = random.pick(&[1, 2]);
        let (target, right) = match random.below(12) {
            0 => (0, Operand::Variable(0)),
            1..=3 => (0, Operand::Number(operations::threshold(random, &variables[0]))),
            4..=7 => (0, Operand::Variable(other)),
            _ => (other, Operand::Variable(0)),
        };
        Operation::If { target, relation, right }
    };
    let mut edges = Vec::new();
    for to in (1..count).map(LocationId) {
        edges.push(Edge { from: Chart::START, to, operation: gate(random) });
        // Past a gate that leaves one value a count may fit.
        let operation = match random.below(10) {
            0 => operations::counting(random, 0),
            1..=4 => operations.any(random),
            _ => continue,
        };
        edges.push(Edge { from: to, to: LocationId(random.below(count)), operation });
    }
    random.shuffle(&mut edges);
    Chart { variables, locations, edges }
}

/// With `sep` a long way to an alarm: a count goes round a ring of locations, at times with a way off that
/// ends nowhere, until an error location opens at its end or the count overruns.
pub fn chain(random: &mut Random) -> Chart {
    let ring = random.pick(&[1, 1, 2, 3, 5]);
    // From the first slot to the last, 256 of them at times.
    let steps = random.pick(&[3, 7, 20, 40, 60, 70, 127, 254, 255, 255, 255]);
    let has_error = random.percent(70);
    let high = if has_error { steps + random.between(0, 1) } else { steps };
    let variable = Variable { name: name(random, 0), low: 0, high, init: Some(0) };
    // The ring, then a way off and the error location.
    let locations: Vec<Location> = (0..ring + 2)
        .map(|index| Location { name: name(random, index), is_error: index == ring + 1 })
        .collect();
    let lead = |from: usize, to: usize, operation: Operation| Edge {
        from: LocationId(from),
        to: LocationId(to),
        operation,
    };
    let (target, left) = (0, Operand::Variable(0));
    let mut edges = Vec::new();
    for from in 0..ring {
        let right = Operand::Number(1);
        edges.push(lead(from, (from + 1) % ring, Operation::Add { target, left, right }));
        if steps < 100 && random.percent(30) {
            edges.push(lead(from, ring, Operation::Skip));
        }
        if has_error {
            let right = Operand::Number(steps);
            let relation = random.pick(&[Relation::Eq, Relation::Ge]);
            edges.push(lead(from, ring + 1, Operation::If { target, relation, right }));
        }
    }
    random.shuffle(&mut edges);
    Chart { variables: vec![variable], locations, edges }
}

/// For searches: from location to location several moves that lead on, by inputs, conditions on them or on the
/// start, and at the end error locations and overruns; and moves that lead nowhere.
pub fn stairs(random: &mut Random) -> Chart {
    let variables: Vec<Variable> = (0..random.pick(&[1, 2, 3]))
        .map(|index| {
            let low = random.pick(&[-2, -1, -1, 0, 1]);
            let high = low + random.pick(&[0, 1, 2, 2, 3]);
            let init = random.percent(50).then(|| random.between(low, high));
            Variable { name: name(random, index), low, high, init }
        })
        .collect();
    let moves = random.pick(&[1, 2, 3, 4, 4, 5, 5, 6, 6, 7, 7, 8, 8, 9, 9]);
    // One for each move, one that leads nowhere, and the error location.
    let locations = ending_in_error(random, moves + 2, 70);
    let (nowhere, error) = (moves, moves + 1);
    let operations =
        Operations { variables: &variables, risk: random.pick(&[0, 0, 5]), has_long_counts: false };
    let mut edges = Vec::new();
    let mut lead = |from: usize, to: usize, operation: Operation| {
        edges.push(Edge { from: LocationId(from), to: LocationId(to), operation });
    };
    let limit = random.pick(&[1, 1, 2]);
    for from in 0..moves {
        let is_last = from + 1 == moves;
        for _ in 0..random.between(1, limit + i32::from(moves < 4)) {
            let target = random.below(variables.len());
            let operation = match random.below(10) {
                0..=3 => Operation::Skip,
                4..=6 => operations::narrow_input(random, target, &variables[target]),
                _ => operations.condition(random, target),
            };
            match is_last && random.percent(50) {
                true => lead(from, random.below(nowhere + 1), operations.past(random, target)),
                false => lead(from, if is_last { error } else { from + 1 }, operation),
            }
        }
        if random.percent(15) {
            let to = random.pick(&[nowhere, nowhere, from, 0]);
            lead(from, to, operations.passing(random));
        }
    }
    random.shuffle(&mut edges);
    Chart { variables, locations, edges }
}

/// For searches: starts that differ in which first moves pass, then an input of which some values lead on.
pub fn rivals(random: &mut Random) -> Chart {
    let variable = |random: &mut Random, index: usize, init: Option<i32>| {
        let low = random.pick(&[-3, -2, -1, -1, 0]);
        let high = low + random.pick(&[1, 2, 3]);
        Variable { name: name(random, index), low, high: high.max(0), init }
    };
    let variables: Vec<Variable> = [None, None, Some(0)]
        .into_iter()
        .enumerate()
        .map(|(index, init)| variable(random, index, init))
        .collect();
    let locations = ending_in_error(random, 4, 70);
    let operations = Operations { variables: &variables, risk: 0, has_long_counts: false };
    let compared = |random: &mut Random, target: usize| Operation::If {
        target,
        relation: random.pick(&Relation::ALL),
        right: match random.percent(60) {
            true => Operand::Variable(random.pick(&[0, 1])),
            false => Operand::Number(random.between(-2, 2)),
        },
    };
    let mut edges = Vec::new();
    let mut lead = |from: usize, to: usize, operation: Operation| {
        edges.push(Edge { from: LocationId(from), to: LocationId(to), operation });
    };
    if random.percent(30) {
        let right = Operand::Variable(1);
        lead(0, 1, Operation::If { target: 0, relation: Relation::Ne, right });
    } else {
        for _ in 0..random.pick(&[1, 2, 3]) {
            let target = random.pick(&[0, 1]);
            lead(0, 1, compared(random, target));
        }
    }
    let Variable { low, high, .. } = variables[2];
    for _ in 0..random.pick(&[1, 1, 2]) {
        let input = match random.percent(50) {
            true => Operation::In { target: 2, low, high },
            false => operations::narrow_input(random, 2, &variables[2]),
        };
        lead(1, 2, input);
    }
    if random.percent(35) {
        // No input passes both: the one with the later edge may come first.
        for relation in [Relation::Gt, random.pick(&[Relation::Lt, Relation::Eq])] {
            let right = Operand::Number(random.between(low, low + 1));
            lead(2, 3, Operation::If { target: 2, relation, right });
        }
    } else {
        for _ in 0..random.pick(&[1, 2, 3, 4]) {
            match random.below(4) {
                0 => lead(2, random.below(3), operations.past(random, 2)),
                _ => lead(2, 3, compared(random, 2)),
            }
        }
    }
    random.shuffle(&mut edges);
    Chart { variables, locations, edges }
}

/// For searches: a count that overruns, or arrives at an error location, after a few moves.
pub fn climb(random: &mut Random) -> Chart {
    let steps = random.between(0, 9);
    let low = random.pick(&[0, 0, -3, -8]);
    let init = random.percent(60).then_some(low);
    let mut variables = vec![Variable { name: name(random, 0), low, high: low + steps, init }];
    if random.percent(30) {
        variables.push(Variable { name: name(random, 1), low: -1, high: 1, init: None });
    }
    let locations = ending_in_error(random, 3, 60);
    let (target, left) = (0, Operand::Variable(0));
    let lead = |from: usize, to: usize, operation: Operation| Edge {
        from: LocationId(from),
        to: LocationId(to),
        operation,
    };
    let mut edges = vec![lead(0, 0, Operation::Add { target, left, right: Operand::Number(1) })];
    if random.percent(60) {
        let right = Operand::Number(low + steps);
        edges.push(lead(0, 2, Operation::If { target, relation: Relation::Eq, right }));
    }
    if random.percent(40) {
        let operations = Operations { variables: &variables, risk: 0, has_long_counts: false };
        edges.push(lead(0, random.pick(&[0, 1]), operations.any(random)));
    }
    random.shuffle(&mut edges);
    Chart { variables, locations, edges }
}

/// For searches: a widest input, or a number of starting states, that 31 just lets pass or just refuses, or
/// that does not look like too much by its last bits.
pub fn wide(random: &mut Random) -> Chart {
    const SPANS: [&[i32]; 17] = [
        &[4_096],
        &[64, 64],
        &[16, 16, 16],
        &[2, 1, 2_048],
        &[8, 8, 8, 8],
        &[2, 2, 2, 2, 4, 4, 4, 4],
        &[4_097],
        &[17, 241],
        &[3, 1_366],
        &[2, 2_049],
        &[4, 5, 5, 41],
        &[256, 256],
        &[65_536],
        &[65_536, 65_536],
        &[16; 8],
        &[65_536; 4],
        &[65_536; 8],
    ];
    let spans: &[i32] = if random.percent(60) { random.pick(&SPANS) } else { &[2] };
    let mut variables: Vec<Variable> = Vec::new();
    for &span in spans {
        let low = random.pick(&[0, 1, -1, -span / 2, -span]).clamp(-32_768, 32_768 - span);
        let name = name(random, variables.len());
        variables.push(Variable { name, low, high: low + span - 1, init: None });
    }
    if variables.len() < MAX_VARIABLES {
        let name = name(random, variables.len());
        variables.push(Variable { name, low: -20, high: 20, init: Some(0) });
    }
    random.shuffle(&mut variables);
    let locations = ending_in_error(random, 4, 60);
    let operations = Operations { variables: &variables, risk: 0, has_long_counts: false };
    let mut edges = Vec::new();
    let known = variables.iter().position(|variable| variable.init.is_some());
    if let Some(target) = known.filter(|_| random.percent(60)) {
        let low = random.between(-20, 0);
        let high = low + random.pick(&[14, 15, 15, 16, 16, 17]);
        // Nothing leads to location 2.
        let from = LocationId(random.pick(&[0, 1, 2, 2]));
        edges.push(Edge {
            from,
            to: LocationId(1),
            operation: Operation::In { target, low, high },
        });
    }
    for _ in 0..random.below(3) {
        let (from, to) = (LocationId(random.below(2)), LocationId(random.pick(&[1, 3, 3])));
        edges.push(Edge { from, to, operation: operations.any_condition(random) });
    }
    random.shuffle(&mut edges);
    Chart { variables, locations, edges }
}

/// Any of those that have few enough states to go through all of them.
pub fn small(random: &mut Random) -> Chart {
    match random.below(20) {
        0..=2 => hub(random),
        3..=5 => brink(random),
        6 | 7 => gates(random),
        _ => chart(random, SMALL),
    }
}

/// From 0 to `most`, the upper half and `most` itself more often.
fn up_to(random: &mut Random, most: usize) -> usize {
    match random.below(8) {
        0 | 1 => random.below(most + 1),
        2 | 3 => most,
        _ => most - random.below(most / 2 + 1),
    }
}

fn variable(random: &mut Random, shape: Shape, index: usize) -> Variable {
    let (lowest, highest) = (*NUMBERS.start(), *NUMBERS.end());
    let reach = match random.below(8) {
        0 => 0,
        1 => shape.span - 1,
        2..=5 => random.between(1, 4.min(shape.span - 1)),
        _ => random.below(shape.span as usize) as i32,
    };
    let low = match random.below(8) {
        0 => lowest,
        1 => highest - reach,
        2 => -1,
        3 => -reach,
        4 => random.between(-20, 20),
        _ => 0,
    };
    // A wide range does not fit everywhere; move it back into the numbers.
    let low = low.clamp(lowest, highest - reach);
    let high = low + reach;
    let init = match random.below(10) {
        0..=2 => None,
        3..=5 => Some(low),
        6 => Some(high),
        _ => Some(random.between(low, high)),
    };
    Variable { name: name(random, index), low, high, init }
}

fn locations(random: &mut Random, shape: Shape) -> Vec<Location> {
    let count = up_to(random, shape.locations).max(1);
    // Many error locations alarm early, none lets tables fill and ends safe.
    let errors = random.pick(&[0, 0, 5, 10, 25]);
    (0..count)
        .map(|index| {
            let percent = if index == 0 { errors / 3 } else { errors };
            Location { name: name(random, index), is_error: random.percent(percent) }
        })
        .collect()
}

/// So many, the last of them an error location in so many percent of all charts.
fn ending_in_error(random: &mut Random, count: usize, percent: usize) -> Vec<Location> {
    let has_error = random.percent(percent);
    (0..count)
        .map(|index| {
            let is_error = has_error && index + 1 == count;
            Location { name: name(random, index), is_error }
        })
        .collect()
}

/// Of every length and sort of byte; the index before a first hyphen or after
/// a last one, by which names are apart.
fn name(random: &mut Random, index: usize) -> Name {
    const BYTES: &[u8] = b"ABCXYZabcxyz0123456789-";
    let length = random.pick(&[1, 2, 4, 8, 15, 16]);
    let mut bytes = Vec::new();
    match random.below(3) {
        0 => bytes.extend(format!("{index}").bytes()),
        1 => {
            bytes.extend(format!("{index}-").bytes());
            while bytes.len() < length {
                bytes.push(random.pick(BYTES));
            }
        }
        _ => {
            let ending = format!("-{index}");
            bytes.push(random.pick(b"AZaz"));
            while bytes.len() + ending.len() < length {
                bytes.push(random.pick(BYTES));
            }
            bytes.extend(ending.bytes());
        }
    }
    Name::new(&bytes).expect("at most 16 bytes")
}

fn edges(
    random: &mut Random,
    shape: Shape,
    operations: &Operations,
    locations: &[Location],
) -> Vec<Edge> {
    let wanted = up_to(random, shape.edges);
    let mut edges = Vec::with_capacity(wanted);
    // First edges that lead to each location from an earlier one, so that most are reached.
    for to in (1..locations.len()).take(wanted) {
        let from = random.below(to);
        let operation = match locations[to].is_error {
            true => operations.any_condition(random),
            false => operations.passing(random),
        };
        edges.push(Edge { from: LocationId(from), to: LocationId(to), operation });
    }
    while edges.len() < wanted {
        let from = random.below(locations.len());
        let to = if random.percent(30) { from } else { random.below(locations.len()) };
        // Conditions keep an error location from ending most analyses at once.
        let operation = match locations[to].is_error && random.percent(80) {
            true => operations.any_condition(random),
            false => operations.any(random),
        };
        edges.push(Edge { from: LocationId(from), to: LocationId(to), operation });
    }
    random.shuffle(&mut edges);
    edges
}
