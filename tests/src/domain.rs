//! The domain of constants.
//!
//! An abstract state (document 01's entry) is a row of words: its location,
//! then for each variable a value or `TOP`. A concrete state is a row without `TOP`.

use std::ops::{Add, Sub};

use crate::chart::{Chart, Edge, Operand, Operation, Variable, MAX_VARIABLES};
use Value::{Known, Unknown};

/// Document 01's "unspecific", as the lent words write it; no variable can hold it.
pub const TOP: i32 = 32_768;

pub const MAX_WIDTH: usize = MAX_VARIABLES + 1;

/// The start location, each variable at init; `*` is `TOP` on any range.
pub fn initial(chart: &Chart) -> Vec<i32> {
    let values = chart.variables.iter().map(|variable| variable.init.unwrap_or(TOP));
    std::iter::once(Chart::START.0 as i32).chain(values).collect()
}

/// Whether `lower` lies under `upper`.
pub fn leq(lower: &[i32], upper: &[i32]) -> bool {
    lower[0] == upper[0]
        && lower[1..].iter().zip(&upper[1..]).all(|(low, up)| *up == TOP || low == up)
}

pub fn covers(abstract_state: &[i32], state: &[i32]) -> bool {
    abstract_state[0] == state[0]
        && abstract_state[1..]
            .iter()
            .zip(&state[1..])
            .all(|(known, value)| *known == TOP || known == value)
}

/// Widens `row` to its join with `other`, of the same location; tells whether it changed.
pub fn join_into(row: &mut [i32], other: &[i32]) -> bool {
    let mut is_changed = false;
    for (value, other) in row[1..].iter_mut().zip(&other[1..]) {
        if value != other && *value != TOP {
            *value = TOP;
            is_changed = true;
        }
    }
    is_changed
}

/// What one abstract move comes to.
#[derive(Clone, Copy, Debug, PartialEq, Eq)]
pub enum Move {
    /// A condition that cannot hold: no successor.
    Blocked,
    /// A result may lie outside the target's range.
    Overrun,
    /// Written where the caller wanted it.
    Successor,
}

/// What an operand or a result may be, from its lowest to its highest value.
#[derive(Clone, Copy, Debug, PartialEq, Eq)]
pub struct Span {
    pub low: i32,
    pub high: i32,
    /// How many operands of it are not known; one of a range of one value is not known either.
    pub unknown: usize,
}

/// One abstract move of `source` along `edge`; a successor is written to `successor`.
pub fn transfer(chart: &Chart, edge: &Edge, source: &[i32], successor: &mut [i32]) -> Move {
    successor.copy_from_slice(source);
    successor[0] = edge.to.0 as i32;
    let span = |operand| span(&chart.variables, source, operand);
    match edge.operation {
        Operation::Skip => Move::Successor,
        Operation::Set { target, value } => assign(chart, target, span(value), successor),
        Operation::Add { target, left, right } => {
            assign(chart, target, span(left) + span(right), successor)
        }
        Operation::Sub { target, left, right } => {
            assign(chart, target, span(left) - span(right), successor)
        }
        Operation::In { target, low, high } => {
            successor[target + 1] = if low == high { low } else { TOP };
            Move::Successor
        }
        Operation::If { target, relation, right } => {
            let value_of = |operand| value_of(source, operand);
            match (value_of(Operand::Variable(target)), value_of(right)) {
                (Known(left), Known(right)) if relation.holds(left, right) => Move::Successor,
                (Known(_), Known(_)) => Move::Blocked,
                (Unknown(left), Known(right)) => {
                    narrow(chart, left, successor, |left| relation.holds(left, right))
                }
                (Known(left), Unknown(right)) => {
                    narrow(chart, right, successor, |right| relation.holds(left, right))
                }
                (Unknown(_), Unknown(_)) => Move::Successor,
            }
        }
    }
}

/// Overruns where some result is out of range; else the target is known where all operands are.
fn assign(chart: &Chart, target: usize, result: Span, successor: &mut [i32]) -> Move {
    let Variable { low, high, .. } = chart.variables[target];
    if result.low < low || high < result.high {
        return Move::Overrun;
    }
    successor[target + 1] = if result.unknown == 0 { result.low } else { TOP };
    Move::Successor
}

/// The target of set, add or sub, and what it may become.
pub fn result(
    variables: &[Variable],
    operation: Operation,
    source: &[i32],
) -> Option<(usize, Span)> {
    let span = |operand| span(variables, source, operand);
    match operation {
        Operation::Set { target, value } => Some((target, span(value))),
        Operation::Add { target, left, right } => Some((target, span(left) + span(right))),
        Operation::Sub { target, left, right } => Some((target, span(left) - span(right))),
        Operation::Skip | Operation::In { .. } | Operation::If { .. } => None,
    }
}

/// The known value, or all of the declared range.
fn span(variables: &[Variable], source: &[i32], operand: Operand) -> Span {
    match value_of(source, operand) {
        Known(value) => Span { low: value, high: value, unknown: 0 },
        Unknown(variable) => {
            let Variable { low, high, .. } = variables[variable];
            Span { low, high, unknown: 1 }
        }
    }
}

/// The operands are taken independently, even where they are one variable. Numbers and values take
/// 16 bits, so no sum of two leaves 32.
impl Add for Span {
    type Output = Span;

    fn add(self, right: Span) -> Span {
        Span {
            low: self.low + right.low,
            high: self.high + right.high,
            unknown: self.unknown + right.unknown,
        }
    }
}

impl Sub for Span {
    type Output = Span;

    fn sub(self, right: Span) -> Span {
        Span {
            low: self.low - right.high,
            high: self.high - right.low,
            unknown: self.unknown + right.unknown,
        }
    }
}

/// What an abstract state says of an operand.
#[derive(Clone, Copy, Debug, PartialEq, Eq)]
pub enum Value {
    Known(i32),
    /// Of this variable, unspecific.
    Unknown(usize),
}

pub fn value_of(state: &[i32], operand: Operand) -> Value {
    match operand {
        Operand::Number(number) => Value::Known(number),
        Operand::Variable(variable) => match state[variable + 1] {
            TOP => Value::Unknown(variable),
            value => Value::Known(value),
        },
    }
}

/// Counts the values of an unspecific variable's range that satisfy a condition: none blocks the move,
/// one becomes known, more leave the variable as it is.
fn narrow(
    chart: &Chart,
    variable: usize,
    successor: &mut [i32],
    is_satisfied: impl Fn(i32) -> bool,
) -> Move {
    let Variable { low, high, .. } = chart.variables[variable];
    let mut satisfying = (low..=high).filter(|&value| is_satisfied(value));
    match (satisfying.next(), satisfying.next()) {
        (None, _) => return Move::Blocked,
        (Some(only), None) => successor[variable + 1] = only,
        (Some(_), Some(_)) => {}
    }
    Move::Successor
}
