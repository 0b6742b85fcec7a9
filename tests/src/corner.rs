//! What few iterations meet and much can go wrong at; for tests alone.

use std::collections::BTreeSet;

use crate::chart::{Chart, Operand, Operation, Relation, Variable, NUMBERS};
use crate::domain::{self, value_of, Value, TOP};

#[derive(Clone, Copy, Debug, PartialEq, Eq, PartialOrd, Ord)]
pub enum Corner {
    /// A slot that waits before another is widened, and keeps its place.
    KeepsPlace,
    /// A self-loop widens the taken slot.
    SelfLoop,
    /// After that a later edge has a successor, which is the copy's.
    CopyFollowed,
    /// It fits the target's range, which from the widened slot it would not.
    CopyFits,
    /// The taken slot waits again, elsewhere, when an alarm or a full table moves it to the place taken next.
    PutBack,
    /// A result of set, add or sub that overruns, or has unknown operands and is left in the table.
    Result { operation: &'static str, unknown: usize, low: End, high: End },
    /// An operand of it that is unspecific, though its range has one value.
    OneValue { overruns: bool },
    /// An overrun in a full table without a slot of that location: else the capacity would be judged.
    OverrunFull,
    /// An overrun under join to a location with a slot, which would be joined else.
    OverrunUnmerged,
    /// An overrun after an earlier edge of the iteration took a slot.
    OverrunAfterStored,
    /// An overrun after an earlier edge of the iteration widened a slot.
    OverrunAfterWidened,
    /// A comparison of a known value with an unspecific variable that has no successor, or one that is
    /// left in the table; `low` and `high` are where the value lies beside the variable's range.
    Comparison { relation: Relation, known: KnownSide, rest: Rest, low: End, high: End },
    /// Such a comparison where value and range end at the lowest of all numbers, or at the highest.
    ComparisonAtLimit { relation: Relation, known: KnownSide, is_lowest: bool },
    /// A comparison of two unspecific variables, or of one with itself.
    NoneKnown { relation: Relation, is_itself: bool },
}

/// Which side of a comparison is known; a number stands on the right alone.
#[derive(Clone, Copy, Debug, PartialEq, Eq, PartialOrd, Ord)]
pub enum KnownSide {
    Left,
    Right,
    Number,
}

/// What a comparison leaves of the range of an unspecific variable.
#[derive(Clone, Copy, Debug, PartialEq, Eq, PartialOrd, Ord)]
pub enum Rest {
    Nothing,
    /// All there is, so that the comparison says nothing new; the value becomes known still.
    OnlyValue,
    OneOfSeveral,
    Several,
}

/// Where a number lies beside one end of a range.
#[derive(Clone, Copy, Debug, PartialEq, Eq, PartialOrd, Ord)]
pub enum End {
    Inside,
    OneInside,
    AtBound,
    OnePast,
    FarPast,
}

impl End {
    pub fn is_past(self) -> bool {
        self >= End::OnePast
    }

    fn beyond_bound_by(distance: i32) -> Self {
        match distance {
            ..-1 => End::Inside,
            -1 => End::OneInside,
            0 => End::AtBound,
            1 => End::OnePast,
            _ => End::FarPast,
        }
    }
}

/// How the result of a set, add or sub lies to its target's range, if operands are unknown or it overruns.
pub fn note_result(
    corners: &mut BTreeSet<Corner>,
    chart: &Chart,
    operation: Operation,
    source: &[i32],
) {
    let (word, operands) = match operation {
        Operation::Set { value, .. } => ("set", [value, value]),
        Operation::Add { left, right, .. } => ("add", [left, right]),
        Operation::Sub { left, right, .. } => ("sub", [left, right]),
        Operation::Skip | Operation::In { .. } | Operation::If { .. } => return,
    };
    let Some((target, result)) = domain::result(&chart.variables, operation, source) else {
        return;
    };
    let target = &chart.variables[target];
    let low = End::beyond_bound_by(target.low - result.low);
    let high = End::beyond_bound_by(result.high - target.high);
    let overruns = low.is_past() || high.is_past();
    if result.unknown == 0 && !overruns {
        return;
    }
    corners.insert(Corner::Result { operation: word, unknown: result.unknown, low, high });
    let is_of_one_value = |operand: Operand| match operand {
        Operand::Number(_) => false,
        Operand::Variable(variable) => {
            let Variable { low, high, .. } = chart.variables[variable];
            source[variable + 1] == TOP && low == high
        }
    };
    if operands.into_iter().any(is_of_one_value) {
        corners.insert(Corner::OneValue { overruns });
    }
}

/// How a comparison with an unspecific side came out; `None` where it has no successor.
pub fn note_comparison(
    corners: &mut BTreeSet<Corner>,
    chart: &Chart,
    operation: Operation,
    source: &[i32],
    successor: Option<&[i32]>,
) {
    let Operation::If { target, relation, right } = operation else {
        return;
    };
    let left = value_of(source, Operand::Variable(target));
    let (value, variable, known) = match (left, value_of(source, right)) {
        (Value::Known(_), Value::Known(_)) => return,
        (Value::Unknown(left), Value::Unknown(right)) => {
            corners.insert(Corner::NoneKnown { relation, is_itself: left == right });
            return;
        }
        (Value::Known(value), Value::Unknown(variable)) => (value, variable, KnownSide::Left),
        (Value::Unknown(variable), Value::Known(value)) => match right {
            Operand::Variable(_) => (value, variable, KnownSide::Right),
            Operand::Number(_) => (value, variable, KnownSide::Number),
        },
    };
    let Variable { low, high, .. } = chart.variables[variable];
    let rest = match successor.map(|successor| successor[variable + 1]) {
        None => Rest::Nothing,
        Some(TOP) => Rest::Several,
        Some(_) if low == high => Rest::OnlyValue,
        Some(_) => Rest::OneOfSeveral,
    };
    for (limit, end, is_lowest) in [(NUMBERS.start(), low, true), (NUMBERS.end(), high, false)] {
        if [value, end] == [*limit; 2] {
            corners.insert(Corner::ComparisonAtLimit { relation, known, is_lowest });
        }
    }
    let (low, high) = (End::beyond_bound_by(low - value), End::beyond_bound_by(value - high));
    corners.insert(Corner::Comparison { relation, known, rest, low, high });
}
