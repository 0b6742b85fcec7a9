//! Random operations on the variables of one chart.

use super::Random;
use crate::chart::{Operand, Operation, Relation, Variable, NUMBERS};
use crate::domain::{self, MAX_WIDTH, TOP};

/// Values enough to count through for long before the count overruns.
const LONG: i32 = 100;

pub struct Operations<'a> {
    pub variables: &'a [Variable],
    /// The percentage of sets, adds and subs that may overrun.
    pub risk: usize,
    /// Whether it counts where a range is long: known values then make many slots, unknown ones overrun.
    pub has_long_counts: bool,
}

impl Operations<'_> {
    pub fn any(&self, random: &mut Random) -> Operation {
        match random.below(10) {
            0 => Operation::Skip,
            1..=3 => self.any_condition(random),
            4..=6 => self.passing(random),
            _ => self.computation(random),
        }
    }

    /// An operation with a successor, as far as the risk lets it have one.
    pub fn passing(&self, random: &mut Random) -> Operation {
        let Some(target) = self.target(random) else {
            return Operation::Skip;
        };
        match random.below(10) {
            0 | 1 => Operation::Skip,
            2..=5 => self.set_within(random, target),
            6 | 7 => {
                let variable = &self.variables[target];
                let low = random.between(variable.low, variable.high);
                let is_known = random.percent(40);
                let high = if is_known { low } else { random.between(low, variable.high) };
                Operation::In { target, low, high }
            }
            _ => self.computation(random),
        }
    }

    /// On a self-loop it widens the slot that it is taken from, mostly.
    pub fn widening(&self, random: &mut Random, target: usize) -> Operation {
        match random.below(4) {
            0 => counting(random, target),
            _ => self.set_within(random, target),
        }
    }

    pub fn any_condition(&self, random: &mut Random) -> Operation {
        match self.target(random) {
            Some(target) => self.condition(random, target),
            None => Operation::Skip,
        }
    }

    pub fn condition(&self, random: &mut Random, target: usize) -> Operation {
        let relation = random.pick(&Relation::ALL);
        let right = match random.below(10) {
            0..=3 => self.variable(random),
            4..=6 => Operand::Number(threshold(random, &self.variables[target])),
            _ => Operand::Number(literal(random, &self.variables[target])),
        };
        Operation::If { target, relation, right }
    }

    /// A set, add or sub; but for the risk and for long counts, one that fits whatever the values are.
    pub fn computation(&self, random: &mut Random) -> Operation {
        let Some(target) = self.target(random) else {
            return Operation::Skip;
        };
        let is_risky = random.percent(self.risk);
        let Variable { low, high, .. } = self.variables[target];
        let is_long = self.has_long_counts && high - low >= LONG;
        if is_long && random.percent(60) || is_risky && random.percent(30) {
            return counting(random, target);
        }
        for _ in 0..12 {
            let operation = self.assignment(random, target);
            if is_risky || self.fits(operation) {
                return operation;
            }
        }
        self.set_within(random, target)
    }

    /// A set, add or sub that overruns, or one that may.
    pub fn past(&self, random: &mut Random, target: usize) -> Operation {
        let Variable { low, high, .. } = self.variables[target];
        match random.below(4) {
            0 => {
                let value = Operand::Number(random.pick(&[low - 1, high + 1]));
                Operation::Set { target, value }
            }
            1 => counting(random, target),
            _ => self.assignment(random, target),
        }
    }

    fn assignment(&self, random: &mut Random, target: usize) -> Operation {
        let number =
            |random: &mut Random| Operand::Number(literal(random, &self.variables[target]));
        let (left, right) = match random.below(8) {
            0 => (number(random), number(random)),
            1..=3 => (self.variable(random), self.variable(random)),
            4 | 5 => (self.variable(random), number(random)),
            _ => (number(random), self.variable(random)),
        };
        let operation = match random.below(3) {
            0 => Operation::Set { target, value: left },
            1 => Operation::Add { target, left, right },
            _ => Operation::Sub { target, left, right },
        };
        match random.percent(60) {
            true => self.aligned(random, operation),
            false => operation,
        }
    }

    /// With another number beside a variable: its results then end where the target's range does, on one
    /// side, or one beside it.
    fn aligned(&self, random: &mut Random, operation: Operation) -> Operation {
        let range = |variable: usize| (self.variables[variable].low, self.variables[variable].high);
        let is_low = random.percent(50);
        let end = |(low, high): (i32, i32)| if is_low { low } else { high };
        let other_end = |(low, high): (i32, i32)| if is_low { high } else { low };
        let aside = random.pick(&[0, 0, 0, -1, 1]);
        let number =
            |number: i32| Operand::Number((number + aside).clamp(*NUMBERS.start(), *NUMBERS.end()));
        use Operand::{Number, Variable};
        match operation {
            Operation::Add { target, left: Variable(left), right: Number(_) } => {
                let right = number(end(range(target)) - end(range(left)));
                Operation::Add { target, left: Variable(left), right }
            }
            Operation::Add { target, left: Number(_), right: Variable(right) } => {
                let left = number(end(range(target)) - end(range(right)));
                Operation::Add { target, left, right: Variable(right) }
            }
            Operation::Sub { target, left: Variable(left), right: Number(_) } => {
                let right = number(end(range(left)) - end(range(target)));
                Operation::Sub { target, left: Variable(left), right }
            }
            Operation::Sub { target, left: Number(_), right: Variable(right) } => {
                let left = number(end(range(target)) + other_end(range(right)));
                Operation::Sub { target, left, right: Variable(right) }
            }
            operation => operation,
        }
    }

    /// Whether it cannot overrun, wherever in their ranges the variables are.
    fn fits(&self, operation: Operation) -> bool {
        domain::result(self.variables, operation, &[TOP; MAX_WIDTH]).is_none_or(
            |(target, result)| {
                let target = &self.variables[target];
                target.contains(result.low) && target.contains(result.high)
            },
        )
    }

    fn set_within(&self, random: &mut Random, target: usize) -> Operation {
        let Variable { low, high, .. } = self.variables[target];
        Operation::Set { target, value: Operand::Number(random.between(low, high)) }
    }

    fn target(&self, random: &mut Random) -> Option<usize> {
        (!self.variables.is_empty()).then(|| random.below(self.variables.len()))
    }

    fn variable(&self, random: &mut Random) -> Operand {
        Operand::Variable(random.below(self.variables.len()))
    }
}

/// Of a few values.
pub fn narrow_input(random: &mut Random, target: usize, variable: &Variable) -> Operation {
    let low = random.between(variable.low, variable.high);
    let high = random.between(low, variable.high.min(low + 2));
    Operation::In { target, low, high }
}

/// Up or down.
pub fn counting(random: &mut Random, target: usize) -> Operation {
    let (left, right) = (Operand::Variable(target), Operand::Number(1));
    match random.below(3) {
        0 => Operation::Sub { target, left, right },
        _ => Operation::Add { target, left, right },
    }
}

/// At an end of the range, a little within it or a little past it: compared with it, about one value is
/// left of the range, or nothing, or all of it.
pub fn threshold(random: &mut Random, variable: &Variable) -> i32 {
    let end = random.pick(&[variable.low, variable.high]);
    let aside = random.pick(&[-2, -1, -1, 0, 0, 1, 1, 2]);
    (end + aside).clamp(*NUMBERS.start(), *NUMBERS.end())
}

/// Inside the range, beside it, or at the ends of all numbers.
fn literal(random: &mut Random, variable: &Variable) -> i32 {
    let (lowest, highest) = (*NUMBERS.start(), *NUMBERS.end());
    match random.below(16) {
        0..=7 => random.between(variable.low, variable.high),
        8 => (variable.low - 1).max(lowest),
        9 => (variable.high + 1).min(highest),
        10 => lowest,
        11 => highest,
        _ => random.between(-2, 3),
    }
}
