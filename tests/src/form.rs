//! Which charts some file reads to, judged on the chart itself.

use crate::chart::{
    Chart, Edge, Name, Operand, Operation, Variable, MAX_EDGES, MAX_LOCATIONS, MAX_VARIABLES,
    NUMBERS,
};
use crate::reader::is_name;

pub fn is_readable(chart: &Chart) -> bool {
    chart.variables.len() <= MAX_VARIABLES
        && (1..=MAX_LOCATIONS).contains(&chart.locations.len())
        && chart.edges.len() <= MAX_EDGES
        && chart.variables.iter().all(is_variable)
        && chart.locations.iter().enumerate().all(|(place, location)| {
            is_padded_name(&location.name)
                && chart.locations[..place].iter().all(|other| other.name != location.name)
        })
        && chart.edges.iter().all(|edge| is_edge(chart, edge))
}

fn is_variable(variable: &Variable) -> bool {
    NUMBERS.contains(&variable.low)
        && NUMBERS.contains(&variable.high)
        && variable.low <= variable.high
        && variable.init.is_none_or(|init| variable.contains(init))
}

/// Nothing but 0 may follow the name's end.
fn is_padded_name(name: &Name) -> bool {
    is_name(name.as_bytes()) && name.padded()[name.as_bytes().len()..].iter().all(|&byte| byte == 0)
}

fn is_edge(chart: &Chart, edge: &Edge) -> bool {
    let is_target = |target: usize| target < chart.variables.len();
    let is_operand = |operand: Operand| match operand {
        Operand::Number(number) => NUMBERS.contains(&number),
        Operand::Variable(variable) => is_target(variable),
    };
    edge.from.0 < chart.locations.len()
        && edge.to.0 < chart.locations.len()
        && match edge.operation {
            Operation::Skip => true,
            Operation::Set { target, value } => is_target(target) && is_operand(value),
            Operation::Add { target, left, right } | Operation::Sub { target, left, right } => {
                is_target(target) && is_operand(left) && is_operand(right)
            }
            Operation::In { target, low, high } => chart
                .variables
                .get(target)
                .is_some_and(|of| of.contains(low) && of.contains(high) && low <= high),
            Operation::If { target, right, .. } => is_target(target) && is_operand(right),
        }
}
