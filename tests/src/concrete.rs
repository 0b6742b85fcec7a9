//! Concrete states and the moves between them, by values alone, apart from the transfer.

use crate::chart::{Chart, Edge, EdgeId, Operand, Operation};

/// A location and one value for each variable, in a row of words.
pub type State = Vec<i32>;

/// The edges leaving each location, in file order.
pub fn outgoing(chart: &Chart) -> Vec<Vec<EdgeId>> {
    let mut outgoing = vec![Vec::new(); chart.locations.len()];
    for id in (1..=chart.edges.len()).map(EdgeId) {
        outgoing[chart.edge(id).from.0].push(id);
    }
    outgoing
}

/// Whether the result of a set, add or sub is outside its target's range; there is no state after it.
pub fn overruns(chart: &Chart, edge: &Edge, state: &[i32]) -> bool {
    assigned(edge.operation, state)
        .is_some_and(|(target, value)| !chart.variables[target].contains(value))
}

/// Ascending, the first variable's value before the others.
pub fn initial_states(chart: &Chart) -> Vec<State> {
    let mut states = vec![vec![Chart::START.0 as i32]];
    for variable in &chart.variables {
        let values = variable.init.map_or(variable.low..=variable.high, |init| init..=init);
        states = states
            .iter()
            .flat_map(|state| values.clone().map(move |value| [&state[..], &[value]].concat()))
            .collect();
    }
    states
}

/// The moves of one edge to a state after it, by an input's values ascending.
pub fn for_each_move(chart: &Chart, edge: &Edge, state: &[i32], mut visit: impl FnMut(&[i32])) {
    let mut moved = state.to_vec();
    moved[0] = edge.to.0 as i32;
    match edge.operation {
        Operation::In { target, low, high } => {
            for value in low..=high {
                moved[target + 1] = value;
                visit(&moved);
            }
        }
        Operation::If { target, relation, right } => {
            if relation.holds(state[target + 1], value_of(right, state)) {
                visit(&moved);
            }
        }
        Operation::Skip => visit(&moved),
        Operation::Set { .. } | Operation::Add { .. } | Operation::Sub { .. } => {
            let result = assigned(edge.operation, state);
            let is_inside =
                |&(target, value): &(usize, i32)| chart.variables[target].contains(value);
            if let Some((target, value)) = result.filter(is_inside) {
                moved[target + 1] = value;
                visit(&moved);
            }
        }
    }
}

/// The target of set, add or sub, and the exact result, which may be out of its range.
fn assigned(operation: Operation, state: &[i32]) -> Option<(usize, i32)> {
    let value_of = |operand| value_of(operand, state);
    match operation {
        Operation::Set { target, value } => Some((target, value_of(value))),
        Operation::Add { target, left, right } => Some((target, value_of(left) + value_of(right))),
        Operation::Sub { target, left, right } => Some((target, value_of(left) - value_of(right))),
        Operation::Skip | Operation::In { .. } | Operation::If { .. } => None,
    }
}

fn value_of(operand: Operand, state: &[i32]) -> i32 {
    match operand {
        Operand::Number(number) => number,
        Operand::Variable(variable) => state[variable + 1],
    }
}
