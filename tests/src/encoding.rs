//! How a read chart is held in words.
//!
//! Counts of variables, locations and edges; per variable low, high, init
//! (`TOP` for `*`); per location kind (0 ordinary, 1 error) and the 16 bytes of
//! its name, one a word, 0 after its end; per edge from, to, operation code,
//! target and two operands of two words (tag 0 number, 1 variable; value), 0
//! where unused. Names of variables are not held.

use crate::chart::{
    Chart, Edge, Location, LocationId, Name, Operand, Operation, Relation, Variable, MAX_EDGES,
    MAX_LOCATIONS, MAX_NAME, MAX_VARIABLES,
};
use crate::domain::TOP;

const COUNTS: usize = 3;
const VARIABLE_WORDS: usize = 3;
const LOCATION_WORDS: usize = 1 + MAX_NAME;
const EDGE_WORDS: usize = 8;

/// The words of the largest chart that can be read.
pub const MAX_WORDS: usize = COUNTS
    + MAX_VARIABLES * VARIABLE_WORDS
    + MAX_LOCATIONS * LOCATION_WORDS
    + MAX_EDGES * EDGE_WORDS;

/// Operation codes from here on are `if`, one for each relation in its order.
const FIRST_IF_CODE: i32 = 5;

pub fn encode(chart: &Chart) -> Vec<i32> {
    let mut words =
        vec![chart.variables.len() as i32, chart.locations.len() as i32, chart.edges.len() as i32];
    for variable in &chart.variables {
        words.extend([variable.low, variable.high, variable.init.unwrap_or(TOP)]);
    }
    for location in &chart.locations {
        words.push(i32::from(location.is_error));
        words.extend(location.name.padded().map(i32::from));
    }
    for edge in &chart.edges {
        words.extend(encode_edge(edge));
    }
    words
}

fn encode_edge(edge: &Edge) -> [i32; EDGE_WORDS] {
    const UNUSED: Operand = Operand::Number(0);
    let (code, target, first, second) = match edge.operation {
        Operation::Skip => (0, 0, UNUSED, UNUSED),
        Operation::Set { target, value } => (1, target, value, UNUSED),
        Operation::Add { target, left, right } => (2, target, left, right),
        Operation::Sub { target, left, right } => (3, target, left, right),
        Operation::In { target, low, high } => {
            (4, target, Operand::Number(low), Operand::Number(high))
        }
        Operation::If { target, relation, right } => {
            (FIRST_IF_CODE + relation as i32, target, right, UNUSED)
        }
    };
    let [first_tag, first_value] = encode_operand(first);
    let [second_tag, second_value] = encode_operand(second);
    [
        edge.from.0 as i32,
        edge.to.0 as i32,
        code,
        target as i32,
        first_tag,
        first_value,
        second_tag,
        second_value,
    ]
}

fn encode_operand(operand: Operand) -> [i32; 2] {
    match operand {
        Operand::Number(number) => [0, number],
        Operand::Variable(variable) => [1, variable as i32],
    }
}

/// Some chart whose encoding may begin `words`, or none; the caller judges it,
/// as what is unused or out of bounds in the words is not looked at here.
pub fn decode(words: &[i32]) -> Option<Chart> {
    let mut counts = words.get(..COUNTS)?.iter().map(|&count| usize::try_from(count).ok());
    let (variables, locations, edges) = (counts.next()??, counts.next()??, counts.next()??);
    let (variables, words) = words[COUNTS..].split_at_checked(variables * VARIABLE_WORDS)?;
    let (locations, words) = words.split_at_checked(locations * LOCATION_WORDS)?;
    let edges = words.get(..edges * EDGE_WORDS)?;
    Some(Chart {
        variables: variables
            .chunks_exact(VARIABLE_WORDS)
            .enumerate()
            .map(|(index, words)| decode_variable(index, words))
            .collect::<Option<_>>()?,
        locations: locations
            .chunks_exact(LOCATION_WORDS)
            .map(decode_location)
            .collect::<Option<_>>()?,
        edges: edges.chunks_exact(EDGE_WORDS).map(decode_edge).collect::<Option<_>>()?,
    })
}

fn decode_variable(index: usize, words: &[i32]) -> Option<Variable> {
    Some(Variable {
        name: Name::new(format!("v{index}").as_bytes())?,
        low: words[0],
        high: words[1],
        init: Some(words[2]).filter(|&init| init != TOP),
    })
}

fn decode_location(words: &[i32]) -> Option<Location> {
    let is_error = match words[0] {
        0 => false,
        1 => true,
        _ => return None,
    };
    let bytes: Vec<u8> =
        words[1..].iter().map(|&word| u8::try_from(word).ok()).collect::<Option<_>>()?;
    Some(Location { name: Name::new(&bytes)?, is_error })
}

fn decode_edge(words: &[i32]) -> Option<Edge> {
    let index = |word: i32| usize::try_from(word).ok();
    let target = index(words[3])?;
    let first = decode_operand(words[4], words[5])?;
    let second = decode_operand(words[6], words[7])?;
    let operation = match words[2] {
        0 => Operation::Skip,
        1 => Operation::Set { target, value: first },
        2 => Operation::Add { target, left: first, right: second },
        3 => Operation::Sub { target, left: first, right: second },
        4 => Operation::In { target, low: words[5], high: words[7] },
        code => {
            let relation = *Relation::ALL.get(index(code.checked_sub(FIRST_IF_CODE)?)?)?;
            Operation::If { target, relation, right: first }
        }
    };
    Some(Edge { from: LocationId(index(words[0])?), to: LocationId(index(words[1])?), operation })
}

fn decode_operand(tag: i32, value: i32) -> Option<Operand> {
    match tag {
        0 => Some(Operand::Number(value)),
        1 => usize::try_from(value).ok().map(Operand::Variable),
        _ => None,
    }
}
