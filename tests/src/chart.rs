//! The chart: a control-flow automaton over bounded whole-number variables.

use std::ops::RangeInclusive;

pub const NUMBERS: RangeInclusive<i32> = -32_768..=32_767;
pub const MAX_VARIABLES: usize = 8;
pub const MAX_LOCATIONS: usize = 64;
pub const MAX_EDGES: usize = 256;
pub const MAX_NAME: usize = 16;
/// At the end of a slot: the slot and the edge that first brought it.
pub const ORIGIN_WORDS: usize = 2;

/// Counted from 0 in file order.
#[derive(Clone, Copy, Debug, PartialEq, Eq)]
pub struct LocationId(pub usize);

/// Counted from 1 in file order.
#[derive(Clone, Copy, Debug, PartialEq, Eq)]
pub struct EdgeId(pub usize);

/// Counted from 0 in order of arrival in the reached table.
#[derive(Clone, Copy, Debug, PartialEq, Eq, PartialOrd, Ord)]
pub struct SlotId(pub usize);

/// A name's bytes, 0 after its end; no name holds a 0.
#[derive(Clone, Copy, PartialEq, Eq)]
pub struct Name([u8; MAX_NAME]);

#[derive(Clone, Debug, PartialEq, Eq)]
pub struct Chart {
    pub variables: Vec<Variable>,
    pub locations: Vec<Location>,
    pub edges: Vec<Edge>,
}

#[derive(Clone, Copy, Debug, PartialEq, Eq)]
pub struct Variable {
    pub name: Name,
    pub low: i32,
    pub high: i32,
    /// `None` is `*`: any value of the range.
    pub init: Option<i32>,
}

#[derive(Clone, Copy, Debug, PartialEq, Eq)]
pub struct Location {
    pub name: Name,
    /// Document 01's "bad".
    pub is_error: bool,
}

#[derive(Clone, Copy, Debug, PartialEq, Eq)]
pub struct Edge {
    pub from: LocationId,
    pub to: LocationId,
    pub operation: Operation,
}

/// Targets are variable numbers, counted from 0.
#[derive(Clone, Copy, Debug, PartialEq, Eq)]
pub enum Operation {
    Skip,
    Set { target: usize, value: Operand },
    Add { target: usize, left: Operand, right: Operand },
    Sub { target: usize, left: Operand, right: Operand },
    In { target: usize, low: i32, high: i32 },
    If { target: usize, relation: Relation, right: Operand },
}

#[derive(Clone, Copy, Debug, PartialEq, Eq)]
pub enum Operand {
    Number(i32),
    Variable(usize),
}

#[derive(Clone, Copy, Debug, PartialEq, Eq, PartialOrd, Ord)]
pub enum Relation {
    Eq,
    Ne,
    Lt,
    Le,
    Gt,
    Ge,
}

impl Chart {
    /// The first location in the file.
    pub const START: LocationId = LocationId(0);

    pub fn location(&self, id: LocationId) -> &Location {
        &self.locations[id.0]
    }

    pub fn edge(&self, id: EdgeId) -> &Edge {
        &self.edges[id.0 - 1]
    }

    /// Words of one abstract state: its location and its values.
    pub fn width(&self) -> usize {
        self.variables.len() + 1
    }

    /// Words of one slot as it is lent.
    pub fn slot_width(&self) -> usize {
        slot_width(self.variables.len())
    }
}

/// Words of one slot with so many variables: its abstract state, and its origin.
pub fn slot_width(variables: usize) -> usize {
    variables + 1 + ORIGIN_WORDS
}

impl Name {
    /// `None` when the bytes do not fit; what a name may consist of is the reader's to judge.
    pub fn new(bytes: &[u8]) -> Option<Self> {
        let mut name = [0; MAX_NAME];
        name.get_mut(..bytes.len())?.copy_from_slice(bytes);
        Some(Name(name))
    }

    pub fn as_bytes(&self) -> &[u8] {
        let length = self.0.iter().position(|&byte| byte == 0).unwrap_or(MAX_NAME);
        &self.0[..length]
    }

    pub fn padded(&self) -> &[u8; MAX_NAME] {
        &self.0
    }
}

impl std::fmt::Debug for Name {
    fn fmt(&self, formatter: &mut std::fmt::Formatter<'_>) -> std::fmt::Result {
        write!(formatter, "{}", self.as_bytes().escape_ascii())
    }
}

impl Variable {
    pub fn contains(&self, value: i32) -> bool {
        (self.low..=self.high).contains(&value)
    }
}

impl Relation {
    pub const ALL: [Relation; 6] =
        [Relation::Eq, Relation::Ne, Relation::Lt, Relation::Le, Relation::Gt, Relation::Ge];

    pub fn word(self) -> &'static str {
        match self {
            Relation::Eq => "eq",
            Relation::Ne => "ne",
            Relation::Lt => "lt",
            Relation::Le => "le",
            Relation::Gt => "gt",
            Relation::Ge => "ge",
        }
    }

    pub fn holds(self, left: i32, right: i32) -> bool {
        match self {
            Relation::Eq => left == right,
            Relation::Ne => left != right,
            Relation::Lt => left < right,
            Relation::Le => left <= right,
            Relation::Gt => left > right,
            Relation::Ge => left >= right,
        }
    }
}
