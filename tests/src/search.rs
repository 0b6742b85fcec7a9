//! Request 2.3: the shortest counterexample, a run into an error location or one that overruns.

use std::collections::HashSet;

use crate::analysis::location_of;
use crate::chart::{Chart, Edge, EdgeId, Operation};
use crate::concrete::{for_each_move, initial_states, outgoing, overruns, State};
use crate::listing::search_text;
use crate::refusal::Reason;

/// The most moves that are searched through.
pub const MAX_BOUND: usize = 8;
pub const MAX_INPUT_VALUES: i32 = 16;
pub const MAX_STARTS: i32 = 4_096;

#[derive(Clone, Debug, PartialEq, Eq)]
pub struct Counterexample {
    pub start: State,
    /// Those with a state after them.
    pub moves: Vec<(EdgeId, State)>,
    /// Along which the last state overruns; else it stands at an error location.
    pub overrun: Option<EdgeId>,
}

impl Counterexample {
    /// The move that overruns counts too.
    pub fn length(&self) -> usize {
        self.moves.len() + usize::from(self.overrun.is_some())
    }
}

/// 30; the bound comes as any number a caller can write.
pub fn check_bound(bound: i64) -> Result<usize, Reason> {
    usize::try_from(bound).ok().filter(|&bound| bound <= MAX_BOUND).ok_or(Reason::SearchBound)
}

/// 31, wherever in the chart a wide input stands.
pub fn check_size(chart: &Chart) -> Result<(), Reason> {
    let is_wide = |edge: &Edge| match edge.operation {
        Operation::In { low, high, .. } => high - low + 1 > MAX_INPUT_VALUES,
        _ => false,
    };
    let mut unspecific = chart.variables.iter().filter(|variable| variable.init.is_none());
    // No range is empty: what is too many stays so.
    let starts = unspecific.try_fold(1, |starts, variable| {
        Some(starts * (variable.high - variable.low + 1)).filter(|&starts| starts <= MAX_STARTS)
    });
    if chart.edges.iter().any(is_wide) || starts.is_none() {
        return Err(Reason::SearchSize);
    }
    Ok(())
}

/// What a search prints, unless 31 refuses it.
pub fn search(chart: &Chart, bound: usize) -> Result<Vec<u8>, Reason> {
    check_size(chart)?;
    Ok(search_text(chart, bound, shortest(chart, bound).as_ref()))
}

/// The first of the shortest counterexamples, unless all have more moves than `bound`.
///
/// Breadth-first, each state once: states of equally many moves are met in the order of the first ways
/// to them, since they are left in the order in which they were met, by edges and inputs ascending.
pub fn shortest(chart: &Chart, bound: usize) -> Option<Counterexample> {
    let outgoing = outgoing(chart);
    let mut met = Met::default();
    initial_states(chart).iter().for_each(|state| met.add(state, None));
    if chart.location(Chart::START).is_error {
        return Some(met.way_to(0));
    }
    let mut first = 0;
    for _ in 0..bound {
        let layer = first..met.states.len();
        first = layer.end;
        for place in layer {
            let state = met.states[place].clone();
            for &id in &outgoing[location_of(&state).0] {
                let edge = chart.edge(id);
                if overruns(chart, edge, &state) {
                    return Some(Counterexample { overrun: Some(id), ..met.way_to(place) });
                }
                let before = met.states.len();
                for_each_move(chart, edge, &state, |moved| met.add(moved, Some((place, id))));
                // At an error location no state was met before.
                if chart.location(edge.to).is_error && met.states.len() > before {
                    return Some(met.way_to(before));
                }
            }
        }
    }
    None
}

/// States in the order in which they were met, and beside them what first brought each.
#[derive(Default)]
struct Met {
    states: Vec<State>,
    origins: Vec<Option<(usize, EdgeId)>>,
    all: HashSet<State>,
}

impl Met {
    fn add(&mut self, state: &[i32], origin: Option<(usize, EdgeId)>) {
        if !self.all.contains(state) {
            self.all.insert(state.to_vec());
            self.states.push(state.to_vec());
            self.origins.push(origin);
        }
    }

    fn way_to(&self, mut place: usize) -> Counterexample {
        let mut moves = Vec::new();
        while let Some((before, edge)) = self.origins[place] {
            moves.push((edge, self.states[place].clone()));
            place = before;
        }
        moves.reverse();
        Counterexample { start: self.states[place].clone(), moves, overrun: None }
    }
}
