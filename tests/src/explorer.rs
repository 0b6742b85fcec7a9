//! Brute force over the concrete states of charts with small ranges.

use std::ops::ControlFlow;

use crate::analysis::{location_of, Analysis, Verdict};
use crate::chart::{Chart, EdgeId};
use crate::concrete::{for_each_move, initial_states, outgoing, overruns, State};
use crate::domain::covers;

/// What an analysis has wrong about a chart, with the state that shows it.
#[derive(Clone, Debug, PartialEq, Eq)]
pub enum Violation {
    /// Called safe, though a run stands at an error location.
    ErrorReachable(State),
    /// Called safe, though a run comes to the state and overruns along the edge.
    OverrunReachable(State, EdgeId),
    /// Called safe, though no abstract state covers a reachable state.
    NotCovered(State),
    /// Not covered, and the run met no state on its way that a waiting abstract state covers.
    NotAwaited(State),
    /// A run to the state met no state that a waiting abstract state covers, and overruns along the edge.
    OverrunNotAwaited(State, EdgeId),
}

pub struct Explorer<'a> {
    chart: &'a Chart,
    /// The edges leaving each location.
    outgoing: Vec<Vec<EdgeId>>,
    /// The number of values of each variable.
    spans: Vec<usize>,
    size: usize,
    reachable: Vec<State>,
}

impl<'a> Explorer<'a> {
    /// `None` when the chart has more than `max_states` states in all.
    pub fn new(chart: &'a Chart, max_states: usize) -> Option<Self> {
        let spans: Vec<usize> = chart
            .variables
            .iter()
            .map(|variable| (variable.high - variable.low) as usize + 1)
            .collect();
        let size = spans
            .iter()
            .try_fold(chart.locations.len(), |size, &span| size.checked_mul(span))
            .filter(|&size| size <= max_states)?;
        let outgoing = outgoing(chart);
        let mut explorer = Explorer { chart, outgoing, spans, size, reachable: Vec::new() };
        let mut reachable = Vec::new();
        let _ = explorer.explore(|state| {
            reachable.push(state.to_vec());
            ControlFlow::<(), _>::Continue(true)
        });
        explorer.reachable = reachable;
        Some(explorer)
    }

    /// The last states of all runs; a move that overruns has no state after it.
    pub fn reachable(&self) -> &[State] {
        &self.reachable
    }

    pub fn reaches_error(&self) -> bool {
        self.error_state().is_some()
    }

    /// Whether a run has a move that overruns.
    pub fn overruns(&self) -> bool {
        self.overrun().is_some()
    }

    pub fn check(&self, analysis: &Analysis) -> Result<(), Violation> {
        if analysis.verdict == Verdict::Safe {
            self.check_safe(analysis)?;
        }
        self.check_awaited(analysis)
    }

    fn check_safe(&self, analysis: &Analysis) -> Result<(), Violation> {
        if let Some(state) = self.error_state() {
            return Err(Violation::ErrorReachable(state.clone()));
        }
        if let Some((state, edge)) = self.overrun() {
            return Err(Violation::OverrunReachable(state.clone(), edge));
        }
        let is_covered = |state: &&State| analysis.reached.rows().any(|row| covers(row, state));
        match self.reachable.iter().find(|state| !is_covered(state)) {
            Some(state) => Err(Violation::NotCovered(state.clone())),
            None => Ok(()),
        }
    }

    /// A run need not be followed beyond a state that a waiting abstract state
    /// covers; up to there each of its states is covered, and none of its moves overruns.
    fn check_awaited(&self, analysis: &Analysis) -> Result<(), Violation> {
        let met = self.explore(|state| {
            let is_awaited =
                analysis.waitlist.slots().any(|slot| covers(analysis.reached.row(slot), state));
            if is_awaited {
                return ControlFlow::Continue(false);
            }
            if !analysis.reached.rows().any(|row| covers(row, state)) {
                return ControlFlow::Break(Violation::NotAwaited(state.to_vec()));
            }
            match self.overrun_from(state) {
                Some(edge) => {
                    ControlFlow::Break(Violation::OverrunNotAwaited(state.to_vec(), edge))
                }
                None => ControlFlow::Continue(true),
            }
        });
        match met {
            ControlFlow::Break(violation) => Err(violation),
            ControlFlow::Continue(()) => Ok(()),
        }
    }

    fn error_state(&self) -> Option<&State> {
        self.reachable.iter().find(|state| self.chart.location(location_of(state)).is_error)
    }

    /// A reachable state, and an edge along which it overruns.
    fn overrun(&self) -> Option<(&State, EdgeId)> {
        self.reachable.iter().find_map(|state| Some((state, self.overrun_from(state)?)))
    }

    fn overrun_from(&self, state: &[i32]) -> Option<EdgeId> {
        let mut leaving = self.outgoing[location_of(state).0].iter().copied();
        leaving.find(|&id| overruns(self.chart, self.chart.edge(id), state))
    }

    /// Visits states breadth-first, each once. `visit` says whether to move on
    /// from the state, or breaks off.
    fn explore<B>(&self, mut visit: impl FnMut(&[i32]) -> ControlFlow<B, bool>) -> ControlFlow<B> {
        let width = self.chart.width();
        let mut is_met = vec![false; self.size];
        let mut queue: Vec<i32> = Vec::new();
        let mut enqueue = |queue: &mut Vec<i32>, state: &[i32]| {
            if !std::mem::replace(&mut is_met[self.index(state)], true) {
                queue.extend_from_slice(state);
            }
        };
        initial_states(self.chart).iter().for_each(|state| enqueue(&mut queue, state));
        let mut state = vec![0; width];
        let mut next = 0;
        while next < queue.len() {
            state.copy_from_slice(&queue[next..next + width]);
            next += width;
            if visit(&state)? {
                for &id in &self.outgoing[location_of(&state).0] {
                    let edge = self.chart.edge(id);
                    for_each_move(self.chart, edge, &state, |moved| enqueue(&mut queue, moved));
                }
            }
        }
        ControlFlow::Continue(())
    }

    fn index(&self, state: &[i32]) -> usize {
        self.chart
            .variables
            .iter()
            .zip(&self.spans)
            .zip(&state[1..])
            .fold(state[0] as usize, |index, ((variable, span), value)| {
                index * span + (value - variable.low) as usize
            })
    }
}
