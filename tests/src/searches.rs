//! What few searches meet and much can go wrong at; for tests alone. Counterexamples are found here a second
//! way: all states of the shortest ones, by going back from where they end.

use std::collections::{BTreeSet, HashMap, HashSet};

use crate::analysis::location_of;
use crate::calls::held_chart;
use crate::chart::{Chart, EdgeId, LocationId, Operation, Variable, NUMBERS};
use crate::concrete::{for_each_move, initial_states, outgoing, overruns, State};
use crate::encoding::decode;
use crate::listing::search_text;
use crate::search::{
    check_bound, check_size, Counterexample, MAX_BOUND, MAX_INPUT_VALUES, MAX_STARTS,
};

/// What a search call is asked and lent.
#[derive(Clone, Debug)]
pub struct Search {
    pub chart: Vec<i32>,
    pub bound: i32,
    /// Bytes for the text.
    pub space: usize,
}

#[derive(Clone, Copy, Debug, PartialEq, Eq, PartialOrd, Ord)]
pub enum SearchCorner {
    /// Refused for one reason alone.
    Alone(u32),
    /// Refused by the first number, though the second would apply too.
    Before(u32, u32),
    /// A bound at a limit.
    AtLimit(i32),
    /// Just the bytes that the text takes, or one fewer, and nothing else to refuse it for.
    Bytes { is_short: bool },
    /// The widest input has as many values as it may, or one more; starts are few enough.
    Inputs(i32),
    /// An input too wide that no edges lead to; starts are few enough.
    InputUnreached,
    /// How many starting states there are; inputs are narrow enough.
    Starts(Starts),
    /// A counterexample of so many moves.
    Found { moves: usize, end: End },
    /// As many moves as there may be.
    JustWithin,
    /// No counterexample of so many moves.
    None(usize),
    /// None, but one with one move more.
    JustBeyond(usize),
    /// What tells the counterexample from another of as many moves.
    Decided(By),
    /// What comes before, and leads to no counterexample of so few moves.
    Passed(By),
    /// A move to an error location and one that overruns end it equally well.
    EitherEnd { is_overrun: bool },
}

#[derive(Clone, Copy, Debug, PartialEq, Eq, PartialOrd, Ord)]
pub enum Starts {
    Most,
    JustAbove,
    /// Too many, though as many bits of their number would not tell.
    Wrapped(u32),
}

#[derive(Clone, Copy, Debug, PartialEq, Eq, PartialOrd, Ord)]
pub enum End {
    /// The start is an error location.
    Start,
    Error,
    Overrun,
}

#[derive(Clone, Copy, Debug, PartialEq, Eq, PartialOrd, Ord)]
pub enum By {
    Start,
    /// A later start would have another first move, which comes earlier.
    StartBeforeMove,
    /// By its last variable it would be another.
    FirstVariable,
    /// The same value of the first variable.
    LaterVariable,
    /// A negative value comes before a positive one.
    NegativeStart,
    /// An earlier start has a counterexample too, but a longer one.
    LongerFromStart,
    FirstEdge,
    LaterEdge,
    Input,
    NegativeInput,
}

/// A search's refusals in their order.
pub const REFUSALS: [u32; 4] = [30, 20, 31, 15];
/// The least and the highest bound, what is next to them, and the least and the highest word.
const LIMITS: [i32; 6] = [-1, 0, 8, 9, i32::MIN, i32::MAX];
/// No text has fewer bytes.
const SHORTEST: usize = b"none\t0\n".len();

/// Every refusal that applies, each judged by itself as far as it can be, in their order: the first is
/// answered. A chart out of form is judged by 31 where its words say so much, and without a text 15 by
/// what any takes.
pub fn refusals(search: &Search) -> Vec<u32> {
    judged(search).0
}

/// The refusals, and the length of the text where 15 is judged by it.
fn judged(search: &Search) -> (Vec<u32>, Option<usize>) {
    let (bound, chart) = (check_bound(i64::from(search.bound)), held_chart(&search.chart));
    let is_large =
        decode(&search.chart).filter(has_numbers).is_some_and(|chart| check_size(&chart).is_err());
    let length = match (bound, &chart) {
        (Ok(bound), Ok(chart)) if !is_large => Some(second_text(chart, bound).len()),
        _ => None,
    };
    let applies = |number: u32| match number {
        30 => bound.is_err(),
        20 => chart.is_err(),
        31 => is_large,
        _ => search.space < length.unwrap_or(SHORTEST),
    };
    (REFUSALS.into_iter().filter(|&number| applies(number)).collect(), length)
}

/// Whether the size of a chart that may be out of form can be judged.
fn has_numbers(chart: &Chart) -> bool {
    let is_range =
        |low: i32, high: i32| NUMBERS.contains(&low) && NUMBERS.contains(&high) && low <= high;
    chart.variables.iter().all(|&Variable { low, high, .. }| is_range(low, high))
        && chart.edges.iter().all(|edge| match edge.operation {
            Operation::In { low, high, .. } => is_range(low, high),
            _ => true,
        })
}

/// What a search call meets in what it is lent.
pub fn search_corners_of(search: &Search) -> BTreeSet<SearchCorner> {
    let mut corners = BTreeSet::new();
    let (refusals, length) = judged(search);
    match refusals[..] {
        [] => {}
        [alone] => corners.extend([SearchCorner::Alone(alone)]),
        [first, ref others @ ..] => {
            corners.extend(others.iter().map(|&other| SearchCorner::Before(first, other)));
        }
    }
    if LIMITS.contains(&search.bound) {
        corners.insert(SearchCorner::AtLimit(search.bound));
    }
    if let Some(length) = length.filter(|length| (length - 1..=*length).contains(&search.space)) {
        corners.insert(SearchCorner::Bytes { is_short: search.space < length });
    }
    if refusals.iter().all(|&number| number == 31) {
        let chart = held_chart(&search.chart).expect("20 does not apply");
        corners.extend(found_corners_of(&chart, search.bound as usize));
    }
    corners
}

/// What a search of so many moves meets in a chart.
pub fn found_corners_of(chart: &Chart, bound: usize) -> BTreeSet<SearchCorner> {
    let mut corners = size_corners_of(chart);
    if check_size(chart).is_err() {
        return corners;
    }
    let Some(ways) = Ways::of(chart, bound) else {
        corners.insert(SearchCorner::None(bound));
        if Ways::of(chart, bound + 1).is_some() {
            corners.insert(SearchCorner::JustBeyond(bound));
        }
        return corners;
    };
    let found = ways.first();
    let moves = found.length();
    let end = match (moves, found.overrun) {
        (0, _) => End::Start,
        (_, None) => End::Error,
        (_, Some(_)) => End::Overrun,
    };
    corners.insert(SearchCorner::Found { moves, end });
    if moves == bound && bound > 0 {
        corners.insert(SearchCorner::JustWithin);
    }
    corners.extend(start_corners_of(&ways, &found, bound));
    corners.extend(move_corners_of(&ways, &found));
    corners
}

fn size_corners_of(chart: &Chart) -> BTreeSet<SearchCorner> {
    let mut corners = BTreeSet::new();
    let width = |from: LocationId| {
        let leaving = chart.edges.iter().filter(move |edge| edge.from == from);
        leaving.filter_map(|edge| match edge.operation {
            Operation::In { low, high, .. } => Some(high - low + 1),
            _ => None,
        })
    };
    let all = (0..chart.locations.len()).map(LocationId);
    let widest = all.clone().flat_map(width).max().unwrap_or(0);
    let unspecific = chart.variables.iter().filter(|variable| variable.init.is_none());
    let spans: Vec<u64> =
        unspecific.map(|variable| (variable.high - variable.low) as u64 + 1).collect();
    let starts = spans.iter().fold(1_u64, |starts, &span| starts.saturating_mul(span));
    let most = MAX_STARTS as u64;
    if starts <= most {
        if [MAX_INPUT_VALUES, MAX_INPUT_VALUES + 1].contains(&widest) {
            corners.insert(SearchCorner::Inputs(widest));
        }
        let reached = led_to(chart);
        let is_unreached = |from: &LocationId| !reached.contains(&from.0);
        if widest > MAX_INPUT_VALUES
            && all.filter(|from| !is_unreached(from)).flat_map(width).all(|width| width < widest)
        {
            corners.insert(SearchCorner::InputUnreached);
        }
    }
    if widest <= MAX_INPUT_VALUES {
        let wrapped = |bits: u32| {
            let mask = u64::MAX >> (64 - bits);
            spans.iter().fold(1_u64, |starts, &span| starts.wrapping_mul(span) & mask)
        };
        match starts {
            starts if starts == most => corners.extend([SearchCorner::Starts(Starts::Most)]),
            starts if starts <= most => {}
            starts => {
                if starts <= most + 10 {
                    corners.insert(SearchCorner::Starts(Starts::JustAbove));
                }
                let bits = [16, 32, 64].into_iter().filter(|&bits| wrapped(bits) <= most);
                corners.extend(bits.map(|bits| SearchCorner::Starts(Starts::Wrapped(bits))));
            }
        }
    }
    corners
}

/// Locations to which edges lead from the start, whatever their operations.
fn led_to(chart: &Chart) -> HashSet<usize> {
    let mut reached = HashSet::from([Chart::START.0]);
    for _ in 0..chart.locations.len() {
        let next = chart.edges.iter().filter(|edge| reached.contains(&edge.from.0));
        reached.extend(next.map(|edge| edge.to.0).collect::<Vec<_>>());
    }
    reached
}

fn start_corners_of(ways: &Ways, found: &Counterexample, bound: usize) -> Vec<SearchCorner> {
    let mut corners = Vec::new();
    let mut add = |is_met: bool, corner: SearchCorner| corners.extend(is_met.then_some(corner));
    let initial = initial_states(ways.chart);
    let earlier: Vec<&State> = initial.iter().take_while(|state| **state != found.start).collect();
    add(!earlier.is_empty(), SearchCorner::Passed(By::Start));
    let has_longer =
        |state: &&State| Ways::from(ways.chart, bound, vec![(*state).clone()]).is_some();
    // A few are enough to tell, and all of them may be thousands.
    let is_any_longer = earlier.iter().take(20).any(has_longer);
    add(is_any_longer, SearchCorner::Passed(By::LongerFromStart));

    let starts: Vec<&State> = ways.states[0].iter().collect();
    let others = &starts[1..];
    add(!others.is_empty(), SearchCorner::Decided(By::Start));
    let reversed = |state: &State| state.iter().rev().copied().collect::<Vec<_>>();
    let by_last = starts.iter().min_by_key(|state| reversed(state));
    add(by_last != Some(&&found.start), SearchCorner::Decided(By::FirstVariable));
    add(
        others.first().is_some_and(|other| other[1] == found.start[1]),
        SearchCorner::Decided(By::LaterVariable),
    );
    let is_above = |other: &&State| {
        found.start.iter().zip(other.iter()).any(|(value, other)| *value < 0 && *other > 0)
    };
    add(others.iter().any(is_above), SearchCorner::Decided(By::NegativeStart));
    let first_move = |start: &State| ways.moves_on(0, start).next().map(|(edge, _)| edge);
    let first = first_move(&found.start);
    add(
        others.iter().take(20).any(|other| first_move(other) < first),
        SearchCorner::Decided(By::StartBeforeMove),
    );
    corners
}

/// Of each move, what else there was from the state before it.
fn move_corners_of(ways: &Ways, found: &Counterexample) -> BTreeSet<SearchCorner> {
    let mut corners = BTreeSet::new();
    let moved = found.moves.iter().map(|(edge, state)| (*edge, Some(state)));
    let overrun = found.overrun.map(|edge| (edge, None));
    let mut before = &found.start;
    for (place, (edge, state)) in moved.chain(overrun).enumerate() {
        let is_this = |option: &(usize, Option<State>)| *option == (edge.0, state.cloned());
        let by = |other: usize| match (other == edge.0, place) {
            (true, _) => By::Input,
            (false, 0) => By::FirstEdge,
            (false, _) => By::LaterEdge,
        };
        let options = ways.moves(before);
        let passed = options.iter().take_while(|option| !is_this(option));
        for (other, _) in passed {
            corners.insert(SearchCorner::Passed(by(*other)));
        }
        for (other, to) in ways.moves_on(place, before).filter(|option| !is_this(option)) {
            corners.insert(SearchCorner::Decided(by(other)));
            if let (true, Some(state), Some(to)) = (other == edge.0, state, &to) {
                if state.iter().zip(to).any(|(value, other)| *value < 0 && *other > 0) {
                    corners.insert(SearchCorner::Decided(By::NegativeInput));
                }
            }
            if state.is_none() != to.is_none() {
                corners.insert(SearchCorner::EitherEnd { is_overrun: state.is_none() });
            }
        }
        before = state.unwrap_or(before);
    }
    corners
}

/// The states of every shortest counterexample, by how many moves come before them.
pub struct Ways<'a> {
    chart: &'a Chart,
    outgoing: Vec<Vec<EdgeId>>,
    states: Vec<BTreeSet<State>>,
    length: usize,
}

impl<'a> Ways<'a> {
    /// `None` where each has more moves than `bound`.
    pub fn of(chart: &'a Chart, bound: usize) -> Option<Self> {
        Ways::from(chart, bound, initial_states(chart))
    }

    /// With these states alone to start from.
    pub fn from(chart: &'a Chart, bound: usize, starts: Vec<State>) -> Option<Self> {
        let mut ways = Ways { chart, outgoing: outgoing(chart), states: Vec::new(), length: 0 };
        let mut layers = vec![BTreeSet::from_iter(starts)];
        let mut met: HashSet<State> = layers[0].iter().cloned().collect();
        while !layers[ways.length].iter().any(|state| ways.is_error(state)) {
            if ways.length == bound {
                return None;
            }
            let layer = &layers[ways.length];
            ways.length += 1;
            if layer.iter().any(|state| ways.overruns(state)) {
                let next = layer.iter().flat_map(|state| ways.moves(state));
                let errors = next.filter_map(|(_, to)| to.filter(|to| ways.is_error(to)));
                layers.push(errors.collect());
                break;
            }
            let next = layer.iter().flat_map(|state| ways.moves(state));
            let next: BTreeSet<State> =
                next.filter_map(|(_, to)| to.filter(|to| !met.contains(to))).collect();
            met.extend(next.iter().cloned());
            layers.push(next);
        }
        let last = layers.pop().unwrap_or_default();
        ways.states = vec![last.into_iter().filter(|state| ways.is_error(state)).collect()];
        while let Some(layer) = layers.pop() {
            let after = ways.states.last().expect("there is the last one");
            let is_last = ways.states.len() == 1;
            let leads = |state: &State| {
                ways.moves(state).iter().any(|(_, to)| match to {
                    Some(to) => after.contains(to),
                    None => is_last,
                })
            };
            let layer: BTreeSet<State> = layer.into_iter().filter(leads).collect();
            ways.states.push(layer);
        }
        ways.states.reverse();
        Some(ways)
    }

    fn is_error(&self, state: &[i32]) -> bool {
        self.chart.location(location_of(state)).is_error
    }

    fn overruns(&self, state: &[i32]) -> bool {
        self.moves(state).iter().any(|(_, to)| to.is_none())
    }

    /// All there are, in their order, each with its edge's number; without a state after it where it overruns.
    fn moves(&self, state: &[i32]) -> Vec<(usize, Option<State>)> {
        let mut moves = Vec::new();
        for &id in &self.outgoing[location_of(state).0] {
            let edge = self.chart.edge(id);
            if overruns(self.chart, edge, state) {
                moves.push((id.0, None));
            }
            for_each_move(self.chart, edge, state, |to| moves.push((id.0, Some(to.to_vec()))));
        }
        moves
    }

    /// Those of a state after so many moves that some shortest counterexample takes.
    fn moves_on(
        &self,
        place: usize,
        state: &[i32],
    ) -> impl Iterator<Item = (usize, Option<State>)> + '_ {
        let is_on = move |(_, to): &(usize, Option<State>)| match to {
            Some(to) => self.states.get(place + 1).is_some_and(|states| states.contains(to)),
            None => place + 1 == self.length,
        };
        self.moves(state).into_iter().filter(is_on)
    }

    /// Each of them, in their order; as many as `most` of them, and one more where there are more.
    pub fn all(&self, most: usize) -> Vec<Counterexample> {
        let start = |start: &State| Counterexample {
            start: start.clone(),
            moves: Vec::new(),
            overrun: None,
        };
        let mut parts: Vec<Counterexample> = self.states[0].iter().map(start).collect();
        for place in 0..self.length {
            parts.truncate(most + 1);
            parts = parts.iter().flat_map(|part| self.longer(place, part)).collect();
        }
        parts.truncate(most + 1);
        parts
    }

    /// By one move.
    fn longer(&self, place: usize, part: &Counterexample) -> Vec<Counterexample> {
        let state = part.moves.last().map_or(&part.start, |(_, state)| state);
        let with = |(edge, to): (usize, Option<State>)| {
            let mut longer = part.clone();
            match to {
                Some(to) => longer.moves.push((EdgeId(edge), to)),
                None => longer.overrun = Some(EdgeId(edge)),
            }
            longer
        };
        self.moves_on(place, state).map(with).collect()
    }

    /// The least start, and from there on the first move each time.
    pub fn first(&self) -> Counterexample {
        self.all(0).swap_remove(0)
    }
}

/// What a search prints, by the second way.
pub fn second_text(chart: &Chart, bound: usize) -> Vec<u8> {
    let found = Ways::of(chart, bound).map(|ways| ways.first());
    search_text(chart, bound, found.as_ref())
}

/// The largest bound, up to this one, with which a search looks at no more than `most` edges that remembers nothing
/// and goes down to each number of moves in turn.
pub fn affordable(chart: &Chart, bound: usize, most: usize) -> usize {
    let outgoing = outgoing(chart);
    let mut layer: HashMap<State, usize> =
        initial_states(chart).into_iter().map(|state| (state, 1)).collect();
    // In going down to so many moves, and in all.
    let (mut down, mut all) = (0_usize, 0_usize);
    for moves in 0..=bound {
        let states: usize = layer.values().sum();
        down = down.saturating_add(states.saturating_mul(chart.edges.len() + 1));
        all = all.saturating_add(down);
        if all > most {
            return moves.saturating_sub(1);
        }
        if moves == bound {
            break;
        }
        let mut next: HashMap<State, usize> = HashMap::new();
        for (state, times) in layer {
            for &id in &outgoing[location_of(&state).0] {
                for_each_move(chart, chart.edge(id), &state, |to| match next.get_mut(to) {
                    Some(already) => *already += times,
                    None => drop(next.insert(to.to_vec(), times)),
                });
            }
        }
        layer = next;
    }
    bound
}

/// Every corner that `search_corners_of` gives.
pub fn search_corners() -> Vec<SearchCorner> {
    let mut corners = found_corners();
    for (place, &number) in REFUSALS.iter().enumerate() {
        corners.push(SearchCorner::Alone(number));
        let later = &REFUSALS[place + 1..];
        corners.extend(later.iter().map(|&later| SearchCorner::Before(number, later)));
    }
    corners.extend(LIMITS.map(SearchCorner::AtLimit));
    corners.extend([true, false].map(|is_short| SearchCorner::Bytes { is_short }));
    corners
}

/// Every corner that `found_corners_of` gives.
pub fn found_corners() -> Vec<SearchCorner> {
    let mut corners = vec![
        SearchCorner::Inputs(MAX_INPUT_VALUES),
        SearchCorner::Inputs(MAX_INPUT_VALUES + 1),
        SearchCorner::InputUnreached,
        SearchCorner::Found { moves: 0, end: End::Start },
        SearchCorner::JustWithin,
    ];
    let starts = [Starts::Most, Starts::JustAbove];
    let wrapped = [16, 32, 64].map(Starts::Wrapped);
    corners.extend(starts.into_iter().chain(wrapped).map(SearchCorner::Starts));
    for moves in 1..=MAX_BOUND {
        corners.extend([End::Error, End::Overrun].map(|end| SearchCorner::Found { moves, end }));
    }
    for bound in 0..=MAX_BOUND {
        corners.extend([SearchCorner::None(bound), SearchCorner::JustBeyond(bound)]);
    }
    let decided = [
        By::Start,
        By::StartBeforeMove,
        By::FirstVariable,
        By::LaterVariable,
        By::NegativeStart,
        By::FirstEdge,
        By::LaterEdge,
        By::Input,
        By::NegativeInput,
    ];
    corners.extend(decided.map(SearchCorner::Decided));
    let passed = [By::Start, By::LongerFromStart, By::FirstEdge, By::LaterEdge, By::Input];
    corners.extend(passed.map(SearchCorner::Passed));
    corners.extend([true, false].map(|is_overrun| SearchCorner::EitherEnd { is_overrun }));
    corners
}
