//! The analysis: the reached table, the waitlist and the iterations over them.

use std::collections::{BTreeSet, VecDeque};

use crate::chart::{Chart, Edge, EdgeId, LocationId, SlotId};
use crate::corner::{self, Corner};
use crate::domain::{self, Move, MAX_WIDTH};
use crate::refusal::Reason;

pub const MAX_CAPACITY: usize = 256;
pub const MAX_ITERATIONS: u32 = 60_000;

#[derive(Clone, Copy, Debug, PartialEq, Eq)]
pub enum Merge {
    Sep,
    Join,
}

#[derive(Clone, Copy, Debug, PartialEq, Eq)]
pub enum Stop {
    Sep,
    Join,
}

/// Which waiting slot is taken: the one that joined the waitlist first, or last.
#[derive(Clone, Copy, Debug, PartialEq, Eq)]
pub enum Order {
    Old,
    New,
}

#[derive(Clone, Copy, Debug, PartialEq, Eq)]
pub struct Settings {
    pub merge: Merge,
    pub stop: Stop,
    pub order: Order,
}

#[derive(Clone, Copy, Debug, PartialEq, Eq)]
pub enum Verdict {
    Safe,
    Alarm,
    /// Document 01's "out of room".
    Full,
    /// Document 01's "unfinished".
    Open,
}

/// Document 01's walk.
#[derive(Clone, Debug, PartialEq, Eq)]
pub struct Analysis {
    pub settings: Settings,
    pub capacity: usize,
    pub iterations: u32,
    pub verdict: Verdict,
    /// The edge that raised the alarm; an error location at the start has none.
    pub edge: Option<EdgeId>,
    pub reached: Reached,
    pub waitlist: Waitlist,
    /// Met since it was begun or taken from lent words; for tests alone.
    pub corners: BTreeSet<Corner>,
    /// Slots widened since then by another slot or edge than their origin; for tests alone.
    pub joined_into: BTreeSet<SlotId>,
}

/// The abstract states in order of arrival, one row after the other, and beside them where each came from.
#[derive(Clone, Debug, PartialEq, Eq)]
pub struct Reached {
    width: usize,
    words: Vec<i32>,
    /// By slot number; no part of a state, so that nothing is compared or joined by it.
    origins: Vec<Option<Origin>>,
}

/// What first brought a slot: another slot, followed along an edge. The initial state has none.
#[derive(Clone, Copy, Debug, PartialEq, Eq)]
pub struct Origin {
    pub parent: SlotId,
    pub edge: EdgeId,
}

/// Slots in the order in which they joined, each at most once.
#[derive(Clone, Debug, PartialEq, Eq)]
pub struct Waitlist {
    slots: VecDeque<SlotId>,
    /// By slot number, so that joining again is seen without a search.
    is_waiting: Vec<bool>,
}

/// The numbers of the edges leaving each location, in file order.
struct Outgoing {
    edges: Vec<EdgeId>,
    /// Edges of location `l` stand at `starts[l]..starts[l + 1]`.
    starts: Vec<usize>,
}

/// 11 and 12, in this order; the capacity comes as any number a caller can write.
pub fn check_settings(settings: Settings, capacity: i64) -> Result<(), Reason> {
    if !(1..=MAX_CAPACITY as i64).contains(&capacity) {
        return Err(Reason::Capacity);
    }
    if !settings.is_sound() {
        return Err(Reason::MergeStop);
    }
    Ok(())
}

/// 13.
pub fn check_budget(budget: i64) -> Result<(), Reason> {
    if !(0..=i64::from(MAX_ITERATIONS)).contains(&budget) {
        return Err(Reason::Budget);
    }
    Ok(())
}

impl Settings {
    /// Slots kept apart cover less than their join, so a joined stop would drop
    /// states that nothing covers.
    pub fn is_sound(self) -> bool {
        !(self.merge == Merge::Sep && self.stop == Stop::Join)
    }
}

impl Analysis {
    /// The initial abstract state in slot 0, waiting, also under an alarm at once.
    pub fn start(chart: &Chart, settings: Settings, capacity: usize) -> Self {
        let mut reached = Reached::new(chart.width());
        let mut waitlist = Waitlist::new(capacity);
        waitlist.add(reached.push(&domain::initial(chart), None));
        let is_error = chart.location(Chart::START).is_error;
        Analysis {
            settings,
            capacity,
            iterations: 0,
            verdict: if is_error { Verdict::Alarm } else { Verdict::Open },
            edge: None,
            reached,
            waitlist,
            corners: BTreeSet::new(),
            joined_into: BTreeSet::new(),
        }
    }

    /// Started and run as one; an alarm at once stands, whatever the budget.
    pub fn begin(chart: &Chart, settings: Settings, capacity: usize, budget: u32) -> Self {
        let mut analysis = Analysis::start(chart, settings, capacity);
        analysis.run(chart, budget);
        analysis
    }

    /// Iterates until a verdict, the end of the budget or the limit of all iterations.
    pub fn run(&mut self, chart: &Chart, budget: u32) {
        let outgoing = Outgoing::new(chart);
        let mut left = budget;
        while left > 0 && self.verdict == Verdict::Open && self.iterations < MAX_ITERATIONS {
            self.iterate(chart, &outgoing);
            left -= 1;
        }
    }

    /// Back along the origins from the slot to be taken, which after an alarm is the one that raised it;
    /// slot 0 comes first.
    pub fn path(&self) -> Vec<SlotId> {
        let parent = |&slot: &SlotId| self.reached.origin(slot).map(|origin| origin.parent);
        let next = self.waitlist.next(self.settings.order);
        let mut path: Vec<SlotId> = std::iter::successors(next, parent).collect();
        path.reverse();
        path
    }

    fn iterate(&mut self, chart: &Chart, outgoing: &Outgoing) {
        let width = chart.width();
        let mut source_words = [0; MAX_WIDTH];
        let mut successor_words = [0; MAX_WIDTH];
        // A copy, since a self-loop may widen the slot while later edges still follow it.
        let source = &mut source_words[..width];
        let successor = &mut successor_words[..width];

        self.iterations += 1;
        let taken = self.waitlist.take(self.settings.order);
        source.copy_from_slice(self.reached.row(taken));
        let used_before = self.reached.len();
        let (mut is_taken_widened, mut is_any_widened) = (false, false);
        for &id in outgoing.of(location_of(source)) {
            let edge = chart.edge(id);
            let moved = domain::transfer(chart, edge, source, successor);
            match moved {
                Move::Blocked => {
                    corner::note_comparison(&mut self.corners, chart, edge.operation, source, None);
                    continue;
                }
                Move::Overrun => {
                    corner::note_result(&mut self.corners, chart, edge.operation, source);
                    let is_any_stored = self.reached.len() > used_before;
                    self.note_overrun(edge.to, is_any_stored, is_any_widened);
                }
                Move::Successor if is_taken_widened => self.note_copy(chart, edge, taken),
                Move::Successor => {}
            }
            // Before merging and the capacity, or a full table would hide an alarm.
            if moved == Move::Overrun || chart.location(edge.to).is_error {
                self.edge = Some(id);
                return self.break_off(taken, Verdict::Alarm);
            }
            let origin = Origin { parent: taken, edge: id };
            let is_widening = self.merge(successor, origin);
            is_any_widened |= is_widening;
            if self.reached.row(taken) != source {
                is_taken_widened = true;
                self.corners.insert(Corner::SelfLoop);
            }
            let is_new = !self.stops(successor);
            if is_new {
                if self.reached.len() == self.capacity {
                    return self.break_off(taken, Verdict::Full);
                }
                let slot = self.reached.push(successor, Some(origin));
                self.waitlist.add(slot);
            }
            // Only of a successor that is left in the table: others come by far too often.
            if is_new || is_widening {
                corner::note_result(&mut self.corners, chart, edge.operation, source);
                let passed = Some(&*successor);
                corner::note_comparison(&mut self.corners, chart, edge.operation, source, passed);
            }
        }
        if self.waitlist.is_empty() {
            self.verdict = Verdict::Safe;
        }
    }

    /// Not all edges of the taken slot were followed, so it waits again.
    fn break_off(&mut self, taken: SlotId, verdict: Verdict) {
        self.verdict = verdict;
        if self.waitlist.contains(taken) && self.waitlist.next(self.settings.order) != Some(taken) {
            self.corners.insert(Corner::PutBack);
        }
        self.waitlist.put_next(taken, self.settings.order);
    }

    /// What an overrun along an edge to `to` comes before, and after which edges of the iteration.
    fn note_overrun(&mut self, to: LocationId, is_any_stored: bool, is_any_widened: bool) {
        let has_slot = self.reached.rows().any(|row| location_of(row) == to);
        let is_full = self.reached.len() == self.capacity;
        let is_joining = self.settings.merge == Merge::Join;
        let corners = [
            (Corner::OverrunFull, is_full && !has_slot),
            (Corner::OverrunUnmerged, is_joining && has_slot),
            (Corner::OverrunAfterStored, is_any_stored),
            (Corner::OverrunAfterWidened, is_any_widened),
        ];
        self.corners.extend(corners.iter().filter(|(_, is_met)| *is_met).map(|(corner, _)| corner));
    }

    /// An edge has followed the copy of the taken slot, which is wider now.
    fn note_copy(&mut self, chart: &Chart, edge: &Edge, taken: SlotId) {
        self.corners.insert(Corner::CopyFollowed);
        let mut words = [0; MAX_WIDTH];
        let slot = self.reached.row(taken);
        if domain::transfer(chart, edge, slot, &mut words[..slot.len()]) == Move::Overrun {
            self.corners.insert(Corner::CopyFits);
        }
    }

    /// Tells whether a slot was widened. Made one with the iteration, it takes more instructions for each slot.
    #[inline(never)]
    fn merge(&mut self, successor: &[i32], origin: Origin) -> bool {
        if self.settings.merge == Merge::Sep {
            return false;
        }
        let mut widened = Vec::new();
        for (slot, row) in self.reached.rows_mut().enumerate() {
            if row[0] == successor[0] && domain::join_into(row, successor) {
                let slot = SlotId(slot);
                if self.waitlist.contains(slot) && self.waitlist.next(Order::New) != Some(slot) {
                    self.corners.insert(Corner::KeepsPlace);
                }
                self.waitlist.add(slot);
                widened.push(slot);
            }
        }
        let is_other = |slot: &&SlotId| self.reached.origin(**slot) != Some(origin);
        self.joined_into.extend(widened.iter().filter(is_other));
        !widened.is_empty()
    }

    fn stops(&self, successor: &[i32]) -> bool {
        match self.settings.stop {
            Stop::Sep => self.reached.rows().any(|row| domain::leq(successor, row)),
            Stop::Join => {
                let mut words = [0; MAX_WIDTH];
                let joined = &mut words[..successor.len()];
                let mut same_location = self.reached.rows().filter(|row| row[0] == successor[0]);
                let Some(first) = same_location.next() else {
                    return false;
                };
                joined.copy_from_slice(first);
                for row in same_location {
                    domain::join_into(joined, row);
                }
                domain::leq(successor, joined)
            }
        }
    }
}

impl Reached {
    pub fn new(width: usize) -> Self {
        Reached { width, words: Vec::new(), origins: Vec::new() }
    }

    pub fn width(&self) -> usize {
        self.width
    }

    /// The number of slots in use.
    pub fn len(&self) -> usize {
        self.origins.len()
    }

    pub fn is_empty(&self) -> bool {
        self.origins.is_empty()
    }

    pub fn row(&self, slot: SlotId) -> &[i32] {
        &self.words[slot.0 * self.width..][..self.width]
    }

    pub fn rows(&self) -> impl Iterator<Item = &[i32]> {
        self.words.chunks_exact(self.width)
    }

    pub fn origin(&self, slot: SlotId) -> Option<Origin> {
        self.origins[slot.0]
    }

    /// Each state with its origin, by slot number.
    pub fn slots(&self) -> impl Iterator<Item = (&[i32], Option<Origin>)> {
        self.rows().zip(self.origins.iter().copied())
    }

    pub fn push(&mut self, row: &[i32], origin: Option<Origin>) -> SlotId {
        let slot = SlotId(self.len());
        self.words.extend_from_slice(row);
        self.origins.push(origin);
        slot
    }

    fn rows_mut(&mut self) -> impl Iterator<Item = &mut [i32]> {
        self.words.chunks_exact_mut(self.width)
    }
}

impl Waitlist {
    pub fn new(capacity: usize) -> Self {
        Waitlist { slots: VecDeque::new(), is_waiting: vec![false; capacity] }
    }

    pub fn len(&self) -> usize {
        self.slots.len()
    }

    pub fn is_empty(&self) -> bool {
        self.slots.is_empty()
    }

    pub fn contains(&self, slot: SlotId) -> bool {
        self.is_waiting[slot.0]
    }

    /// Longest waiting first.
    pub fn slots(&self) -> impl Iterator<Item = SlotId> + '_ {
        self.slots.iter().copied()
    }

    /// Joins at the end; a slot that waits already keeps its place.
    pub fn add(&mut self, slot: SlotId) {
        if !self.is_waiting[slot.0] {
            self.is_waiting[slot.0] = true;
            self.slots.push_back(slot);
        }
    }

    /// The slot to be taken.
    pub fn next(&self, order: Order) -> Option<SlotId> {
        match order {
            Order::Old => self.slots.front().copied(),
            Order::New => self.slots.back().copied(),
        }
    }

    fn take(&mut self, order: Order) -> SlotId {
        let taken = match order {
            Order::Old => self.slots.pop_front(),
            Order::New => self.slots.pop_back(),
        };
        let taken = taken.expect("an open analysis has a waiting slot");
        self.is_waiting[taken.0] = false;
        taken
    }

    /// Puts the slot, or moves it, to the place taken next.
    fn put_next(&mut self, slot: SlotId, order: Order) {
        self.slots.retain(|&other| other != slot);
        self.is_waiting[slot.0] = true;
        match order {
            Order::Old => self.slots.push_front(slot),
            Order::New => self.slots.push_back(slot),
        }
    }
}

impl Outgoing {
    fn new(chart: &Chart) -> Self {
        let mut edges: Vec<EdgeId> = (1..=chart.edges.len()).map(EdgeId).collect();
        // The sort is stable, which keeps file order within a location.
        edges.sort_by_key(|&id| chart.edge(id).from.0);
        let starts = (0..=chart.locations.len())
            .map(|location| edges.partition_point(|&id| chart.edge(id).from.0 < location))
            .collect();
        Outgoing { edges, starts }
    }

    fn of(&self, location: LocationId) -> &[EdgeId] {
        &self.edges[self.starts[location.0]..self.starts[location.0 + 1]]
    }
}

pub fn location_of(row: &[i32]) -> LocationId {
    LocationId(row[0] as usize)
}
