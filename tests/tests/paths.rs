//! Paths: each is a way through its chart, and builds that are wrong in one thing, of the path call, of the
//! form that it judges or of what a begin writes for it, are told apart by random calls.

use std::collections::VecDeque;

use reference::analysis::{Analysis, Merge, Order, Origin, Settings, Stop, Verdict};
use reference::calls::{held_chart, is_in_form_but_for_origins};
use reference::chart::{Chart, EdgeId, SlotId};
use reference::domain::{self, join_into, leq, transfer, Move};
use reference::listing::{listing, path};
use reference::memory::Memory;
use reference::paths::refusals;
use reference::program::walk;
use reference::random::calls::{lent_to_path, REPORT_BYTES};
use reference::random::{count_at_least, inputs, seed, Random};
use reference::renderer::render;
use reference::way::check_way;

const CALLS: usize = 10_000;
const ANALYSES: usize = 10_000;
/// Of each sort, so that another seed finds it too.
const FEWEST: usize = 20;

/// By the chart, the listing and the path, as they are printed.
#[test]
fn every_path_is_a_way_through_the_chart() {
    let mut random = Random::new(seed());
    let (mut paths, mut steps) = (0, 0);
    for _ in 0..count_at_least(ANALYSES) {
        let Ok((chart, analysis)) = walk(&inputs::program_input(&mut random)) else {
            continue;
        };
        if analysis.verdict != Verdict::Alarm {
            continue;
        }
        let (listing, path) = (listing(&chart, &analysis), path(&chart, &analysis));
        if let Err(wrong) = check_way(&chart, &listing, &path) {
            panic!(
                "{wrong}: {}",
                String::from_utf8_lossy(&[path, listing, render(&chart)].concat())
            );
        }
        paths += 1;
        steps += analysis.path().len() - 1;
    }
    println!("{paths} paths, {steps} steps");
    assert!(paths >= 1_000 && steps >= 3_000);
}

/// A build of the path call: what it answers, and what it writes.
type Build = fn(&Memory, usize) -> (u32, Vec<u8>);

fn right(memory: &Memory, space: usize) -> (u32, Vec<u8>) {
    let (answer, text) = memory.path(space);
    (answer.number, text)
}

/// Wrong in one thing each.
const WRONG_BUILDS: [(&str, Build); 42] = [
    ("14 before 20", |memory, space| ordered([14, 20, 21, 24, 15], memory, space)),
    ("21 before 20", |memory, space| ordered([21, 20, 14, 24, 15], memory, space)),
    ("24 before 20", |memory, space| ordered([24, 20, 14, 21, 15], memory, space)),
    ("15 before 20", |memory, space| ordered([15, 20, 14, 21, 24], memory, space)),
    ("21 before 14", |memory, space| ordered([20, 21, 14, 24, 15], memory, space)),
    ("24 before 14", |memory, space| ordered([20, 24, 14, 21, 15], memory, space)),
    ("15 before 14", |memory, space| ordered([20, 15, 14, 21, 24], memory, space)),
    ("24 before 21", |memory, space| ordered([20, 14, 24, 21, 15], memory, space)),
    ("15 before 21", |memory, space| ordered([20, 14, 15, 21, 24], memory, space)),
    ("15 before 24", |memory, space| ordered([20, 14, 21, 15, 24], memory, space)),
    ("24 for safe alone", |memory, space| with_alarm(&[Verdict::Safe], memory, space)),
    ("no 24 for out of room", |memory, space| {
        with_alarm(&[Verdict::Safe, Verdict::Open], memory, space)
    }),
    ("no 24 for unfinished", |memory, space| {
        with_alarm(&[Verdict::Safe, Verdict::Full], memory, space)
    }),
    ("14 by the words of the states alone", |memory, space| {
        let mut longer = memory.clone();
        let capacity = memory.record.capacity.min(1_000) as usize;
        if memory.table.len() >= capacity * (memory.slot_width() - 2) {
            let enough = memory.table.len().max(capacity * memory.slot_width());
            longer.table.resize(enough, 0);
        }
        right(&longer, space)
    }),
    ("15 where the path just fits", |memory, space| match right(memory, space) {
        (0, text) if text.len() == space => (15, Vec::new()),
        answer => answer,
    }),
    ("15 by the listing's length", |memory, space| match right(memory, space) {
        (0, _) if memory.listing(REPORT_BYTES).1.len() > space => (15, Vec::new()),
        answer => answer,
    }),
    ("slot 0's words not looked at", |memory, space| {
        lenient(&[Fault::StartParent, Fault::StartEdge], memory, space)
    }),
    ("slot 0's parent not looked at", |memory, space| {
        lenient(&[Fault::StartParent], memory, space)
    }),
    ("slot 0's edge not looked at", |memory, space| lenient(&[Fault::StartEdge], memory, space)),
    ("a slot as its own parent", |memory, space| lenient(&[Fault::OwnSlot], memory, space)),
    ("a later slot as parent", |memory, space| lenient(&[Fault::LaterSlot], memory, space)),
    ("no slot as parent", |memory, space| lenient(&[Fault::NoSlot], memory, space)),
    ("65,535 and 0 after slot 0", |memory, space| lenient(&[Fault::AsStart], memory, space)),
    ("edge 0", |memory, space| lenient(&[Fault::Edge0], memory, space)),
    ("an edge past the last", |memory, space| lenient(&[Fault::NoEdge], memory, space)),
    ("the edge's from not looked at", |memory, space| lenient(&[Fault::From], memory, space)),
    ("the edge's to not looked at", |memory, space| lenient(&[Fault::To], memory, space)),
    ("origins not looked at", |memory, space| lenient(&Fault::ALL, memory, space)),
    ("the first of the waitlist always", |memory, space| ending(Order::Old, memory, space)),
    ("the last of the waitlist always", |memory, space| ending(Order::New, memory, space)),
    ("backwards", |memory, space| edited(memory, space, |lines| lines[1..].reverse())),
    ("the alarm edge in the last line", |memory, space| {
        edited(memory, space, |lines| {
            let last = lines.len() - 1;
            let alarm_edge = lines[0][2].clone();
            lines[last][0] = alarm_edge;
        })
    }),
    ("each line with the edge that leaves it", |memory, space| {
        edited(memory, space, |lines| {
            let alarm_edge = lines[0][2].clone();
            let edges = lines[2..].iter().map(|line| line[0].clone()).chain([alarm_edge]);
            let edges: Vec<String> = edges.collect();
            lines[1..].iter_mut().zip(edges).for_each(|(line, edge)| line[0] = edge);
        })
    }),
    ("each line with its parent in place of its edge", |memory, space| {
        edited(memory, space, |lines| {
            let slots: Vec<String> = lines[1..].iter().map(|line| line[1].clone()).collect();
            lines[2..].iter_mut().zip(slots).for_each(|(line, slot)| line[0] = slot);
        })
    }),
    ("each line with its place in place of its slot", |memory, space| {
        edited(memory, space, |lines| {
            let places = 0..lines.len();
            lines[1..].iter_mut().zip(places).for_each(|(line, place)| line[1] = place.to_string());
        })
    }),
    ("without slot 0", |memory, space| {
        edited(memory, space, |lines| {
            lines.remove(1);
        })
    }),
    ("without the taken slot", |memory, space| {
        edited(memory, space, |lines| {
            lines.pop();
        })
    }),
    ("every slot up to the taken one", |memory, space| {
        let slot_lines = listed(memory);
        edited(memory, space, |lines| {
            let taken: usize = lines.last().map_or(0, |line| line[1].parse().expect("a slot"));
            let shown = slot_lines[..=taken].iter().map(|line| {
                let origin = lines.iter().find(|shown| shown[1..] == line[..]);
                let edge = origin.map_or("0".to_string(), |shown| shown[0].clone());
                [&[edge], &line[..]].concat()
            });
            let shown: Vec<Vec<String>> = shown.collect();
            lines.splice(1.., shown);
        })
    }),
    ("w for the taken slot alone", |memory, space| {
        edited(memory, space, |lines| {
            let last = lines.len() - 1;
            lines[1..last].iter_mut().filter_map(|line| line.last_mut()).for_each(|field| {
                *field = "-".to_string();
            });
        })
    }),
    ("w for none", |memory, space| {
        edited(memory, space, |lines| {
            lines[1..].iter_mut().filter_map(|line| line.last_mut()).for_each(|field| {
                *field = "-".to_string();
            });
        })
    }),
    ("the edge that brought the taken slot in the header", |memory, space| {
        edited(memory, space, |lines| lines[0][2] = lines[lines.len() - 1][0].clone())
    }),
    ("the stop in the header", |memory, space| {
        let stop = memory.record.settings.stop.word();
        edited(memory, space, |lines| lines[0][1] = stop.to_string())
    }),
];

/// With the refusals in another order.
fn ordered(order: [u32; 5], memory: &Memory, space: usize) -> (u32, Vec<u8>) {
    let apply = refusals(memory, space);
    match order.into_iter().find(|number| apply.contains(number)) {
        Some(number) => (number, Vec::new()),
        None => right(memory, space),
    }
}

/// With 24 for these verdicts alone.
fn with_alarm(refused: &[Verdict], memory: &Memory, space: usize) -> (u32, Vec<u8>) {
    let mut alarm = memory.clone();
    if right(memory, space).0 == 24 && !refused.contains(&memory.record.verdict) {
        alarm.record.verdict = Verdict::Alarm;
    }
    right(&alarm, space)
}

/// With a waitlist that is taken from at this end.
fn ending(order: Order, memory: &Memory, space: usize) -> (u32, Vec<u8>) {
    let mut other = memory.clone();
    other.record.settings.order = order;
    right(&other, space)
}

/// With the text changed where there is one: its lines, of fields.
fn edited(memory: &Memory, space: usize, edit: impl Fn(&mut Vec<Vec<String>>)) -> (u32, Vec<u8>) {
    let (number, text) = right(memory, space);
    if number != 0 {
        return (number, text);
    }
    let mut lines = fields(&text);
    edit(&mut lines);
    let text: String = lines.iter().map(|line| line.join("\t") + "\n").collect();
    (number, text.into_bytes())
}

/// The slot lines of the listing.
fn listed(memory: &Memory) -> Vec<Vec<String>> {
    fields(&memory.listing(REPORT_BYTES).1).into_iter().skip(1).collect()
}

fn fields(text: &[u8]) -> Vec<Vec<String>> {
    let lines = String::from_utf8_lossy(text).into_owned();
    lines.lines().map(|line| line.split('\t').map(String::from).collect()).collect()
}

/// What can be wrong in a slot's origin.
#[derive(Clone, Copy, Debug, PartialEq, Eq)]
enum Fault {
    StartParent,
    StartEdge,
    OwnSlot,
    LaterSlot,
    /// Below 0, or a number that no slot has.
    NoSlot,
    /// Words that are right in slot 0.
    AsStart,
    Edge0,
    /// Below 0 or past the last.
    NoEdge,
    From,
    To,
}

impl Fault {
    const ALL: [Fault; 10] = [
        Fault::StartParent,
        Fault::StartEdge,
        Fault::OwnSlot,
        Fault::LaterSlot,
        Fault::NoSlot,
        Fault::AsStart,
        Fault::Edge0,
        Fault::NoEdge,
        Fault::From,
        Fault::To,
    ];
}

/// The call with these faults of an origin let pass. What it writes then does not matter: the number tells.
fn lenient(passed: &[Fault], memory: &Memory, space: usize) -> (u32, Vec<u8>) {
    let answer = right(memory, space);
    let Ok(chart) = held_chart(&memory.chart) else {
        return answer;
    };
    let Memory { table, waitlist, record, .. } = memory;
    if answer.0 != 21 || !is_in_form_but_for_origins(&chart, table, waitlist, record) {
        return answer;
    }
    let slots: Vec<&[i32]> = table.chunks(memory.slot_width()).collect();
    let used = &slots[..record.used as usize];
    let mut faults = (0..used.len()).flat_map(|slot| faults(&chart, used, slot)).peekable();
    assert!(faults.peek().is_some(), "21 is for an origin, but there is no fault: {memory:?}");
    match faults.all(|fault| passed.contains(&fault)) {
        true if record.verdict == Verdict::Alarm => (0, Vec::new()),
        true => (24, Vec::new()),
        false => answer,
    }
}

/// As document 02 has them, one by one.
fn faults(chart: &Chart, slots: &[&[i32]], slot: usize) -> Vec<Fault> {
    let words = slots[slot];
    let (parent, edge) = (words[words.len() - 2], words[words.len() - 1]);
    let mut faults = Vec::new();
    let mut add = |is_met: bool, fault: Fault| faults.extend(is_met.then_some(fault));
    if slot == 0 {
        add(parent != 65_535, Fault::StartParent);
        add(edge != 0, Fault::StartEdge);
        return faults;
    }
    if (parent, edge) == (65_535, 0) {
        return vec![Fault::AsStart];
    }
    let parent_words = usize::try_from(parent).ok().and_then(|parent| slots.get(parent));
    add(parent == slot as i32, Fault::OwnSlot);
    add(parent > slot as i32 && parent_words.is_some(), Fault::LaterSlot);
    add(parent_words.is_none(), Fault::NoSlot);
    add(edge == 0, Fault::Edge0);
    let last = chart.edges.len() as i32;
    add(edge < 0 || edge > last, Fault::NoEdge);
    if (1..=last).contains(&edge) {
        let edge = chart.edge(EdgeId(edge as usize));
        let is_from = parent_words.is_none_or(|parent| parent[0] == edge.from.0 as i32);
        add(!is_from, Fault::From);
        add(words[0] != edge.to.0 as i32, Fault::To);
    }
    faults
}

/// What compares a build with the walker over these calls finds each wrong one many times.
#[test]
fn wrong_path_calls_are_told_apart() {
    let mut random = Random::new(seed() ^ 1);
    let mut found = WRONG_BUILDS.map(|_| 0);
    for _ in 0..count_at_least(CALLS) {
        let (lent, space) = lent_to_path(&mut random);
        let expected = right(&lent, space);
        for (found, (_, build)) in found.iter_mut().zip(WRONG_BUILDS) {
            *found += usize::from(build(&lent, space) != expected);
        }
    }
    for (found, (wrong, _)) in found.into_iter().zip(WRONG_BUILDS) {
        println!("{wrong}: {found}");
        assert!(found >= FEWEST, "{wrong}: told apart {found} times only");
    }
}

/// What an analysis can do wrong with origins.
#[derive(Clone, Copy, Debug, PartialEq, Eq)]
enum Flaw {
    None,
    JoinOverwrites,
    JoinOverwritesParent,
    JoinOverwritesEdge,
    /// The slot that is joined into becomes its own parent.
    JoinIsOwnParent,
    /// A successor that changes no slot leaves its origin in the one that it lies under.
    DroppedOverwrites,
    /// Equal states of other origins are kept apart.
    OriginCompared,
    /// In place of the taken slot.
    ParentIsSlotBefore,
    /// The first slot of the location that the edge leaves.
    ParentIsFirstOfLocation,
    /// From 0.
    EdgeCountedFromZero,
    /// Of two that leave a location the earlier one has the lower number, but the others do not count.
    EdgeCountedAmongLeaving,
    StartIsZero,
}

const FLAWS: [Flaw; 11] = [
    Flaw::JoinOverwrites,
    Flaw::JoinOverwritesParent,
    Flaw::JoinOverwritesEdge,
    Flaw::JoinIsOwnParent,
    Flaw::DroppedOverwrites,
    Flaw::OriginCompared,
    Flaw::ParentIsSlotBefore,
    Flaw::ParentIsFirstOfLocation,
    Flaw::EdgeCountedFromZero,
    Flaw::EdgeCountedAmongLeaving,
    Flaw::StartIsZero,
];

/// A slot's state, and its origin as two numbers.
type Slot = (Vec<i32>, (usize, usize));

/// An analysis written once more, as short as it can be, with one flaw; to the end of the iterations.
fn slots(chart: &Chart, settings: Settings, capacity: usize, flaw: Flaw) -> Vec<Slot> {
    let start = if flaw == Flaw::StartIsZero { (0, 0) } else { (65_535, 0) };
    let mut slots: Vec<Slot> = vec![(domain::initial(chart), start)];
    if chart.location(Chart::START).is_error {
        return slots;
    }
    let mut waiting = VecDeque::from([0]);
    loop {
        let next = match settings.order {
            Order::Old => waiting.pop_front(),
            Order::New => waiting.pop_back(),
        };
        let Some(taken) = next else {
            return slots;
        };
        let source = slots[taken].0.clone();
        let leaving = (1..).zip(&chart.edges).filter(|(_, edge)| edge.from.0 as i32 == source[0]);
        for (place, (number, edge)) in leaving.enumerate() {
            let mut successor = vec![0; source.len()];
            match transfer(chart, edge, &source, &mut successor) {
                Move::Blocked => continue,
                Move::Overrun => return slots,
                Move::Successor if chart.location(edge.to).is_error => return slots,
                Move::Successor => {}
            }
            let origin = match flaw {
                Flaw::ParentIsSlotBefore => (slots.len() - 1, number),
                Flaw::ParentIsFirstOfLocation => {
                    let first = slots.iter().position(|(state, _)| state[0] == source[0]);
                    (first.expect("the taken one is there"), number)
                }
                Flaw::EdgeCountedFromZero => (taken, number - 1),
                Flaw::EdgeCountedAmongLeaving => (taken, place + 1),
                _ => (taken, number),
            };
            let is_joining = settings.merge == Merge::Join;
            for (slot, (state, its_origin)) in slots.iter_mut().enumerate() {
                if !is_joining || state[0] != successor[0] || !join_into(state, &successor) {
                    continue;
                }
                match flaw {
                    Flaw::JoinOverwrites => *its_origin = origin,
                    Flaw::JoinOverwritesParent => its_origin.0 = origin.0,
                    Flaw::JoinOverwritesEdge => its_origin.1 = origin.1,
                    Flaw::JoinIsOwnParent => its_origin.0 = slot,
                    _ => {}
                }
                if !waiting.contains(&slot) {
                    waiting.push_back(slot);
                }
            }
            if let Some((_, its_origin)) = covering(settings, &mut slots, &successor, origin, flaw)
            {
                if flaw == Flaw::DroppedOverwrites {
                    *its_origin = origin;
                }
                continue;
            }
            if slots.len() == capacity {
                return slots;
            }
            waiting.push_back(slots.len());
            slots.push((successor, origin));
        }
    }
}

/// A slot for which the successor is dropped; with join there is one where all slots together cover it,
/// since each of its location has been widened to do so.
fn covering<'a>(
    settings: Settings,
    slots: &'a mut [Slot],
    successor: &[i32],
    origin: (usize, usize),
    flaw: Flaw,
) -> Option<&'a mut Slot> {
    assert!(settings.stop == Stop::Sep || settings.merge == Merge::Join);
    let is_same = |other: (usize, usize)| flaw != Flaw::OriginCompared || other == origin;
    slots.iter_mut().find(|(state, other)| leq(successor, state) && is_same(*other))
}

/// The walker's, in the same form.
fn right_slots(analysis: &Analysis) -> Vec<Slot> {
    let numbers = |origin: Origin| (origin.parent.0, origin.edge.0);
    let slots = analysis.reached.slots();
    slots.map(|(row, origin)| (row.to_vec(), origin.map_or((65_535, 0), numbers))).collect()
}

/// On the way to one slot.
fn way(slots: &[Slot], mut slot: SlotId) -> Vec<&Slot> {
    let mut way = Vec::new();
    while let Some(found) = slots.get(slot.0).filter(|_| way.len() <= slots.len()) {
        way.push(found);
        slot = SlotId(found.1 .0);
    }
    way
}

/// Each flaw is seen in the words that a begin leaves, and on the way to the alarm.
#[test]
fn wrong_origins_are_told_apart() {
    let mut random = Random::new(seed() ^ 2);
    let mut found = FLAWS.map(|_| (0, 0));
    for _ in 0..count_at_least(ANALYSES) {
        let (chart, settings, capacity) = inputs::analysis(&mut random);
        let capacity = capacity as usize;
        let analysis = Analysis::begin(&chart, settings, capacity, 60_000);
        let right = right_slots(&analysis);
        assert_eq!(slots(&chart, settings, capacity, Flaw::None), right, "without a flaw");
        for ((in_words, on_way), flaw) in found.iter_mut().zip(FLAWS) {
            let wrong = slots(&chart, settings, capacity, flaw);
            *in_words += usize::from(wrong != right);
            if let (Verdict::Alarm, Some(&taken)) = (analysis.verdict, analysis.path().last()) {
                *on_way += usize::from(way(&wrong, taken) != way(&right, taken));
            }
        }
    }
    for ((in_words, on_way), flaw) in found.into_iter().zip(FLAWS) {
        println!("{flaw:?}: {in_words} in the words, {on_way} on the way");
        assert!(in_words >= FEWEST && on_way >= FEWEST, "{flaw:?}: {in_words}, {on_way} only");
    }
}
