//! How many words of the table cover check and merge look at, and the fewest that must be looked at.
//!
//! Counted by playing the analysis here, with the reference walker's transfer and the library's ways to look: the
//! library itself counts nothing.

use std::collections::VecDeque;

use reference::chart::Chart;
use reference::domain::{self, Move, TOP};
use reference::reader;

use crate::subjects::{charts, costliest, Subject, BEGIN_JOIN, BEGIN_SEP};

/// A slot's location counts as one word each time that the slot is looked at.
#[derive(Default)]
struct Looked {
    /// Every slot in use, and all values of those at the successor's location.
    every_slot: u64,
    /// Along the links, up to the first word that differs; in the slots after one, that word first.
    by_links: u64,
    /// A word of each slot at the successor's location that does not cover it, and all values of one that does; to
    /// merge, all values of each slot there.
    fewest: u64,
}

pub fn print() {
    println!("| chart | begin | every slot | along the links | fewest |");
    println!("|---|---|---|---|---|");
    for subject in charts().into_iter().chain([costliest()]) {
        for (call, is_joining) in [(BEGIN_SEP, false), (BEGIN_JOIN, true)] {
            if subject.calls.iter().any(|each| each.name == call.name) {
                print_row(&subject, call.name, is_joining);
            }
        }
    }
}

fn print_row(subject: &Subject, call: &str, is_joining: bool) {
    let chart = reader::read(&subject.file).expect("the subject is accepted");
    let Looked { every_slot, by_links, fewest } = play(&chart, subject, is_joining);
    println!("| {} | {call} | {every_slot} | {by_links} | {fewest} |", subject.name);
}

fn play(chart: &Chart, subject: &Subject, is_joining: bool) -> Looked {
    let mut looked = Looked::default();
    let mut rows = vec![domain::initial(chart)];
    let mut waiting = VecDeque::from([0]);
    let mut left = subject.budget;
    while let (true, Some(taken)) = (left > 0, waiting.pop_front()) {
        left -= 1;
        let source: Vec<i32> = rows[taken].clone();
        for edge in chart.edges.iter().filter(|edge| edge.from.0 as i32 == source[0]) {
            let mut successor = vec![0; source.len()];
            match domain::transfer(chart, edge, &source, &mut successor) {
                Move::Blocked => continue,
                Move::Overrun => return looked,
                Move::Successor if chart.location(edge.to).is_error => return looked,
                Move::Successor => {}
            }
            if is_joining {
                looked.merge(&rows, &successor);
                for slot in 0..rows.len() {
                    let is_here = rows[slot][0] == successor[0];
                    if is_here
                        && domain::join_into(&mut rows[slot], &successor)
                        && !waiting.contains(&slot)
                    {
                        waiting.push_back(slot);
                    }
                }
            }
            looked.cover(&rows, &successor);
            if !rows.iter().any(|row| domain::leq(&successor, row)) {
                if rows.len() == subject.capacity {
                    return looked;
                }
                waiting.push_back(rows.len());
                rows.push(successor);
            }
        }
    }
    looked
}

impl Looked {
    fn merge(&mut self, rows: &[Vec<i32>], successor: &[i32]) {
        let values = successor.len() as u64 - 1;
        let here = rows.iter().filter(|row| row[0] == successor[0]).count() as u64;
        self.every_slot += rows.len() as u64 + here * values;
        self.by_links += here * (1 + values);
        self.fewest += here * values;
    }

    fn cover(&mut self, rows: &[Vec<i32>], successor: &[i32]) {
        let values = successor.len() as u64 - 1;
        let is_here = |slot: &usize| rows[*slot][0] == successor[0];
        let covering = (0..rows.len()).find(|&slot| domain::leq(successor, &rows[slot]));
        let end = covering.map_or(rows.len(), |slot| slot + 1);
        let here = (0..end).filter(is_here).count() as u64;
        self.every_slot += end as u64 + here * values;
        self.fewest += if covering.is_some() { values } else { here };

        let over = |slot: usize, place: usize| {
            let above = rows[slot][place];
            above != TOP && above != successor[place]
        };
        let mut next = (0..rows.len()).find(is_here);
        while let Some(slot) = next {
            let first = (1..successor.len()).find(|&place| over(slot, place));
            self.by_links += 1 + first.map_or(values, |place| place as u64);
            let Some(place) = first else {
                return;
            };
            // Past the slots after it that the same word tells apart, then along the links.
            let mut last = slot;
            while last + 1 < rows.len() {
                self.by_links += 1;
                if !is_here(&(last + 1)) {
                    break;
                }
                self.by_links += 1;
                if !over(last + 1, place) {
                    break;
                }
                last += 1;
            }
            next = (last + 1..rows.len()).find(is_here);
        }
    }
}
