//! Analyses under way, for the cases to go on from.

use reference::calls::Answer;
use reference::chart::Chart;
use reference::domain::TOP;
use reference::memory::Memory;

use crate::common::{chart, settings, CASE_A};

pub const DONE: Answer = Answer::DONE;

/// The origin's words in slot 0.
pub const START: [i32; 2] = [65_535, 0];

/// More listing space than any of these cases takes.
pub const SPACE: usize = 10_000;

pub fn refused(number: u32) -> Answer {
    Answer::refused(number, 0)
}

/// An analysis begun with no budget, in buffers with a few words to spare.
pub fn begun(chart: &Chart, words: &str, capacity: i32) -> Memory {
    let room = capacity as usize;
    let mut memory = Memory::new(chart, room * chart.slot_width() + 5, room + 3);
    assert_eq!(memory.begin(settings(words), capacity, 0), DONE);
    memory
}

/// Of each slot in use its location and values, without its origin.
pub fn states(memory: &Memory) -> Vec<&[i32]> {
    let width = memory.slot_width();
    let slots = memory.table.chunks_exact(width).take(memory.record.used as usize);
    slots.map(|words| &words[..width - START.len()]).collect()
}

/// Of each slot in use the slot and the edge that brought it.
pub fn origins(memory: &Memory) -> Vec<&[i32]> {
    let width = memory.slot_width();
    let slots = memory.table.chunks_exact(width).take(memory.record.used as usize);
    slots.map(|words| &words[width - START.len()..]).collect()
}

/// The words of the waitlist within the capacity.
pub fn list(memory: &Memory) -> &[i32] {
    &memory.waitlist[..memory.record.capacity as usize]
}

/// Case A after three iterations: five slots in use, of which 3 and 4 wait.
pub fn case_a_underway() -> Memory {
    let mut memory = begun(&chart(CASE_A), "sep sep old", 8);
    assert_eq!(memory.run(3), DONE);
    #[rustfmt::skip]
    assert_eq!(
        memory.table[..48],
        [
            0, 0, 0, TOP, 65_535, 0,
            1, 0, 0, 1, 0, 1,
            2, 0, 0, TOP, 0, 2,
            3, 1, 0, 1, 1, 3,
            3, 0, 1, TOP, 2, 4,
            0, 0, 0, 0, 0, 0,
            0, 0, 0, 0, 0, 0,
            0, 0, 0, 0, 0, 0,
        ]
    );
    assert_eq!(list(&memory), [3, 4, 0, 0, 0, 0, 0, 0]);
    memory
}

pub fn listing_answer(memory: &Memory) -> Answer {
    memory.listing(SPACE).0
}
