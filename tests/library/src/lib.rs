//! The verified library's calls, safe to call from Rust, beside the reference walker's under the same
//! signatures, and files and words to call them with.

pub mod files;
pub mod lent;
pub mod walker;

/// What a call answers: 0 and line 0 with the length of a text, or the refusal's number and line.
#[repr(C)]
#[derive(Clone, Copy, Debug, PartialEq, Eq)]
pub struct Reply {
    pub number: u32,
    pub line: usize,
    pub length: usize,
}

/// The codes of a begin: merge and stop 0 sep, 1 join; order 0 old, 1 new. Others name nothing.
#[derive(Clone, Copy, Debug, PartialEq, Eq)]
pub struct Settings {
    pub merge: u32,
    pub stop: u32,
    pub order: u32,
}

/// What goes with an analysis from call to call, beside the table and the waitlist: settings by
/// their codes, and a verdict of 0 open, 1 safe, 2 alarm, 3 room.
#[repr(C)]
#[derive(Clone, Copy, Debug, PartialEq, Eq)]
pub struct Record {
    pub merge: u32,
    pub stop: u32,
    pub order: u32,
    pub capacity: u32,
    pub iterations: u32,
    pub used: usize,
    pub waiting: usize,
    pub verdict: u32,
    /// The edge that raised the alarm, or 0.
    pub edge: usize,
}

/// The answer, and the record as the call leaves it.
#[repr(C)]
#[derive(Clone, Copy, Debug, PartialEq, Eq)]
pub struct Called {
    pub reply: Reply,
    pub record: Record,
}

/// The layout of the three in `include/tarknotter.h`, which `c/layout.h` holds in C to the same numbers.
const _: () = {
    use std::mem::{align_of, offset_of, size_of};
    assert!(size_of::<Reply>() == 24 && align_of::<Reply>() == 8);
    assert!(offset_of!(Reply, number) == 0);
    assert!(offset_of!(Reply, line) == 8);
    assert!(offset_of!(Reply, length) == 16);
    assert!(size_of::<Record>() == 56 && align_of::<Record>() == 8);
    assert!(offset_of!(Record, merge) == 0);
    assert!(offset_of!(Record, stop) == 4);
    assert!(offset_of!(Record, order) == 8);
    assert!(offset_of!(Record, capacity) == 12);
    assert!(offset_of!(Record, iterations) == 16);
    assert!(offset_of!(Record, used) == 24);
    assert!(offset_of!(Record, waiting) == 32);
    assert!(offset_of!(Record, verdict) == 40);
    assert!(offset_of!(Record, edge) == 48);
    assert!(size_of::<Called>() == 80 && align_of::<Called>() == 8);
    assert!(offset_of!(Called, reply) == 0);
    assert!(offset_of!(Called, record) == 24);
    assert!(size_of::<usize>() == 8 && size_of::<bool>() == 1 && align_of::<i32>() == 4);
};

impl Record {
    /// All 0, for the first begin.
    pub const NONE: Record = Record {
        merge: 0,
        stop: 0,
        order: 0,
        capacity: 0,
        iterations: 0,
        used: 0,
        waiting: 0,
        verdict: 0,
        edge: 0,
    };
}

pub type Read = fn(&[u8], &mut [i32]) -> Reply;
/// The two numbers are the capacity and the budget.
pub type Begin = fn(&[i32], Settings, i32, i32, Record, &mut [i32], &mut [i32]) -> Called;
pub type Run = fn(&[i32], i32, Record, &mut [i32], &mut [i32]) -> Called;
/// A listing or a path.
pub type Report = fn(&[i32], Record, &[i32], &[i32], &mut [u8]) -> Reply;
/// The number is the bound.
pub type Search = fn(&[i32], i32, &mut [u8]) -> Reply;

/// The calls of one of the two, to compare and to time them.
#[derive(Clone, Copy)]
pub struct Calls {
    pub read: Read,
    pub begin: Begin,
    pub run: Run,
    pub listing: Report,
    pub path: Report,
    pub search: Search,
}

pub const LIBRARY: Calls = Calls { read, begin, run, listing, path, search };

/// A slice passes as its pointer and its length.
mod linked {
    use super::{Called, Record, Reply};

    extern "C" {
        pub fn tarknotter_read(
            text: *const u8,
            text_length: usize,
            words: *mut i32,
            words_length: usize,
        ) -> Reply;
        pub fn tarknotter_well_formed(words: *const i32, length: usize) -> bool;
        pub fn tarknotter_begin(
            chart: *const i32,
            chart_length: usize,
            merge: u32,
            stop: u32,
            order: u32,
            capacity: i32,
            budget: i32,
            record: Record,
            table: *mut i32,
            table_length: usize,
            list: *mut i32,
            list_length: usize,
        ) -> Called;
        pub fn tarknotter_run(
            chart: *const i32,
            chart_length: usize,
            budget: i32,
            record: Record,
            table: *mut i32,
            table_length: usize,
            list: *mut i32,
            list_length: usize,
        ) -> Called;
        pub fn tarknotter_listing(
            chart: *const i32,
            chart_length: usize,
            record: Record,
            table: *const i32,
            table_length: usize,
            list: *const i32,
            list_length: usize,
            space: *mut u8,
            space_length: usize,
        ) -> Reply;
        pub fn tarknotter_path(
            chart: *const i32,
            chart_length: usize,
            record: Record,
            table: *const i32,
            table_length: usize,
            list: *const i32,
            list_length: usize,
            space: *mut u8,
            space_length: usize,
        ) -> Reply;
        pub fn tarknotter_search(
            chart: *const i32,
            chart_length: usize,
            k: i32,
            space: *mut u8,
            space_length: usize,
        ) -> Reply;
    }
}

/// A chart file's bytes into the words of the encoded chart.
pub fn read(text: &[u8], words: &mut [i32]) -> Reply {
    // SAFETY: each pointer and length are those of one slice, and the two slices do not overlap.
    unsafe { linked::tarknotter_read(text.as_ptr(), text.len(), words.as_mut_ptr(), words.len()) }
}

/// Whether the words begin with the encoding of a chart that reading can produce.
pub fn well_formed(words: &[i32]) -> bool {
    // SAFETY: the pointer and the length are those of one slice.
    unsafe { linked::tarknotter_well_formed(words.as_ptr(), words.len()) }
}

/// Begins an analysis anew and iterates until a verdict or the end of the budget.
pub fn begin(
    chart: &[i32],
    settings: Settings,
    capacity: i32,
    budget: i32,
    record: Record,
    table: &mut [i32],
    list: &mut [i32],
) -> Called {
    // SAFETY: each pointer and length are those of one slice, and no two slices overlap.
    unsafe {
        linked::tarknotter_begin(
            chart.as_ptr(),
            chart.len(),
            settings.merge,
            settings.stop,
            settings.order,
            capacity,
            budget,
            record,
            table.as_mut_ptr(),
            table.len(),
            list.as_mut_ptr(),
            list.len(),
        )
    }
}

/// Iterates until a verdict or the end of the budget.
pub fn run(
    chart: &[i32],
    budget: i32,
    record: Record,
    table: &mut [i32],
    list: &mut [i32],
) -> Called {
    // SAFETY: each pointer and length are those of one slice, and no two slices overlap.
    unsafe {
        linked::tarknotter_run(
            chart.as_ptr(),
            chart.len(),
            budget,
            record,
            table.as_mut_ptr(),
            table.len(),
            list.as_mut_ptr(),
            list.len(),
        )
    }
}

/// Writes the listing to the beginning of `space`.
pub fn listing(
    chart: &[i32],
    record: Record,
    table: &[i32],
    list: &[i32],
    space: &mut [u8],
) -> Reply {
    // SAFETY: each pointer and length are those of one slice, and the space overlaps none of them.
    unsafe {
        linked::tarknotter_listing(
            chart.as_ptr(),
            chart.len(),
            record,
            table.as_ptr(),
            table.len(),
            list.as_ptr(),
            list.len(),
            space.as_mut_ptr(),
            space.len(),
        )
    }
}

/// Writes the path to the alarm to the beginning of `space`.
pub fn path(chart: &[i32], record: Record, table: &[i32], list: &[i32], space: &mut [u8]) -> Reply {
    // SAFETY: each pointer and length are those of one slice, and the space overlaps none of them.
    unsafe {
        linked::tarknotter_path(
            chart.as_ptr(),
            chart.len(),
            record,
            table.as_ptr(),
            table.len(),
            list.as_ptr(),
            list.len(),
            space.as_mut_ptr(),
            space.len(),
        )
    }
}

/// Writes the shortest run into an error location or an overrun, of at most `bound` moves, to the beginning of
/// `space`, or that there is none.
pub fn search(chart: &[i32], bound: i32, space: &mut [u8]) -> Reply {
    // SAFETY: each pointer and length are those of one slice, and the two slices do not overlap.
    unsafe {
        linked::tarknotter_search(
            chart.as_ptr(),
            chart.len(),
            bound,
            space.as_mut_ptr(),
            space.len(),
        )
    }
}
