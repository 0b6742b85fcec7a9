//! The reference walker: a reachability analyser for flow charts, written a
//! second time from documents 01 and 02 (requests 2.1, 2.2, 2.3, 2.6 and 2.9) alone, so that
//! the verified program can be compared with it.
//!
//! `program::respond` is the whole walk program, `calls` has the calls on lent
//! words, `random` makes charts, inputs and calls to compare on, and `explorer`
//! checks the answers against the concrete states of small charts; `worked` has
//! the cases and examples that stand in files, and `coverage` tells whether a test
//! has met everything.

pub mod analysis;
pub mod begins;
pub mod calls;
pub mod chart;
pub mod concrete;
pub mod corner;
pub mod coverage;
pub mod domain;
pub mod encoding;
pub mod explorer;
pub mod form;
pub mod listing;
pub mod memory;
pub mod paths;
pub mod program;
pub mod random;
pub mod reader;
pub mod refusal;
pub mod renderer;
pub mod search;
pub mod searches;
pub mod text;
pub mod way;
pub mod worked;
