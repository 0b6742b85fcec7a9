//! The calls on lent words: cases that a listing cannot show.

#[path = "../common/mod.rs"]
mod common;
mod form;
mod moves;
mod order;
mod paths;
mod reading;
mod searches;
mod support;
mod waitlist;
mod walks;
