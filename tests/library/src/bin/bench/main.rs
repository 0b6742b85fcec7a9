//! How long the calls take, the library's and the reference walker's side by side.
//!
//! `bench` times both, `bench searches` the searches alone; `bench counts` has valgrind count their
//! instructions instead, which is the same in every run, however busy the machine is; `bench words` counts the
//! words of the table that are looked at; `bench once CHART CALL WHOSE` makes one call, to be profiled.

mod counts;
mod subjects;
mod times;
mod words;

fn main() {
    let words: Vec<String> = std::env::args().skip(1).collect();
    match words.iter().map(String::as_str).collect::<Vec<_>>()[..] {
        [] => times::print(),
        ["searches"] => times::print_searches(),
        ["counts"] => counts::print(),
        ["words"] => words::print(),
        ["once", chart, call, whose] => counts::once(chart, call, whose),
        _ => panic!("bench, bench searches, bench counts, bench words, or bench once CHART CALL library|walker"),
    }
}
