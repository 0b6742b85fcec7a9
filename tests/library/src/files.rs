//! Files of known size and answer, for tests at the limits and for the benchmark.

use reference::chart::{MAX_EDGES, MAX_LOCATIONS, MAX_VARIABLES};
use reference::program::chart_part;
use reference::reader::MAX_FILE;
use reference::text::LINE_FEED;

/// The bytes of the largest file that can be accepted.
pub const LARGEST: usize = 9_088;

/// Document 01's case A.
pub fn case_a() -> &'static [u8] {
    chart_part(include_bytes!("../../cases/dagger-a-sep.in"))
}

/// As many lines as there may be, each as long as it may be.
pub fn largest() -> Vec<u8> {
    let mut file = String::new();
    for index in 0..MAX_VARIABLES {
        file += &format!("V\t{index:016}\t-32768\t-32768\t-32768\n");
    }
    for index in 0..MAX_LOCATIONS {
        file += &format!("L\t{index:016}\to\n");
    }
    for _ in 0..MAX_EDGES {
        file += "E\t63\t63\tadd\t$7\t-32768\t-32768\n";
    }
    file.into_bytes()
}

/// A chart for timing whole analyses: a ring of locations that is gone round so many times.
#[derive(Clone, Copy, Debug)]
pub struct Ring {
    pub variables: usize,
    /// Those that change, the last ones: from 1 to variables, and at most as many as locations.
    pub changing: usize,
    pub locations: usize,
    /// Edges from each location to the next, all with one successor.
    pub followed: usize,
    /// Edges from a location besides, which is not arrived at.
    pub idle: usize,
    pub laps: usize,
    /// Whether the last variable counts the laps; else it is set to the number of the last one.
    pub is_counted: bool,
}

/// Counted, for `sep`: a slot and an iteration for each location in each lap; each other variable that
/// changes takes over the value of the one after it, and the count overruns in the last iteration. Not
/// counted, for `join`, where a count would overrun as soon as it is unspecific: one slot for each location,
/// and a lap for each changing variable to become unspecific; the verdict is safe.
pub fn ring(ring: Ring) -> Vec<u8> {
    let Ring { variables, changing, locations, followed, idle, laps, is_counted } = ring;
    let last = variables - 1;
    let mut file = String::new();
    for index in 0..variables {
        file += &format!("V\tv{index}\t10000\t{}\t10000\n", 9_999 + laps);
    }
    for index in 0..locations + idle.min(1) {
        file += &format!("L\t{index:02}-on-the-way\to\n");
    }
    for from in 0..locations {
        let to = (from + 1) % locations;
        for edge in 0..followed {
            let operation = match locations - 1 - from {
                0 if is_counted => format!("add\t${last}\t${last}\t1"),
                0 => format!("set\t${last}\t{}", 9_999 + laps),
                turn if turn < changing => format!("set\t${}\t${}", last - turn, last - turn + 1),
                _ => idle_operation(from + edge, (from + edge) % variables),
            };
            file += &format!("E\t{from}\t{to}\t{operation}\n");
        }
    }
    for edge in 0..idle {
        let operation = idle_operation(edge, edge % variables);
        file += &format!("E\t{locations}\t0\t{operation}\n");
    }
    file.into_bytes()
}

/// One location with an edge for each value of a variable: after one iteration 255 slots wait.
pub fn fan() -> Vec<u8> {
    let mut file = String::from("V\tx\t0\t254\t0\nL\thub\to\nL\tleaf\to\n");
    for value in 0..MAX_EDGES - 1 {
        file += &format!("E\t0\t1\tset\t$0\t{value}\n");
    }
    file.into_bytes()
}

/// Of every sort, and none changes anything.
fn idle_operation(sort: usize, variable: usize) -> String {
    match sort % 6 {
        0 => format!("add\t${variable}\t${variable}\t0"),
        1 => format!("if\t${variable}\tge\t0"),
        2 => format!("set\t${variable}\t${variable}"),
        3 => format!("sub\t${variable}\t${variable}\t0"),
        4 => format!("if\t${variable}\teq\t${variable}"),
        _ => "skip".to_string(),
    }
}

/// The largest file with the last number drawn out to all the bytes that a file may have:
/// every line is read before it is refused.
pub fn drawn_out() -> Vec<u8> {
    drawn_out_to(MAX_FILE)
}

/// The same, to so many bytes.
pub fn drawn_out_to(bytes: usize) -> Vec<u8> {
    let mut file = largest();
    file.pop();
    file.resize(bytes - 1, b'8');
    file.push(LINE_FEED);
    file
}
