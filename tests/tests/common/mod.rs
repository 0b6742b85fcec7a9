//! Short ways to write charts and settings in tests.

use reference::analysis::{Merge, Order, Settings, Stop};
use reference::chart::Chart;
use reference::reader;

/// Document 01's case A.
pub const CASE_A: &str = "
    V x 0 1 0
    V z 0 1 0
    V y 0 9 *
    L top o
    L left o
    L right o
    L meet o
    L sum o
    L bad e
    E 0 1 if $2 eq 1
    E 0 2 if $2 ne 1
    E 1 3 set $0 1
    E 2 3 set $1 1
    E 3 4 add $2 $0 $1
    E 4 5 if $2 eq 0
";

/// The chart that `lines` reads to, written with blanks for tabs.
pub fn chart(lines: &str) -> Chart {
    let file: String =
        lines.trim().lines().map(|line| line.trim().replace(' ', "\t") + "\n").collect();
    reader::read(file.as_bytes()).expect("the chart is accepted")
}

/// Merge, stop and order as in a go line.
pub fn settings(words: &str) -> Settings {
    let words: Vec<&str> = words.split(' ').collect();
    Settings {
        merge: if words[0] == "sep" { Merge::Sep } else { Merge::Join },
        stop: if words[1] == "sep" { Stop::Sep } else { Stop::Join },
        order: if words[2] == "old" { Order::Old } else { Order::New },
    }
}
