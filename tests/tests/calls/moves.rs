//! Abstract moves, seen in the words that a run writes.

use reference::analysis::Verdict;
use reference::calls::Record;
use reference::domain::TOP;

use crate::common::chart;
use crate::support::{begun, DONE};

/// No successor, and nothing else to follow.
const BLOCKED: Result<[i32; 2], Verdict> = Err(Verdict::Safe);
const OVERRUN: Result<[i32; 2], Verdict> = Err(Verdict::Alarm);

/// The values behind the one edge of a chart, from the given values at its start; or the verdict
/// without a successor.
fn step(lines: &str, values: [i32; 2]) -> Result<[i32; 2], Verdict> {
    let mut memory = begun(&chart(lines), "sep sep old", 2);
    memory.table[1..3].copy_from_slice(&values);
    assert_eq!(memory.run(1), DONE);
    let taken = [0, values[0], values[1], 65_535, 0];
    assert_eq!(memory.table[..5], taken, "the slot taken stays as it is");
    let Record { used, waiting, verdict, edge, .. } = memory.record;
    if used == 2 {
        assert_eq!((memory.table[5], waiting, verdict, edge), (1, 1, Verdict::Open, 0));
        assert_eq!(memory.table[8..10], [0, 1], "from slot 0 by edge 1");
        return Ok([memory.table[6], memory.table[7]]);
    }
    assert_eq!((used, memory.table[5..10].to_vec()), (1, vec![0; 5]));
    let is_alarm = u32::from(verdict == Verdict::Alarm);
    assert_eq!((waiting, edge), (is_alarm, is_alarm), "the slot waits again, for the one edge");
    Err(verdict)
}

#[test]
fn initial_entries() {
    let chart = chart(
        "V x 5 5 *
         V y 0 9 *
         V z -3 3 -3
         V w 5 5 5
         L a o
         L b o
         E 0 1 in $0 5 5
         E 0 1 in $3 5 5
         E 0 1 in $1 0 9",
    );
    let mut memory = begun(&chart, "sep sep old", 4);
    assert_eq!(memory.table[..7], [0, TOP, TOP, -3, 5, 65_535, 0]);
    assert_eq!(memory.run(9), DONE);
    #[rustfmt::skip]
    assert_eq!(
        memory.table[..28],
        [
            0, TOP, TOP, -3, 5, 65_535, 0,
            1, 5, TOP, -3, 5, 0, 1,
            // Not under the slot before: 5 is known there, and is not here. Edge 3 brings it again.
            1, TOP, TOP, -3, 5, 0, 2,
            0, 0, 0, 0, 0, 0, 0,
        ]
    );
    assert_eq!((memory.record.verdict, memory.record.used), (Verdict::Safe, 3));
}

#[test]
fn if_moves() {
    const RELATIONS: [&str; 6] = ["eq", "ne", "lt", "le", "gt", "ge"];
    let with = |relation: &str, right: &str, values: [i32; 2]| {
        let lines =
            format!("V a 0 9 *\nV b 5 20 *\nL from o\nL to o\nE 0 1 if $0 {relation} {right}");
        step(&lines, values)
    };
    // Both sides known decides; below, equal and above.
    for (values, passing) in
        [([6, 7], ["ne", "lt", "le"]), ([7, 7], ["eq", "le", "ge"]), ([8, 7], ["ne", "gt", "ge"])]
    {
        for relation in RELATIONS {
            let expected = passing.contains(&relation).then_some(values).ok_or(Verdict::Safe);
            assert_eq!(with(relation, "$1", values), expected, "{relation} {values:?}");
            let literal = values[1].to_string();
            assert_eq!(with(relation, &literal, values), expected, "{relation} {values:?}");
        }
    }
    // One side known: of the other's range no value is left, one, which becomes known, or more.
    for (relation, right, values, expected) in [
        ("eq", "-1", [TOP, TOP], BLOCKED),
        ("eq", "0", [TOP, TOP], Ok([0, TOP])),
        ("eq", "$1", [TOP, 9], Ok([9, 9])),
        ("eq", "$1", [TOP, 10], BLOCKED),
        ("eq", "$1", [4, TOP], BLOCKED),
        ("eq", "$1", [5, TOP], Ok([5, 5])),
        ("ne", "0", [TOP, TOP], Ok([TOP, TOP])),
        ("ne", "$1", [TOP, 9], Ok([TOP, 9])),
        ("ne", "$1", [5, TOP], Ok([5, TOP])),
        ("lt", "0", [TOP, TOP], BLOCKED),
        ("lt", "1", [TOP, TOP], Ok([0, TOP])),
        ("lt", "2", [TOP, TOP], Ok([TOP, TOP])),
        ("lt", "$1", [TOP, 9], Ok([TOP, 9])),
        ("lt", "$1", [4, TOP], Ok([4, TOP])),
        ("le", "-1", [TOP, TOP], BLOCKED),
        ("le", "0", [TOP, TOP], Ok([0, TOP])),
        ("le", "1", [TOP, TOP], Ok([TOP, TOP])),
        ("le", "$1", [5, TOP], Ok([5, TOP])),
        ("gt", "9", [TOP, TOP], BLOCKED),
        ("gt", "8", [TOP, TOP], Ok([9, TOP])),
        ("gt", "7", [TOP, TOP], Ok([TOP, TOP])),
        ("gt", "$1", [TOP, 9], BLOCKED),
        ("gt", "$1", [TOP, 8], Ok([9, 8])),
        ("gt", "$1", [5, TOP], BLOCKED),
        ("gt", "$1", [6, TOP], Ok([6, 5])),
        ("gt", "$1", [7, TOP], Ok([7, TOP])),
        ("ge", "10", [TOP, TOP], BLOCKED),
        ("ge", "9", [TOP, TOP], Ok([9, TOP])),
        ("ge", "8", [TOP, TOP], Ok([TOP, TOP])),
        ("ge", "$1", [4, TOP], BLOCKED),
        ("ge", "$1", [5, TOP], Ok([5, 5])),
        ("ge", "$1", [6, TOP], Ok([6, TOP])),
    ] {
        assert_eq!(with(relation, right, values), expected, "{relation} {right} on {values:?}");
    }
    // No side known passes unchanged.
    for relation in RELATIONS {
        assert_eq!(with(relation, "$1", [TOP, TOP]), Ok([TOP, TOP]));
    }
    // A variable against itself: known it decides, unspecific it passes.
    for relation in RELATIONS {
        let holds = ["eq", "le", "ge"].contains(&relation);
        assert_eq!(with(relation, "$0", [3, TOP]), holds.then_some([3, TOP]).ok_or(Verdict::Safe));
        assert_eq!(with(relation, "$0", [TOP, 9]), Ok([TOP, 9]));
    }
}

#[test]
fn set_add_and_sub_moves() {
    let with = |operation: &str, values: [i32; 2]| {
        step(&format!("V a 0 9 *\nV b 2 5 *\nL from o\nL to o\nE 0 1 {operation}"), values)
    };
    for (operation, values, expected) in [
        ("set $0 9", [TOP, TOP], Ok([9, TOP])),
        ("set $0 10", [TOP, TOP], OVERRUN),
        ("set $0 -1", [0, 2], OVERRUN),
        ("set $0 $1", [TOP, 3], Ok([3, 3])),
        ("set $0 $1", [0, TOP], Ok([TOP, TOP])),
        ("set $1 $0", [5, TOP], Ok([5, 5])),
        ("set $1 $0", [6, TOP], OVERRUN),
        ("set $1 $0", [TOP, 2], OVERRUN),
        ("add $0 $0 1", [8, TOP], Ok([9, TOP])),
        ("add $0 $0 1", [9, TOP], OVERRUN),
        ("add $0 $0 1", [TOP, 2], OVERRUN),
        ("add $0 $0 0", [TOP, 2], Ok([TOP, 2])),
        ("add $0 $1 4", [0, TOP], Ok([TOP, TOP])),
        ("add $0 5 $1", [0, TOP], OVERRUN),
        ("add $0 -2 $1", [0, TOP], Ok([TOP, TOP])),
        ("add $0 $1 -3", [0, TOP], OVERRUN),
        ("add $0 $0 $1", [4, TOP], Ok([TOP, TOP])),
        ("add $0 $0 $1", [5, TOP], OVERRUN),
        ("add $0 $1 $1", [0, 4], Ok([8, 4])),
        ("add $0 $1 $1", [0, TOP], OVERRUN),
        ("sub $0 $0 1", [1, TOP], Ok([0, TOP])),
        ("sub $0 $0 1", [0, TOP], OVERRUN),
        ("sub $0 $1 2", [0, TOP], Ok([TOP, TOP])),
        ("sub $0 $1 3", [0, TOP], OVERRUN),
        ("sub $0 5 $1", [0, TOP], Ok([TOP, TOP])),
        ("sub $0 4 $1", [0, TOP], OVERRUN),
        ("sub $0 11 $1", [0, TOP], Ok([TOP, TOP])),
        ("sub $0 12 $1", [0, TOP], OVERRUN),
        ("sub $0 $1 $1", [0, 4], Ok([0, 4])),
        // Never below 0 as runs have it, but the operands are taken independently.
        ("sub $0 $1 $1", [0, TOP], OVERRUN),
    ] {
        assert_eq!(with(operation, values), expected, "{operation} on {values:?}");
    }
}
