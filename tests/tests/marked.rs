//! Document 01's marked and worked cases, and what requests 2.1, 2.6 and 2.9 make of them, on the
//! modules and the calls themselves.

mod common;

use common::{chart, settings, CASE_A};
use reference::analysis::{Analysis, Verdict};
use reference::chart::Chart;
use reference::domain::{covers, join_into, leq, transfer, Move, TOP};
use reference::listing::listing;

const MEET: i32 = 3;

/// A finished analysis.
fn walk(chart: &Chart, words: &str, capacity: usize) -> Analysis {
    Analysis::begin(chart, settings(words), capacity, 100)
}

fn waiting(analysis: &Analysis) -> Vec<usize> {
    analysis.waitlist.slots().map(|slot| slot.0).collect()
}

/// The values after the one edge of a chart, from given values; or what comes instead.
fn step(lines: &str, values: &[i32]) -> Result<Vec<i32>, Move> {
    let chart = chart(lines);
    let source: Vec<i32> = [&[0], values].concat();
    let mut successor = vec![0; source.len()];
    match transfer(&chart, &chart.edges[0], &source, &mut successor) {
        Move::Successor => Ok(successor[1..].to_vec()),
        other => Err(other),
    }
}

#[test]
fn case_a_is_safe_with_sep() {
    let chart = chart(CASE_A);
    let analysis = walk(&chart, "sep sep old", 16);
    let expected = "\
        walk\tsep\tsep\told\tsafe\t7\t7\t0\n\
        0\ttop\t0\t0\t*\t-\n\
        1\tleft\t0\t0\t1\t-\n\
        2\tright\t0\t0\t*\t-\n\
        3\tmeet\t1\t0\t1\t-\n\
        4\tmeet\t0\t1\t*\t-\n\
        5\tsum\t1\t0\t1\t-\n\
        6\tsum\t0\t1\t1\t-\n";
    assert_eq!(String::from_utf8(listing(&chart, &analysis)).unwrap(), expected);
}

#[test]
fn case_a_alarms_with_join() {
    let chart = chart(CASE_A);
    for words in ["join sep old", "join join old"] {
        let analysis = walk(&chart, words, 16);
        assert_eq!(analysis.verdict, Verdict::Alarm);
        assert_eq!(analysis.iterations, 5);
        assert_eq!(analysis.reached.len(), 5);
        assert_eq!(analysis.edge.map(|edge| edge.0), Some(6));
        assert_eq!(waiting(&analysis), [4]);
    }
}

#[test]
fn case_a_fills_six_slots_but_not_seven() {
    let chart = chart(CASE_A);
    let full = walk(&chart, "sep sep old", 6);
    assert_eq!((full.verdict, full.iterations, full.reached.len()), (Verdict::Full, 5, 6));
    assert_eq!(waiting(&full), [4, 5]);
    assert_eq!(walk(&chart, "sep sep old", 7).verdict, Verdict::Safe);
}

#[test]
fn case_a_is_safe_with_the_newest_first() {
    let chart = chart(CASE_A);
    let analysis = walk(&chart, "sep sep new", 16);
    assert_eq!((analysis.verdict, analysis.iterations), (Verdict::Safe, 7));
    assert_eq!(analysis.reached.rows().nth(3), Some(&[MEET, 0, 1, TOP][..]));
}

#[test]
fn one_location_is_safe_after_one_iteration() {
    let analysis = walk(&chart("L only o"), "sep sep old", 1);
    assert_eq!((analysis.verdict, analysis.iterations), (Verdict::Safe, 1));
}

#[test]
fn an_error_location_at_the_start_alarms_at_once() {
    let chart = chart("L only e");
    for budget in [0, 1, 60_000] {
        let analysis = Analysis::begin(&chart, settings("sep sep old"), 1, budget);
        assert_eq!((analysis.verdict, analysis.iterations), (Verdict::Alarm, 0));
        assert_eq!((analysis.reached.len(), analysis.edge), (1, None));
        assert_eq!(waiting(&analysis), [0]);
        let expected = b"walk\tsep\tsep\told\talarm\t0\t1\t0\n0\tonly\tw\n";
        assert_eq!(listing(&chart, &analysis), expected);
    }
}

#[test]
fn joins() {
    let mut row = [MEET, 1, 0, 1];
    assert!(join_into(&mut row, &[MEET, 0, 1, TOP]));
    assert_eq!(row, [MEET, TOP, TOP, TOP]);
    assert!(!join_into(&mut row, &[MEET, 0, 0, 0]), "it is at the top already");
    let mut row = [MEET, 1, 0, 1];
    assert!(!join_into(&mut row, &[MEET, 1, 0, 1]), "equal values stay");
}

#[test]
fn what_lies_under_what() {
    assert!(leq(&[MEET, 1, 0, 1], &[MEET, 1, TOP, 1]));
    assert!(!leq(&[MEET, 1, TOP, 1], &[MEET, 1, 0, 1]));
    assert!(leq(&[MEET, 1, TOP, 1], &[MEET, 1, TOP, 1]));
    assert!(!leq(&[MEET, 1, 0, 1], &[MEET + 1, 1, 0, 1]), "the location counts");
    assert!(covers(&[MEET, 1, TOP, 1], &[MEET, 1, 7, 1]));
    assert!(!covers(&[MEET, 1, TOP, 1], &[MEET, 0, 7, 1]));
    assert!(!covers(&[MEET, 1, TOP, 1], &[MEET - 1, 1, 7, 1]));
}

#[test]
fn conditions_on_an_unspecific_variable() {
    let with =
        |condition: &str| step(&format!("V y 0 9 *\nL a o\nE 0 0 if $0 {condition}"), &[TOP]);
    assert_eq!(with("eq 1"), Ok(vec![1]));
    assert_eq!(with("eq 12"), Err(Move::Blocked));
    assert_eq!(with("ne 1"), Ok(vec![TOP]));
    // And by 2.6, which counts for every relation.
    assert_eq!(with("gt 8"), Ok(vec![9]));
    assert_eq!(with("gt 9"), Err(Move::Blocked));
    assert_eq!(with("gt 7"), Ok(vec![TOP]));
    assert_eq!(with("lt 1"), Ok(vec![0]));
    assert_eq!(with("lt 0"), Err(Move::Blocked));
    assert_eq!(with("ge 9"), Ok(vec![9]));
    assert_eq!(with("le 0"), Ok(vec![0]));
}

/// The relation is read in the order of its sides, whichever of them is known.
#[test]
fn a_known_variable_on_the_left() {
    let with = |relation: &str, known: i32| {
        step_of_two(("-9 19", "0 9"), &format!("if $0 {relation} $1"), [known, TOP])
    };
    for (relation, none, one, value, more) in [
        ("eq", 10, 9, 9, None),
        ("lt", 9, 8, 9, Some(7)),
        ("le", 10, 9, 9, Some(8)),
        ("gt", 0, 1, 0, Some(2)),
        ("ge", -1, 0, 0, Some(1)),
    ] {
        assert_eq!(with(relation, none), Err(Move::Blocked), "{relation}");
        assert_eq!(with(relation, one), Ok(vec![one, value]), "{relation}");
        if let Some(more) = more {
            assert_eq!(with(relation, more), Ok(vec![more, TOP]), "{relation}");
        }
    }
    assert_eq!(with("ne", 9), Ok(vec![9, TOP]));
}

#[test]
fn unequal_on_short_ranges() {
    let with = |range: &str, number: i32| {
        step(&format!("V y {range} *\nL a o\nE 0 0 if $0 ne {number}"), &[TOP])
    };
    assert_eq!(with("5 5", 5), Err(Move::Blocked));
    assert_eq!(with("5 5", 4), Ok(vec![5]), "known, though the condition says nothing new");
    assert_eq!(with("4 5", 4), Ok(vec![5]));
    assert_eq!(with("4 5", 5), Ok(vec![4]));
    assert_eq!(with("4 5", 6), Ok(vec![TOP]));
    assert_eq!(with("4 6", 5), Ok(vec![TOP]), "4 and 6 are left");
}

#[test]
fn without_a_known_side_conditions_pass_unchanged() {
    for relation in ["eq", "ne", "lt", "le", "gt", "ge"] {
        for right in ["$0", "$1"] {
            let condition = format!("if $0 {relation} {right}");
            let passed = step_of_two(("5 5", "6 6"), &condition, [TOP, TOP]);
            assert_eq!(passed, Ok(vec![TOP, TOP]), "{condition}");
        }
    }
}

#[test]
fn known_results_out_of_range_overrun() {
    let set = |value: i32| step(&format!("V x 0 3 0\nL a o\nE 0 0 set $0 {value}"), &[0]);
    assert_eq!(set(3), Ok(vec![3]));
    assert_eq!(set(5), Err(Move::Overrun));
    let widest = "V x -32768 32767 0\nL a o\n";
    let with = |operation: &str, value: i32| step(&format!("{widest}E 0 0 {operation}"), &[value]);
    assert_eq!(with("sub $0 $0 1", -32_768), Err(Move::Overrun));
    assert_eq!(with("add $0 $0 1", 32_767), Err(Move::Overrun));
    assert_eq!(with("sub $0 -1 $0", -32_768), Ok(vec![32_767]));
    assert_eq!(with("add $0 $0 -32768", -32_768), Err(Move::Overrun));
    assert_eq!(with("sub $0 32767 $0", -32_768), Err(Move::Overrun));
}

/// From values of a variable `x` and a variable `y` of the given ranges.
fn step_of_two((x, y): (&str, &str), operation: &str, values: [i32; 2]) -> Result<Vec<i32>, Move> {
    step(&format!("V x {x} *\nV y {y} *\nL a o\nE 0 0 {operation}"), &values)
}

#[test]
fn an_unknown_operand_is_anything_in_its_range() {
    let overrun = Err(Move::Overrun);
    // Within the target's range all of it makes the target unspecific, one value past an end overruns.
    for (y, expected) in [
        ("0 3", Ok(vec![TOP, TOP])),
        ("1 2", Ok(vec![TOP, TOP])),
        ("0 4", overrun.clone()),
        ("-1 3", overrun.clone()),
        ("-1 4", overrun.clone()),
        ("10 20", overrun.clone()),
    ] {
        assert_eq!(step_of_two(("0 3", y), "set $0 $1", [0, TOP]), expected, "{y}");
    }
    let apart = ("0 3", "10 20");
    assert_eq!(step_of_two(apart, "set $0 $1", [0, 10]), overrun);
    for (operation, x, values, expected) in [
        ("add $0 $1 2", "1 5", [1, TOP], Ok(vec![TOP, TOP])),
        ("add $0 2 $1", "2 5", [2, TOP], Ok(vec![TOP, TOP])),
        ("add $0 $1 2", "3 5", [3, TOP], overrun.clone()),
        ("add $0 $1 2", "2 4", [2, TOP], overrun.clone()),
        ("sub $0 $1 2", "-2 1", [0, TOP], Ok(vec![TOP, TOP])),
        ("sub $0 2 $1", "-1 2", [0, TOP], Ok(vec![TOP, TOP])),
        ("sub $0 2 $1", "0 2", [0, TOP], overrun.clone()),
        ("sub $0 2 $1", "-1 1", [0, TOP], overrun.clone()),
        // Known beside unknown, and each variable unknown beside itself.
        ("add $0 $0 $1", "0 9", [6, TOP], Ok(vec![TOP, TOP])),
        ("add $0 $0 $1", "0 9", [7, TOP], overrun.clone()),
        ("sub $0 $0 $1", "0 9", [3, TOP], Ok(vec![TOP, TOP])),
        ("sub $0 $0 $1", "0 9", [2, TOP], overrun.clone()),
        ("add $0 $1 $1", "0 6", [0, TOP], Ok(vec![TOP, TOP])),
        ("add $0 $1 $1", "0 5", [0, TOP], overrun.clone()),
        ("sub $0 $1 $1", "-3 3", [0, TOP], Ok(vec![TOP, TOP])),
        ("sub $0 $1 $1", "-2 3", [0, TOP], overrun.clone()),
        ("sub $0 $1 $1", "-3 2", [0, TOP], overrun.clone()),
        ("add $0 $0 1", "0 9", [TOP, 0], overrun.clone()),
        ("add $0 $0 0", "0 9", [TOP, 0], Ok(vec![TOP, 0])),
        // Other unknown variables do not count.
        ("add $0 $0 1", "0 9", [8, TOP], Ok(vec![9, TOP])),
        ("set $0 3", "0 9", [TOP, TOP], Ok(vec![3, TOP])),
    ] {
        assert_eq!(step_of_two((x, "0 3"), operation, values), expected, "{operation}, {x}");
    }
}

#[test]
fn an_unspecific_variable_less_itself_overruns_but_on_0() {
    let with = |range: &str, value: i32| {
        step(&format!("V x {range} *\nL a o\nE 0 0 sub $0 $0 $0"), &[value])
    };
    assert_eq!(with("0 0", TOP), Ok(vec![TOP]));
    for range in ["0 1", "-1 0", "0 3", "-5 5", "-32768 32767"] {
        assert_eq!(with(range, TOP), Err(Move::Overrun), "{range}");
    }
    assert_eq!(with("1 1", TOP), Err(Move::Overrun), "0 is not in the range");
    assert_eq!(with("0 3", 3), Ok(vec![0]));
}

/// It spans its one value, and still is not known.
#[test]
fn an_unspecific_variable_of_one_value() {
    let with = |x: &str, operation: &str| step_of_two((x, "3 3"), operation, [0, TOP]);
    assert_eq!(with("0 6", "add $0 $1 $1"), Ok(vec![TOP, TOP]));
    assert_eq!(with("0 5", "add $0 $1 $1"), Err(Move::Overrun));
    assert_eq!(with("0 3", "set $0 $1"), Ok(vec![TOP, TOP]));
    assert_eq!(with("0 2", "set $0 $1"), Err(Move::Overrun));
    assert_eq!(with("0 0", "sub $0 $1 $1"), Ok(vec![TOP, TOP]));
    assert_eq!(with("0 0", "sub $0 3 $1"), Ok(vec![TOP, TOP]));
}

/// Conditions and inputs never overrun, whatever they compare with.
#[test]
fn conditions_and_inputs_do_not_overrun() {
    for (operation, expected) in [
        ("if $0 eq 9", Err(Move::Blocked)),
        ("if $0 gt 32767", Err(Move::Blocked)),
        ("if $0 lt $1", Ok(vec![TOP, TOP])),
        ("in $0 0 3", Ok(vec![TOP, TOP])),
        ("in $0 3 3", Ok(vec![3, TOP])),
        ("skip", Ok(vec![TOP, TOP])),
    ] {
        assert_eq!(step_of_two(("0 3", "10 20"), operation, [TOP, TOP]), expected, "{operation}");
    }
}
