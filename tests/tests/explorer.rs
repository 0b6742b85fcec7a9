//! The concrete states and overruns of small charts, and what is found wrong in an analysis of them.

mod common;

use common::{chart, settings, CASE_A};
use reference::analysis::{Analysis, Verdict, Waitlist};
use reference::chart::{Chart, EdgeId};
use reference::explorer::{Explorer, Violation};

fn explorer(chart: &Chart) -> Explorer<'_> {
    Explorer::new(chart, 1_000).expect("it has few states")
}

/// As an analysis would be that had followed every slot and met no overrun.
fn followed(chart: &Chart, verdict: Verdict) -> Analysis {
    let mut analysis = Analysis::begin(chart, settings("sep sep old"), 16, 100);
    analysis.verdict = verdict;
    analysis.waitlist = Waitlist::new(16);
    analysis
}

#[test]
fn a_move_that_overruns_has_no_state_after_it() {
    let chart = chart("V x 0 1 0\nL a o\nE 0 0 if $0 gt 1\nE 0 0 add $0 $0 1");
    let explorer = explorer(&chart);
    assert_eq!(explorer.reachable(), [[0, 0], [0, 1]]);
    assert!(explorer.overruns() && !explorer.reaches_error());

    let overrun = (vec![0, 1], EdgeId(2));
    let safe = followed(&chart, Verdict::Safe);
    let found = explorer.check(&safe);
    assert_eq!(found, Err(Violation::OverrunReachable(overrun.0.clone(), overrun.1)));
    let open = followed(&chart, Verdict::Open);
    assert_eq!(explorer.check(&open), Err(Violation::OverrunNotAwaited(overrun.0, overrun.1)));
    // The slot from which it overruns waits, and all before it are covered.
    let alarm = Analysis::begin(&chart, settings("sep sep old"), 16, 100);
    assert_eq!((alarm.verdict, explorer.check(&alarm)), (Verdict::Alarm, Ok(())));
}

#[test]
fn no_run_of_case_a_goes_wrong() {
    let chart = chart(CASE_A);
    let explorer = explorer(&chart);
    assert!(!explorer.overruns() && !explorer.reaches_error());
    assert_eq!(explorer.check(&followed(&chart, Verdict::Safe)), Ok(()));
}

/// Of each value of an unknown variable one run, and of each operation its exact result.
#[test]
fn some_value_overruns_or_none_does() {
    for (operation, overruns) in [
        ("set $0 3", false),
        ("set $0 4", true),
        ("set $0 -1", true),
        ("set $0 $1", true),
        ("add $0 $1 -2", false),
        ("add $0 $1 -3", true),
        ("add $0 $1 -1", true),
        ("sub $0 $1 $1", false),
        ("sub $0 5 $1", false),
        ("sub $0 6 $1", true),
        ("sub $0 4 $1", true),
        ("in $0 0 3", false),
        ("if $1 gt 9", false),
        ("skip", false),
    ] {
        let lines = format!("V x 0 3 0\nV y 2 5 *\nL a o\nL b o\nE 0 1 {operation}");
        let chart = chart(&lines);
        assert_eq!(explorer(&chart).overruns(), overruns, "{operation}");
    }
}

/// The condition keeps every run from overrunning, but leaves three values, of which the analysis knows none.
#[test]
fn an_overrun_of_no_run() {
    let chart = chart("V x 0 3 *\nL a o\nL b o\nE 0 1 if $0 lt 3\nE 1 0 add $0 $0 1");
    let explorer = explorer(&chart);
    assert!(!explorer.overruns());
    let analysis = Analysis::begin(&chart, settings("sep sep old"), 16, 100);
    assert_eq!((analysis.verdict, analysis.edge), (Verdict::Alarm, Some(EdgeId(2))));
    assert_eq!(explorer.check(&analysis), Ok(()));
}
