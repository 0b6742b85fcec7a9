//! Lists of calls on one chart.

use reference::analysis::{Settings, Verdict};
use reference::calls::Record;
use reference::domain::TOP;
use reference::memory::{Memory, JUNK};

use crate::common::{chart, settings, CASE_A};
use crate::support::{list, listing_answer, origins, refused, states, DONE, SPACE, START};

/// An alarm at once, for any budget, where a run would be refused by 22.
#[test]
fn a_begin_at_an_error_location_goes_through() {
    let chart = chart("V x 0 9 4\nL only e\nL next o\nE 0 0 add $0 $0 1\nE 0 1 skip");
    let settings = settings("join join new");
    for budget in [0, 1, 5, 60_000] {
        let mut memory = Memory::new(&chart, 13, 4);
        assert_eq!(memory.begin(settings, 3, budget), DONE);
        assert_eq!(memory.table, [0, 4, 65_535, 0, 0, 0, 0, 0, 0, 0, 0, 0, JUNK]);
        assert_eq!(memory.waitlist, [0, 0, 0, JUNK]);
        let expected = Record { verdict: Verdict::Alarm, ..plain(settings, 3) };
        assert_eq!(memory.record, expected);
        assert_eq!(memory.run(budget), refused(22));
        let (answer, text) = memory.listing(SPACE);
        assert_eq!(
            (answer, &text[..]),
            (DONE, &b"walk\tjoin\tjoin\tnew\talarm\t0\t1\t0\n0\tonly\t4\tw\n"[..])
        );
    }
}

/// Case A by a begin with each budget, and by one with none and a run after it.
#[test]
fn a_begin_is_a_plain_one_and_a_run() {
    let chart = chart(CASE_A);
    let settings = settings("sep sep old");
    for (budget, used) in (0..).zip([1, 3, 4, 5, 6, 7, 7, 7, 7]) {
        let mut at_once = Memory::new(&chart, 49, 9);
        let mut in_turn = at_once.clone();
        assert_eq!(at_once.begin(settings, 8, budget), DONE);
        assert_eq!(in_turn.begin(settings, 8, 0), DONE);
        assert_eq!(in_turn.record, plain(settings, 8), "no iteration is played");
        assert_eq!(in_turn.table[..48], [&[0, 0, 0, TOP, 65_535, 0][..], &[0; 42]].concat());
        assert_eq!(list(&in_turn), [0; 8]);
        assert_eq!(in_turn.run(budget), DONE);
        assert!(at_once == in_turn, "budget {budget}");
        let verdict = if budget < 7 { Verdict::Open } else { Verdict::Safe };
        assert_eq!(whole(&at_once), (verdict, budget.min(7) as u32, used));
    }
}

/// Of an analysis that has only been started.
fn plain(settings: Settings, capacity: u32) -> Record {
    let (verdict, edge) = (Verdict::Open, 0);
    Record { settings, capacity, iterations: 0, used: 1, waiting: 1, verdict, edge }
}

fn whole(memory: &Memory) -> (Verdict, u32, u32) {
    (memory.record.verdict, memory.record.iterations, memory.record.used)
}

#[test]
fn whole_walks() {
    let chart = chart(CASE_A);
    let (sep_old, join_new) = (settings("sep sep old"), settings("join join new"));
    let mut memory = Memory::new(&chart, 60, 10);

    assert_eq!(memory.begin(sep_old, 7, 1), DONE);
    assert_eq!(whole(&memory), (Verdict::Open, 1, 3));
    assert_eq!(memory.run(1), DONE);
    assert_eq!(whole(&memory), (Verdict::Open, 2, 4));
    assert_eq!(memory.run(-1), refused(13));
    assert_eq!(memory.begin(sep_old, 257, 1), refused(11));
    assert_eq!(memory.begin(sep_old, 7, -1), refused(13));
    assert_eq!(memory.begin(sep_old, 11, 1), refused(14));
    assert_eq!(memory.run(0), DONE);
    assert_eq!(whole(&memory), (Verdict::Open, 2, 4), "nothing of these has changed the walk");
    assert_eq!(memory.run(60_000), DONE);
    assert_eq!(whole(&memory), (Verdict::Safe, 7, 7));
    assert_eq!(list(&memory), [0; 7], "the words that the takes freed are 0");
    assert_eq!(memory.run(60_000), refused(22));
    assert_eq!(listing_answer(&memory), DONE);

    // Anew with less capacity: the old walk's words past it stay.
    let old = memory.clone();
    assert_eq!(memory.begin(join_new, 4, 0), DONE);
    assert_eq!(whole(&memory), (Verdict::Open, 0, 1));
    assert_eq!(memory.table[..24], [&[0, 0, 0, TOP, 65_535, 0][..], &[0; 18]].concat());
    assert_eq!(memory.table[24..], old.table[24..]);
    assert_eq!(memory.run(60_000), DONE);
    assert_eq!(whole(&memory), (Verdict::Full, 3, 4));
    assert_eq!(list(&memory), [1, 3, 0, 0]);
    assert_eq!(states(&memory), [[0, 0, 0, TOP], [1, 0, 0, 1], [2, 0, 0, TOP], [3, 0, 1, TOP]]);
    assert_eq!(origins(&memory), [START, [0, 1], [0, 2], [2, 4]]);

    // Anew with more: what stood there counts for nothing.
    assert_eq!(memory.begin(join_new, 10, 0), DONE);
    assert_eq!(memory.table[6..], [0; 54]);
    assert_eq!(memory.run(60_000), DONE);
    assert_eq!(memory.record.verdict, Verdict::Alarm);
    assert_eq!(memory.record.edge, 6);

    // And to the end at once, from an alarm.
    assert_eq!(memory.begin(sep_old, 7, 60_000), DONE);
    assert_eq!((whole(&memory), memory.record.edge), ((Verdict::Safe, 7, 7), 0));
    assert_eq!(memory.table[42..], [0; 18]);
    assert_eq!(memory.run(0), refused(22));
}
