//! Where slots stand on the waitlist, which no listing shows.

use reference::analysis::{Order, Verdict};
use reference::calls::Record;
use reference::domain::TOP;
use reference::memory::JUNK;

use crate::common::{chart, settings, CASE_A};
use crate::support::{begun, list, origins, refused, states, DONE, START};

#[test]
fn keeps_its_place() {
    let chart = chart(
        "V x 0 9 0
         L start o
         L left o
         L right o
         E 0 1 set $0 1
         E 0 2 set $0 1
         E 0 1 set $0 2",
    );
    for (order, left) in [("old", 2), ("new", 1)] {
        let mut memory = begun(&chart, &format!("join sep {order}"), 4);
        memory.run(1);
        // Edge 3 widened slot 1, which was waiting before slot 2 and still is.
        assert_eq!(states(&memory), [[0, 0], [1, TOP], [2, 1]]);
        assert_eq!(origins(&memory), [START, [0, 1], [0, 2]]);
        assert_eq!(list(&memory), [1, 2, 0, 0]);
        memory.run(1);
        assert_eq!(list(&memory), [left, 0, 0, 0]);
    }
}

#[test]
fn a_widened_slot_waits_again_at_the_end() {
    let chart = chart(
        "V x 0 9 0
         L start o
         L seen o
         L then o
         L last o
         E 0 1 set $0 1
         E 0 2 skip
         E 2 3 skip
         E 2 1 set $0 2",
    );
    let mut memory = begun(&chart, "join join old", 4);
    memory.run(2);
    assert_eq!(list(&memory), [2, 0, 0, 0]);
    memory.run(1);
    assert_eq!(list(&memory), [3, 1, 0, 0], "behind slot 3, which joined in the same iteration");
    assert_eq!(states(&memory), [[0, 0], [1, TOP], [2, 0], [3, 0]]);
    assert_eq!(origins(&memory), [START, [0, 1], [0, 2], [2, 3]]);
    memory.run(9);
    assert_eq!((memory.record.verdict, memory.record.iterations), (Verdict::Safe, 5));
}

#[test]
fn a_self_loop_returns_the_taken_slot_to_the_list() {
    // Widened, the slot overruns where it counts on, and nowhere else.
    for (operation, waiting, verdict, edge) in
        [("set $0 1", 0, Verdict::Safe, 0), ("add $0 $0 1", 1, Verdict::Alarm, 1)]
    {
        let chart = chart(&format!("V x 0 9 0\nL only o\nE 0 0 {operation}"));
        let mut memory = begun(&chart, "join sep new", 2);
        memory.run(1);
        assert_eq!(memory.table[..8], [0, TOP, 65_535, 0, 0, 0, 0, 0]);
        assert_eq!(list(&memory), [0, 0]);
        assert_eq!((memory.record.waiting, memory.record.verdict), (1, Verdict::Open));
        memory.run(1);
        assert_eq!((memory.record.waiting, memory.record.verdict), (waiting, verdict));
        assert_eq!((memory.record.used, memory.record.edge), (1, edge));
    }
}

#[test]
fn moved_to_the_place_taken_next() {
    let lines = |edges: &str| {
        chart(&format!("V x 0 9 0\nL start o\nL side o\nL bad e\nL other o\n{edges}"))
    };
    let loop_last = "E 0 1 skip\nE 0 0 add $0 $0 1\n";
    let loop_first = "E 0 0 add $0 $0 1\nE 0 1 skip\n";
    let (alarm, full) = ("E 0 2 skip", "E 0 3 skip");
    // From the copy, where x is 0: the least past its range, to a location without a slot.
    let overrun = "E 0 3 sub $0 $0 1";
    let joined = [[0, TOP], [1, 0]];
    let apart = [[0, 0], [1, 0], [0, 1]];
    for (edges, last, merge, capacity, slots, old, new) in [
        // Moved: the self-loop had put the slot back behind slot 1, or before it.
        (loop_last, alarm, "join", 8, &joined[..], &[0, 1][..], &[1, 0][..]),
        (loop_first, alarm, "join", 8, &joined, &[0, 1], &[1, 0]),
        (loop_last, full, "join", 2, &joined, &[0, 1], &[1, 0]),
        (loop_first, full, "join", 2, &joined, &[0, 1], &[1, 0]),
        (loop_last, overrun, "join", 8, &joined, &[0, 1], &[1, 0]),
        (loop_first, overrun, "join", 8, &joined, &[0, 1], &[1, 0]),
        // In a full table too: its capacity is not judged.
        (loop_last, overrun, "join", 2, &joined, &[0, 1], &[1, 0]),
        // Gone back: with sep the slot was not on the list.
        (loop_last, alarm, "sep", 8, &apart, &[0, 1, 2], &[1, 2, 0]),
        (loop_last, full, "sep", 3, &apart, &[0, 1, 2], &[1, 2, 0]),
        (loop_last, full, "sep", 2, &apart[..2], &[0, 1], &[1, 0]),
        (loop_last, overrun, "sep", 8, &apart, &[0, 1, 2], &[1, 2, 0]),
        (loop_last, overrun, "sep", 3, &apart, &[0, 1, 2], &[1, 2, 0]),
    ] {
        for (order, expected) in [("old", old), ("new", new)] {
            let chart = lines(&format!("{edges}{last}"));
            let mut memory = begun(&chart, &format!("{merge} sep {order}"), capacity);
            assert_eq!(memory.run(9), DONE);
            assert_eq!(states(&memory), slots);
            assert_eq!(list(&memory)[..expected.len()], *expected);
            let (verdict, edge) = match last == full {
                true => (Verdict::Full, 0),
                false => (Verdict::Alarm, 3),
            };
            let expected = Record {
                settings: memory.record.settings,
                capacity: capacity as u32,
                iterations: 1,
                used: slots.len() as u32,
                waiting: expected.len() as u32,
                verdict,
                edge,
            };
            assert_eq!(memory.record, expected);
        }
    }
}

/// An overrun leaves every slot as the edges before it did, also one that its successor would join;
/// edges after it are not followed.
#[test]
fn an_overrun_stores_and_merges_nothing() {
    let edges = "E 0 1 skip\nE 0 1 set $0 2\nE 0 2 set $0 1\nE 0 2 add $0 $1 7\nE 0 3 skip";
    let chart = chart(&format!("V x 0 9 0\nV y 0 3 *\nL a o\nL b o\nL c o\nL d o\n{edges}"));
    let joined = [[0, 0, TOP], [1, TOP, TOP], [2, 1, TOP]];
    let apart = [[0, 0, TOP], [1, 0, TOP], [1, 2, TOP], [2, 1, TOP]];
    for (merge, capacity, slots, edges) in [
        ("join", 8, &joined[..], &[1, 3][..]),
        ("join", 3, &joined, &[1, 3]),
        ("sep", 8, &apart, &[1, 2, 3]),
    ] {
        let used = slots.len() as i32;
        for order in ["old", "new"] {
            let mut memory = begun(&chart, &format!("{merge} sep {order}"), capacity);
            assert_eq!(memory.run(9), DONE);
            assert_eq!(states(&memory), slots);
            let brought: Vec<[i32; 2]> = edges.iter().map(|&edge| [0, edge]).collect();
            assert_eq!(origins(&memory), [&[START], &brought[..]].concat());
            let others = 1..used;
            let expected: Vec<i32> = match order {
                "old" => [0].into_iter().chain(others).collect(),
                _ => others.chain([0]).collect(),
            };
            assert_eq!(list(&memory)[..expected.len()], expected);
            let expected = Record {
                settings: memory.record.settings,
                capacity: capacity as u32,
                iterations: 1,
                used: used as u32,
                waiting: used as u32,
                verdict: Verdict::Alarm,
                edge: 4,
            };
            assert_eq!(memory.record, expected);
            assert_eq!(memory.run(9), refused(22));
        }
    }
}

/// With the one slot used, an edge without an overrun is out of room, one with an overrun is not.
#[test]
fn an_overrun_comes_before_the_capacity() {
    for (value, verdict, edge) in [(3, Verdict::Full, 0), (4, Verdict::Alarm, 1)] {
        let chart = chart(&format!("V x 0 3 0\nL a o\nL b o\nE 0 1 set $0 {value}"));
        let mut memory = begun(&chart, "sep sep old", 1);
        assert_eq!(memory.run(9), DONE);
        assert_eq!((memory.record.verdict, memory.record.edge), (verdict, edge));
        assert_eq!(memory.table[..4], [0, 0, 65_535, 0]);
        assert_eq!((memory.record.used, list(&memory)), (1, &[0][..]));
    }
}

/// A later edge is judged from the copy: of the taken slot as the self-loop left it `sub $0 $0 1` would overrun.
#[test]
fn an_overrun_is_judged_by_the_copy() {
    let chart = chart("V x 0 9 5\nL a o\nL b o\nE 0 0 set $0 6\nE 0 1 sub $0 $0 1");
    let mut memory = begun(&chart, "join join old", 4);
    assert_eq!(memory.run(1), DONE);
    assert_eq!(states(&memory), [[0, TOP], [1, 4]]);
    assert_eq!((memory.record.verdict, memory.record.waiting), (Verdict::Open, 2));
    assert_eq!(memory.run(1), DONE);
    assert_eq!((memory.record.verdict, memory.record.edge), (Verdict::Alarm, 2));
    assert_eq!(states(&memory), [[0, TOP], [1, 4]], "nothing is joined");
}

#[test]
fn a_room_6_list() {
    let mut memory = begun(&chart(CASE_A), "sep sep old", 6);
    assert_eq!(memory.run(100), DONE);
    #[rustfmt::skip]
    assert_eq!(
        memory.table,
        [
            0, 0, 0, TOP, 65_535, 0,
            1, 0, 0, 1, 0, 1,
            2, 0, 0, TOP, 0, 2,
            3, 1, 0, 1, 1, 3,
            3, 0, 1, TOP, 2, 4,
            4, 1, 0, 1, 3, 5,
            JUNK, JUNK, JUNK, JUNK, JUNK,
        ]
    );
    assert_eq!(memory.waitlist, [4, 5, 0, 0, 0, 0, JUNK, JUNK, JUNK]);
    let expected = Record {
        settings: settings("sep sep old"),
        capacity: 6,
        iterations: 5,
        used: 6,
        waiting: 2,
        verdict: Verdict::Full,
        edge: 0,
    };
    assert_eq!(memory.record, expected);
}

/// A waiting slot at an error location is followed as any other: only a
/// successor raises an alarm.
#[test]
fn a_taken_error_location_raises_no_alarm() {
    let chart = chart("L start o\nL bad e\nL end o\nE 1 2 skip");
    let mut memory = begun(&chart, "sep sep old", 3);
    memory.table[0] = 1;
    assert_eq!(memory.run(5), DONE);
    assert_eq!((memory.record.verdict, memory.record.iterations), (Verdict::Safe, 2));
    assert_eq!(memory.table[..9], [1, 65_535, 0, 2, 0, 1, 0, 0, 0]);
}

/// With several slots of a location, join widens each and lists them in slot order.
#[test]
fn merge_goes_through_all_slots_in_order() {
    let chart = chart("V x 0 9 0\nL start o\nL twin o\nE 0 1 set $0 2");
    for (words, expected) in [("join sep old", [2, 1, 3]), ("join join new", [2, 1, 3])] {
        let mut memory = begun(&chart, words, 5);
        let slots = [[0, 0, 65_535, 0], [1, 5, 0, 1], [1, 6, 0, 1], [1, 7, 0, 1], [1, 2, 0, 1]];
        memory.table[..20].copy_from_slice(&slots.concat());
        memory.waitlist[..5].copy_from_slice(match memory.record.settings.order {
            Order::Old => &[0, 2, 0, 0, 0],
            Order::New => &[2, 0, 0, 0, 0],
        });
        memory.record.used = 5;
        memory.record.waiting = 2;
        assert_eq!(memory.run(1), DONE);
        assert_eq!(states(&memory), [[0, 0], [1, TOP], [1, TOP], [1, TOP], [1, 2]]);
        assert_eq!(list(&memory)[..3], expected);
    }
}
