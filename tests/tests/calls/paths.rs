//! The path call on lent words.

use reference::analysis::{Order, Verdict};
use reference::memory::Memory;

use crate::common::{chart, settings, CASE_A};
use crate::support::{begun, case_a_underway, refused, DONE, SPACE};

/// Case A with join, at its alarm.
fn case_a_alarm() -> Memory {
    let mut memory = begun(&chart(CASE_A), "join sep old", 8);
    assert_eq!(memory.run(100), DONE);
    memory
}

fn path_of(memory: &Memory) -> String {
    let (answer, text) = memory.path(SPACE);
    assert_eq!(answer, DONE);
    String::from_utf8(text).expect("a path is text").replace('\t', " ")
}

#[test]
fn paths_take_just_their_length() {
    let memory = case_a_alarm();
    let expected = "\
        path join 6\n\
        0 0 top 0 0 * -\n\
        1 1 left 0 0 1 -\n\
        3 3 meet * * * -\n\
        5 4 sum * * * w\n";
    assert_eq!(path_of(&memory), expected);
    assert_eq!(memory.path(expected.len()).0, DONE);
    assert_eq!(memory.path(expected.len() - 1), (refused(15), Vec::new()));
    assert_eq!(memory.path(0), (refused(15), Vec::new()));
}

/// Every set of refusals that can apply at once.
#[test]
fn path_order() {
    const ORDER: [u32; 5] = [20, 14, 21, 24, 15];
    for set in 0..1 << ORDER.len() {
        let all = || ORDER.into_iter().enumerate().filter(|(place, _)| set >> place & 1 == 1);
        let applies = |number: u32| all().any(|(_, each)| each == number);
        let mut memory = case_a_alarm();
        if applies(20) {
            memory.chart[3] = 2;
        }
        if applies(14) {
            memory.table.truncate(47);
        }
        if applies(21) {
            memory.record.iterations = 60_001;
        }
        if applies(24) {
            memory.record.verdict = Verdict::Open;
            memory.record.edge = 0;
        }
        let expected = refused(all().next().map_or(0, |(_, number)| number));
        let space = if applies(15) { 10 } else { SPACE };
        assert_eq!(memory.path(space).0, expected, "set {set:05b}");
    }
}

#[test]
fn without_an_alarm_there_is_no_path() {
    let open = case_a_underway();
    let mut safe = open.clone();
    safe.run(100);
    let mut full = begun(&chart(CASE_A), "sep sep old", 6);
    full.run(100);
    let mut empty = Memory { record: safe.record, ..safe.clone() };
    empty.table.fill(0);
    empty.record.used = 0;
    let verdicts = [&open, &safe, &full, &empty].map(|memory| memory.record.verdict);
    assert_eq!(verdicts, [Verdict::Open, Verdict::Safe, Verdict::Full, Verdict::Safe]);
    for memory in [open, safe, full, empty] {
        assert_eq!(memory.path(SPACE), (refused(24), Vec::new()), "{:?}", memory.record);
        assert_eq!(memory.path(0).0, refused(24), "{:?}", memory.record);
    }
}

/// The slot at the place taken next ends the path, in words in form that no begin leaves.
#[test]
fn the_slot_taken_next() {
    let chart = chart("L a o\nL b o\nL c o\nE 0 1 skip\nE 1 2 skip\nE 0 2 skip\nE 2 1 skip");
    let mut memory = begun(&chart, "sep sep old", 5);
    let slots = [[0, 65_535, 0], [1, 0, 1], [2, 0, 3], [1, 2, 4], [2, 3, 2]];
    memory.table[..15].copy_from_slice(&slots.concat());
    memory.waitlist[..3].copy_from_slice(&[1, 0, 4]);
    memory.record.used = 5;
    memory.record.waiting = 3;
    memory.record.verdict = Verdict::Alarm;
    memory.record.edge = 3;
    assert_eq!(path_of(&memory), "path sep 3\n0 0 a w\n1 1 b w\n");
    memory.record.settings.order = Order::New;
    assert_eq!(path_of(&memory), "path sep 3\n0 0 a w\n3 2 c -\n4 3 b -\n2 4 c w\n");
}

/// In each list of calls the path is that of the walk as the last call left it.
#[test]
fn paths_of_a_walk() {
    let mut memory = Memory::new(&chart(CASE_A), 60, 10);
    assert_eq!(memory.begin(settings("join sep new"), 8, 3), DONE);
    assert_eq!(memory.path(SPACE).0, refused(24));
    assert_eq!(memory.run(100), DONE);
    let newest =
        "path join 6\n0 0 top 0 0 * -\n2 2 right 0 0 * -\n4 3 meet * * * -\n5 4 sum * * * w\n";
    assert_eq!(path_of(&memory), newest);
    assert_eq!(memory.run(1), refused(22));
    assert_eq!(memory.begin(settings("sep join new"), 8, 3), refused(12));
    assert_eq!(path_of(&memory), newest, "refused calls have changed nothing");
    assert_eq!(memory.begin(settings("sep sep old"), 10, 100), DONE);
    assert_eq!(memory.path(SPACE).0, refused(24));
}
