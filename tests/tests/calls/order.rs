//! The order in which each call judges its refusals, and the bounds it judges by.

use reference::analysis::Verdict;
use reference::memory::{Memory, JUNK};

use crate::common::{chart, settings, CASE_A};
use crate::support::{begun, case_a_underway, listing_answer, refused, DONE, SPACE};

#[test]
fn run_order() {
    let underway = case_a_underway();
    // Everything wrong at once, then put right one by one.
    let mut memory = underway.clone();
    memory.chart[0] = 9;
    memory.table.truncate(47);
    memory.record.verdict = Verdict::Alarm;
    memory.record.iterations = 60_001;
    for budget in [-1, 60_001, i32::MIN, i32::MAX] {
        assert_eq!(memory.run(budget), refused(13));
    }
    assert_eq!(memory.run(60_000), refused(20));
    assert_eq!(listing_answer(&memory), refused(20));
    memory.chart = underway.chart.clone();
    assert_eq!(memory.run(0), refused(14));
    assert_eq!(listing_answer(&memory), refused(14));
    memory.table = underway.table.clone();
    assert_eq!(memory.run(0), refused(21));
    assert_eq!(memory.listing(0).0, refused(21));
    memory.record.iterations = 60_000;
    assert_eq!(memory.run(0), refused(22));
    assert_eq!(memory.listing(0).0, refused(15));
    memory.record.verdict = Verdict::Open;
    assert_eq!(memory.run(0), refused(23));
    assert_eq!(memory.run(60_000), refused(23));
    assert_eq!(listing_answer(&memory), DONE);
    memory.record.iterations = 3;
    assert_eq!(memory.run(60_000), DONE);
    assert_eq!((memory.record.verdict, memory.record.iterations), (Verdict::Safe, 7));
    assert_eq!(memory.run(0), refused(22));
}

#[test]
fn too_few_words_by_the_capacity_as_it_stands() {
    let underway = case_a_underway();
    let mut memory = underway.clone();
    memory.table.truncate(48);
    memory.waitlist.truncate(8);
    assert_eq!(memory.clone().run(1), DONE, "just enough");
    memory.waitlist.truncate(7);
    assert_eq!(memory.run(1), refused(14));
    assert_eq!(listing_answer(&memory), refused(14));

    let mut memory = underway.clone();
    memory.record.capacity = 300;
    assert_eq!(memory.run(1), refused(14));
    memory.table.resize(1_800, 0);
    memory.waitlist.resize(300, 0);
    assert_eq!(memory.run(1), refused(21));

    // The table words that this takes do not fit 32 bits.
    let mut memory = underway.clone();
    for capacity in [0x2AAA_AAAB, 0x4000_0000, u32::MAX] {
        memory.record.capacity = capacity;
        assert_eq!(memory.run(1), refused(14));
        assert_eq!(listing_answer(&memory), refused(14));
    }

    let mut memory = underway;
    memory.record.capacity = 0;
    memory.table.clear();
    memory.waitlist.clear();
    assert_eq!(memory.run(1), refused(21), "0 is never too few");
}

/// Every set of refusals that can apply at once, over an analysis under way, which must stay as it is.
#[test]
fn begin_order() {
    const ORDER: [u32; 5] = [11, 12, 13, 20, 14];
    for set in 0..1 << ORDER.len() {
        let all = || ORDER.into_iter().enumerate().filter(|(place, _)| set >> place & 1 == 1);
        let applies = |number: u32| all().any(|(_, each)| each == number);
        let mut memory = case_a_underway();
        // As no begin leaves slot 0, so that one that has written it is seen.
        memory.table[..6].copy_from_slice(&[3, 1, 1, 5, 1, 1]);
        if applies(20) {
            memory.chart[3] = 2;
        }
        if applies(14) {
            memory.table.truncate(47);
        }
        let settings = settings(if applies(12) { "sep join old" } else { "sep sep old" });
        let capacities = if applies(11) { &[0, 257, -1, i32::MIN, i32::MAX][..] } else { &[8] };
        let budgets =
            if applies(13) { &[-1, 60_001, i32::MIN, i32::MAX][..] } else { &[0, 1, 60_000] };
        let expected = refused(all().next().map_or(0, |(_, number)| number));
        for &capacity in capacities {
            for &budget in budgets {
                let answer = memory.clone().begin(settings, capacity, budget);
                assert_eq!(answer, expected, "{settings:?}, {capacity}, {budget}, set {set:05b}");
            }
        }
    }
}

#[test]
fn begin_takes_just_its_words() {
    let chart = chart(CASE_A);
    let sound = settings("sep sep old");
    for budget in [0, 2, 60_000] {
        let mut memory = Memory::new(&chart, 47, 8);
        assert_eq!(memory.begin(sound, 8, budget), refused(14), "one table word is missing");
        assert_eq!(memory.begin(sound, 7, budget), DONE);
        memory.table.push(JUNK);
        assert_eq!(memory.begin(sound, 9, budget), refused(14));
        memory.waitlist.pop();
        assert_eq!(memory.begin(sound, 8, budget), refused(14), "one list word is missing");
        memory.waitlist.push(JUNK);
        assert_eq!(memory.begin(sound, 8, budget), DONE);
    }
}

#[test]
fn the_limit_of_iterations() {
    let mut memory = case_a_underway();
    memory.record.iterations = 59_998;
    assert_eq!(memory.run(100), DONE);
    assert_eq!((memory.record.iterations, memory.record.verdict), (60_000, Verdict::Open));
    assert_eq!(memory.record.used, 7, "two iterations were played");
    assert_eq!(memory.run(0), refused(23));
    assert_eq!(memory.run(100), refused(23));

    // A verdict of the last iteration stands.
    let mut memory = begun(&chart("L only o"), "sep sep old", 1);
    memory.record.iterations = 59_999;
    assert_eq!(memory.run(100), DONE);
    assert_eq!((memory.record.iterations, memory.record.verdict), (60_000, Verdict::Safe));
    assert_eq!(memory.run(100), refused(22));

    // A begin counts its own iterations alone, whatever the record says.
    for iterations in [59_998, 60_000, 60_001, u32::MAX] {
        let mut memory = case_a_underway();
        memory.record.iterations = iterations;
        assert_eq!(memory.begin(memory.record.settings, 8, 3), DONE);
        assert!(memory == case_a_underway(), "as after three iterations of a run");
        memory.record.iterations = iterations;
        assert_eq!(memory.begin(memory.record.settings, 8, 60_000), DONE);
        assert_eq!((memory.record.iterations, memory.record.verdict), (7, Verdict::Safe));
    }
}

#[test]
fn listings_take_just_their_length() {
    let memory = case_a_underway();
    let (answer, text) = memory.listing(SPACE);
    assert_eq!(answer, DONE);
    let expected = "\
        walk\tsep\tsep\told\topen\t3\t5\t0\n\
        0\ttop\t0\t0\t*\t-\n\
        1\tleft\t0\t0\t1\t-\n\
        2\tright\t0\t0\t*\t-\n\
        3\tmeet\t1\t0\t1\tw\n\
        4\tmeet\t0\t1\t*\tw\n";
    assert_eq!(String::from_utf8(text).unwrap(), expected);
    assert_eq!(memory.listing(expected.len()), (DONE, expected.as_bytes().to_vec()));
    assert_eq!(memory.listing(expected.len() - 1), (refused(15), Vec::new()));
    assert_eq!(memory.listing(0), (refused(15), Vec::new()));
}
