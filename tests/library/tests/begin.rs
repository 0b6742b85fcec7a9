//! The library's begin held to what document 02 says of it, not to the walker: the order of its refusals,
//! that it looks at nothing held but the chart, and that it comes to what a start and a run came to.

use library::lent::{Lent, ALARM, ANY, OPEN, SAFE, SEP, SPACE};
use library::{files, Record, Settings};
use reference::calls::held_chart;
use reference::chart::Chart;
use reference::memory::JUNK;
use reference::random::calls::{begin, lent_to_begin};
use reference::random::{count_at_least, inputs, seed, Random};

/// Of each sort, so that another seed finds it too.
const FEWEST: usize = 20;

/// Where a begin goes through, it comes to what one without a budget and a run with it come to; at an error
/// location it goes through, and the run is refused by 22. A refused one leaves everything as it was.
#[test]
fn a_begin_is_a_plain_one_and_a_run() {
    let mut random = Random::new(seed());
    let (mut alike, mut alarms, mut refused) = (0, 0, 0);
    for _ in 0..count_at_least(20_000) {
        let chart = inputs::chart(&mut random);
        let begin = begin(&mut random, &chart);
        let before = Lent::from(lent_to_begin(&mut random, &chart, begin.capacity));
        let (settings, capacity) = (Settings::from(begin.settings), begin.capacity);
        let (mut one, mut pair) = (before.clone(), before.clone());
        let number = one.begin(settings, capacity, begin.budget);
        let plain = pair.begin(settings, capacity, 0);
        let run = pair.run(begin.budget);
        let shown = || format!("{begin:?} on {before:?}");
        if number != 0 {
            let is_first = [11, 12].contains(&plain) || run != 13;
            assert_eq!(number, if is_first { plain } else { run }, "{}", shown());
            assert!(one == before, "refused and written: {}", shown());
            refused += 1;
            continue;
        }
        assert!(one == pair, "{one:?} is not {pair:?}: {}", shown());
        assert!(one.listing(SPACE) == pair.listing(SPACE), "{}", shown());
        assert_eq!(one.listing(SPACE).0, 0, "{}", shown());
        let chart = held_chart(&one.chart).expect("the begin has gone through");
        if chart.location(Chart::START).is_error {
            let Record { iterations, used, waiting, verdict, edge, .. } = one.record;
            assert_eq!((plain, run, verdict), (0, 22, ALARM), "{}", shown());
            assert_eq!((iterations, edge, used, waiting, one.list[0]), (0, 0, 1, 1, 0));
            alarms += 1;
        } else {
            assert_eq!((plain, run), (0, 0), "{}", shown());
            alike += 1;
        }
    }
    println!("{alike} alike, {alarms} at an alarm from the start, {refused} refused");
    assert!([alike, alarms, refused].iter().all(|&times| times >= FEWEST));
}

/// Every set of refusals that can apply at once, over an analysis under way, which must stay as it is.
#[test]
fn the_first_refusal_is_answered() {
    const ORDER: [u32; 6] = [6, 11, 12, 13, 20, 14];
    for set in 0..1 << ORDER.len() {
        let all = || ORDER.into_iter().enumerate().filter(|(place, _)| set >> place & 1 == 1);
        let applies = |number: u32| all().any(|(_, each)| each == number);
        let mut before = Lent::underway();
        // As no begin leaves slot 0, so that one that has written it is seen.
        before.table[..6].copy_from_slice(&[3, 1, 1, 5, 1, 1]);
        if applies(20) {
            // The first variable's least value, above its highest.
            before.chart[3] = 2;
        }
        if applies(14) {
            before.table.truncate(47);
        }
        let settings = Settings {
            merge: 0,
            stop: u32::from(applies(12)),
            order: if applies(6) { 2 } else { 0 },
        };
        let capacities = if applies(11) { &[0, 257, -1, i32::MIN, i32::MAX][..] } else { &[8] };
        let budgets =
            if applies(13) { &[-1, 60_001, i32::MIN, i32::MAX][..] } else { &[0, 1, 60_000] };
        let expected = all().next().map_or(0, |(_, number)| number);
        for &capacity in capacities {
            for &budget in budgets {
                let mut lent = before.clone();
                let number = lent.begin(settings, capacity, budget);
                assert_eq!(number, expected, "{settings:?}, {capacity}, {budget}, set {set:06b}");
                assert!(number == 0 || lent == before, "{number} and written");
            }
        }
    }
}

#[test]
fn a_begin_takes_just_its_words() {
    for (table, list, expected) in [(48, 8, 0), (47, 8, 14), (48, 7, 14), (49, 9, 0)] {
        for budget in [0, 2, 60_000] {
            let mut lent = Lent::new(files::case_a(), table, list);
            assert_eq!(lent.begin(SEP, 8, budget), expected, "{table}, {list}, {budget}");
            assert!(lent.table[48.min(table)..].iter().all(|&word| word == JUNK));
            assert!(lent.list[8.min(list)..].iter().all(|&word| word == JUNK));
        }
    }
}

/// Case A with each budget up to its seven iterations and past them: 0 plays none.
#[test]
fn a_begin_plays_its_budget() {
    for (budget, used) in (0..).zip([1, 3, 4, 5, 6, 7, 7, 7, 7]) {
        let mut lent = Lent::new(files::case_a(), 48, 8);
        assert_eq!(lent.begin(SEP, 8, budget), 0);
        let Record { iterations, verdict, .. } = lent.record;
        assert_eq!((iterations, lent.record.used), (budget.min(7) as u32, used));
        assert_eq!(verdict, if budget < 7 { OPEN } else { SAFE });
        if budget == 0 {
            assert_eq!(lent.table, [&[0, 0, 0, ANY, 65_535, 0][..], &[0; 42]].concat());
            assert_eq!((lent.record.waiting, &lent.list[..]), (1, &[0; 8][..]));
        }
        assert_eq!(lent.run(1), if budget < 7 { 0 } else { 22 });
    }
}

#[test]
fn an_error_location_at_the_start_is_an_alarm_at_once() {
    let file = b"V\tx\t0\t9\t4\nL\tonly\te\nL\tnext\to\nE\t0\t0\tadd\t$0\t$0\t1\nE\t0\t1\tskip\n";
    for budget in [0, 1, 5, 60_000] {
        let mut lent = Lent::new(file, 13, 4);
        assert_eq!(lent.begin(Settings { merge: 1, stop: 1, order: 1 }, 3, budget), 0);
        assert_eq!(lent.table, [0, 4, 65_535, 0, 0, 0, 0, 0, 0, 0, 0, 0, JUNK]);
        assert_eq!(lent.list, [0, 0, 0, JUNK]);
        let expected = Record {
            merge: 1,
            stop: 1,
            order: 1,
            capacity: 3,
            iterations: 0,
            used: 1,
            waiting: 1,
            verdict: ALARM,
            edge: 0,
        };
        assert_eq!(lent.record, expected);
        assert_eq!(lent.run(budget), 22);
    }
}

/// Over any record and any words: what 21, 22 or 23 would refuse, codes that name nothing, and an
/// analysis at or past the limit of iterations, from which no budget counts.
#[test]
fn what_is_held_is_not_looked_at() {
    for budget in [0, 3, 60_000] {
        let begun = |mut lent: Lent| {
            assert_eq!(lent.begin(SEP, 8, budget), 0, "{lent:?}, budget {budget}");
            lent
        };
        let expected = begun(Lent::new(files::case_a(), 48, 8));
        let anew = |change: &dyn Fn(&mut Lent)| {
            let mut lent = Lent::underway();
            change(&mut lent);
            let changed = lent.clone();
            assert!(begun(lent) == expected, "{changed:?}, budget {budget}");
        };
        for value in [0, 1, 2, 3, 9, 257, 59_998, 60_000, 60_001, u32::MAX] {
            anew(&|lent| lent.record.merge = value);
            anew(&|lent| lent.record.stop = value);
            anew(&|lent| lent.record.order = value);
            anew(&|lent| lent.record.capacity = value);
            anew(&|lent| lent.record.iterations = value);
            anew(&|lent| lent.record.verdict = value);
            for count in [value as usize, (value as usize) << 32] {
                anew(&|lent| lent.record.used = count);
                anew(&|lent| lent.record.waiting = count);
                anew(&|lent| lent.record.edge = count);
            }
        }
        for word in [0, -1, 1, 9, ANY, ANY + 1, i32::MIN, i32::MAX] {
            anew(&|lent| lent.table.fill(word));
            anew(&|lent| lent.list.fill(word));
            anew(&|lent| lent.table[47] = word);
            anew(&|lent| lent.list[7] = word);
        }
    }
}
