//! Random begin calls over words of any sort: what they come to is what a start and a run came to, and a
//! build of the call that is wrong in one thing is told apart by them.

use reference::analysis::Verdict;
use reference::begins::{refusals, Begin};
use reference::calls::{advanced, held_chart, Record};
use reference::chart::Chart;
use reference::memory::Memory;
use reference::random::calls::{begin, lent_to_begin};
use reference::random::{count_at_least, inputs, seed, Random};

const BEGINS: usize = 8_000;
/// Of each sort, so that another seed finds it too.
const FEWEST: usize = 20;
const SPACE: usize = 24_576;

/// Each with what it is lent.
fn begins(seed: u64) -> impl Iterator<Item = (Begin, Memory)> {
    let mut random = Random::new(seed);
    (0..count_at_least(BEGINS)).map(move |_| {
        let chart = inputs::chart(&mut random);
        let begin = begin(&mut random, &chart);
        (begin, lent_to_begin(&mut random, &chart, begin.capacity))
    })
}

/// The number that the begin answers.
fn right(begin: Begin, memory: &mut Memory) -> u32 {
    memory.begin(begin.settings, begin.capacity, begin.budget).number
}

/// The old pair was a start and a run, here a begin without a budget and a run with it. Where the begin
/// goes through both come to the same, but the run is refused by 22 where the start is an alarm. Where
/// it is refused, so is one of the pair, and 13 comes after 11 and 12.
#[test]
fn a_begin_is_a_plain_one_and_a_run() {
    let (mut alike, mut alarms, mut refused) = (0, 0, 0);
    for (begin, lent) in begins(seed()) {
        let (mut one, mut pair) = (lent.clone(), lent);
        let answer = right(begin, &mut one);
        let plain = right(Begin { budget: 0, ..begin }, &mut pair);
        let run = pair.run(begin.budget).number;
        if answer != 0 {
            let is_first = [11, 12].contains(&plain) || run != 13;
            assert_eq!(answer, if is_first { plain } else { run }, "{begin:?} on {pair:?}");
            refused += 1;
            continue;
        }
        assert!(one == pair, "{begin:?}: {one:?} is not {pair:?}");
        assert_eq!(one.listing(SPACE), pair.listing(SPACE), "{begin:?} on {pair:?}");
        let chart = held_chart(&one.chart).expect("the begin has gone through");
        if chart.location(Chart::START).is_error {
            let Record { iterations, used, waiting, verdict, edge, .. } = one.record;
            assert_eq!((plain, run, verdict), (0, 22, Verdict::Alarm), "{begin:?} on {pair:?}");
            assert_eq!((iterations, edge, used, waiting, one.waitlist[0]), (0, 0, 1, 1, 0));
            alarms += 1;
        } else {
            assert_eq!((plain, run), (0, 0), "{begin:?} on {pair:?}");
            alike += 1;
        }
    }
    println!("{alike} alike, {alarms} at an alarm from the start, {refused} refused");
    assert!([alike, alarms, refused].iter().all(|&times| times >= FEWEST));
}

/// A build of the call, right or wrong: what it answers, and the memory as it leaves it.
type Build = fn(Begin, &mut Memory) -> u32;

/// Wrong in one thing each.
const WRONG_BUILDS: [(&str, Build); 22] = [
    ("12 before 11", |begin, memory| ordered([12, 11, 13, 20, 14], begin, memory)),
    ("13 before 11", |begin, memory| ordered([13, 11, 12, 20, 14], begin, memory)),
    ("13 before 12", |begin, memory| ordered([11, 13, 12, 20, 14], begin, memory)),
    ("20 before 12", |begin, memory| ordered([11, 20, 12, 13, 14], begin, memory)),
    ("13 after 20", |begin, memory| ordered([11, 12, 20, 13, 14], begin, memory)),
    ("13 after 14", |begin, memory| ordered([11, 12, 20, 14, 13], begin, memory)),
    ("14 before 20", |begin, memory| ordered([11, 12, 13, 14, 20], begin, memory)),
    ("21 looked at", |begin, memory| refusing(21, begin, memory)),
    ("22 looked at", |begin, memory| refusing(22, begin, memory)),
    ("23 looked at", |begin, memory| refusing(23, begin, memory)),
    ("an alarm at once refused by 22", |begin, memory| {
        let answer = right(begin, memory);
        match answer == 0 && is_alarm_at_once(memory) && begin.budget > 0 {
            true => 22,
            false => answer,
        }
    }),
    ("iterations after an alarm at once", |begin, memory| {
        let answer = right(begin, memory);
        if answer == 0 && is_alarm_at_once(memory) {
            memory.record.verdict = Verdict::Open;
            memory.run(begin.budget);
        }
        answer
    }),
    ("no budget, and an iteration played", |begin, memory| {
        right(Begin { budget: if begin.budget == 0 { 1 } else { begin.budget }, ..begin }, memory)
    }),
    ("one iteration too many", |begin, memory| {
        let is_spendable = (0..60_000).contains(&begin.budget);
        right(Begin { budget: begin.budget + i32::from(is_spendable), ..begin }, memory)
    }),
    ("one iteration too few", |begin, memory| {
        let is_spendable = (1..=60_000).contains(&begin.budget);
        right(Begin { budget: begin.budget - i32::from(is_spendable), ..begin }, memory)
    }),
    ("the budget less the iterations of the record", |begin, memory| {
        let played = i32::try_from(memory.record.iterations).unwrap_or(i32::MAX);
        let is_spendable = (0..=60_000).contains(&begin.budget);
        let left = if is_spendable { (begin.budget - played).max(0) } else { begin.budget };
        right(Begin { budget: left, ..begin }, memory)
    }),
    ("iterations counted on from the record's", |begin, memory| {
        let played = memory.record.iterations;
        let answer = right(begin, memory);
        if answer == 0 {
            memory.record.iterations = memory.record.iterations.saturating_add(played);
        }
        answer
    }),
    ("refused, and the record written", |begin, memory| {
        let answer = right(begin, memory);
        memory.record.settings = begin.settings;
        answer
    }),
    ("refused, and slot 0 written", |begin, memory| {
        let answer = right(begin, memory);
        if let (false, [word, ..]) = (answer == 0, &mut memory.table[..]) {
            *word = 0;
        }
        answer
    }),
    ("begun before 13 is judged", |begin, memory| match refusals(begin, memory)[..] {
        [13] => {
            right(Begin { budget: 0, ..begin }, memory);
            13
        }
        _ => right(begin, memory),
    }),
    ("words of the capacity left as they were", |begin, memory| {
        let before = memory.clone();
        let answer = right(begin, memory);
        if answer == 0 {
            let unused = memory.record.used as usize * memory.slot_width();
            memory.table[unused..].copy_from_slice(&before.table[unused..]);
        }
        answer
    }),
    ("words past the capacity written", |begin, memory| {
        let answer = right(begin, memory);
        if answer == 0 {
            memory.waitlist[begin.capacity as usize..].fill(0);
        }
        answer
    }),
];

fn is_alarm_at_once(memory: &Memory) -> bool {
    (memory.record.verdict, memory.record.iterations) == (Verdict::Alarm, 0)
}

/// With the refusals in another order.
fn ordered(order: [u32; 5], begin: Begin, memory: &mut Memory) -> u32 {
    let apply = refusals(begin, memory);
    let first = order.into_iter().find(|number| apply.contains(number));
    first.unwrap_or_else(|| right(begin, memory))
}

/// With one more refusal, as a run would judge what is held.
fn refusing(number: u32, begin: Begin, memory: &mut Memory) -> u32 {
    let run = advanced(&memory.chart, 0, &memory.table, &memory.waitlist, &memory.record);
    let is_refused = run.is_err_and(|refusal| refusal.reason as u32 == number);
    if is_refused && refusals(begin, memory).is_empty() {
        return number;
    }
    right(begin, memory)
}

/// What compares a build with the walker over these begins finds each wrong one many times.
#[test]
fn wrong_builds_are_told_apart() {
    let mut found = WRONG_BUILDS.map(|_| 0);
    for (begin, lent) in begins(seed() ^ 1) {
        let mut expected = lent.clone();
        let number = right(begin, &mut expected);
        for (found, (_, build)) in found.iter_mut().zip(WRONG_BUILDS) {
            let mut memory = lent.clone();
            let is_alike = build(begin, &mut memory) == number && memory == expected;
            *found += usize::from(!is_alike);
        }
    }
    for (found, (wrong, _)) in found.into_iter().zip(WRONG_BUILDS) {
        println!("{wrong}: {found}");
        assert!(found >= FEWEST, "{wrong}: told apart {found} times only");
    }
}
