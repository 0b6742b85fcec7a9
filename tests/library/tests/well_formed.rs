//! The library's check of an encoded chart against the reference walker's.

use library::{files, well_formed};
use reference::calls;
use reference::domain::TOP;
use reference::encoding::encode;
use reference::memory::Memory;
use reference::random::calls::disturb_word;
use reference::random::{count_at_least, inputs, permitted_settings, seed, Random};
use reference::reader;

/// Whether the reference walker would begin on these words; it refuses a chart out of form by 20.
fn begins(words: &[i32]) -> bool {
    let chart = reader::read(files::case_a()).expect("case A is accepted");
    let Memory { mut table, mut waitlist, mut record, .. } = Memory::new(&chart, 11, 1);
    let settings = permitted_settings()[0];
    match calls::begin(words, settings, 1, 0, &mut table, &mut waitlist, &mut record).number {
        0 => true,
        20 => false,
        number => panic!("{number} is answered to enough words"),
    }
}

/// What both say; fails where they differ.
fn compare(words: &[i32]) -> bool {
    let is_well_formed = well_formed(words);
    assert_eq!(is_well_formed, begins(words), "{words:?}");
    is_well_formed
}

fn assert_both_met(met: [usize; 2]) {
    println!("{} out of form, {} well-formed", met[0], met[1]);
    assert!(met.iter().all(|&times| times >= 20));
}

#[test]
fn encoded_charts_are_well_formed_whatever_follows() {
    let mut random = Random::new(seed());
    for _ in 0..count_at_least(10_000) {
        let mut words = encode(&inputs::chart(&mut random));
        let length = words.len();
        words.extend((0..random.below(20)).map(|_| random.between(-40_000, 40_000)));
        assert!(compare(&words));
        assert!(!compare(&words[..random.below(length)]));
    }
}

/// One to three words changed, the counts more often than others.
#[test]
fn disturbed_charts_are_judged_alike() {
    let mut random = Random::new(seed() ^ 1);
    let mut met = [0; 2];
    for _ in 0..count_at_least(60_000) {
        let mut words = encode(&inputs::chart(&mut random));
        for _ in 0..=random.below(3) {
            if random.percent(20) {
                let place = random.below(3);
                words[place] += random.between(-1, 1);
            } else {
                disturb_word(&mut random, &mut words);
            }
        }
        met[usize::from(compare(&words))] += 1;
    }
    assert_both_met(met);
}

/// Each word of case A's encoding, and of one with every operation, given many values.
#[test]
fn every_word_is_judged_alike() {
    const EVERY_OPERATION: &[u8] =
        b"V\ta\t-2\t2\t*\nV\tb\t0\t9\t3\nL\tsixteen-bytes-ok\to\nL\t-\te\n\
        E\t0\t1\tskip\nE\t1\t1\tset\t$0\t$1\nE\t0\t0\tadd\t$1\t$0\t5\nE\t1\t0\tsub\t$0\t-1\t$1\n\
        E\t0\t1\tin\t$1\t2\t7\nE\t0\t1\tif\t$0\teq\t$1\nE\t0\t1\tif\t$1\tge\t-7\n";
    let mut met = [0; 2];
    for file in [files::case_a(), EVERY_OPERATION] {
        let encoded = encode(&reader::read(file).expect("both are accepted"));
        for place in 0..encoded.len() {
            let mut words = encoded.clone();
            let values = (-12..=130).chain([
                TOP,
                TOP + 1,
                32_767,
                -32_768,
                -32_769,
                255,
                256,
                257,
                301,
                i32::MAX,
                i32::MIN,
            ]);
            for value in values {
                words[place] = value;
                met[usize::from(compare(&words))] += 1;
            }
        }
    }
    assert_both_met(met);
}

/// Words of any kind, few of which are a chart by chance.
#[test]
fn random_words_are_judged_alike() {
    let mut random = Random::new(seed() ^ 2);
    let mut met = [0; 2];
    for _ in 0..count_at_least(60_000) {
        let length = random.below(80);
        let least = random.between(-1, 0);
        let mut words: Vec<i32> = (0..length)
            .map(|_| match random.below(40) {
                0 => random.pick(&[i32::MIN, i32::MAX, TOP, -32_768, 65, 45]),
                _ => random.between(least, 1),
            })
            .collect();
        if random.percent(50) {
            // A location's name, so that more depends on the rest.
            for (place, word) in [(0, 0), (1, 1), (4, 65)] {
                if let Some(found) = words.get_mut(place) {
                    *found = word;
                }
            }
            words.iter_mut().skip(5).take(15).for_each(|word| *word = 0);
        }
        met[usize::from(compare(&words))] += 1;
    }
    assert_both_met(met);
}
