//! Charts to files and words and back, and the exact form of the words.

use reference::calls;
use reference::encoding::{decode, encode};
use reference::memory::Memory;
use reference::random::calls::disturb_word;
use reference::random::{count, count_at_least, damage, inputs, seed, Random};
use reference::reader::read;
use reference::renderer::render;

/// Of files and words that are accepted, and of those that are not.
const FEWEST: usize = 500;

#[test]
fn a_rendered_chart_reads_back() {
    let mut random = Random::new(seed());
    for _ in 0..count(4_000) {
        let chart = inputs::chart(&mut random);
        assert_eq!(read(&render(&chart)), Ok(chart));
    }
}

/// Each chart has one file: what is accepted, damaged or not, renders to the same bytes.
#[test]
fn an_accepted_file_has_one_spelling() {
    let mut random = Random::new(seed() ^ 1);
    let (mut accepted, mut refused) = (0, 0);
    for _ in 0..count_at_least(10_000) {
        let mut file = render(&inputs::chart(&mut random));
        damage::chart_file(&mut random, &mut file);
        match read(&file) {
            Ok(chart) => {
                accepted += 1;
                assert_eq!(render(&chart), file);
            }
            Err(_) => refused += 1,
        }
    }
    println!("{accepted} damaged files accepted, {refused} refused");
    assert!(accepted >= FEWEST && refused >= FEWEST);
}

/// The calls judge the words by the form written out; here by rendering and reading.
#[test]
fn the_chart_held_is_judged_exactly() {
    let mut random = Random::new(seed() ^ 2);
    let (mut accepted, mut refused) = (0, 0);
    for _ in 0..count_at_least(10_000) {
        let chart = inputs::chart(&mut random);
        let mut memory = Memory::new(&chart, 256 * 11, 256);
        assert!(begins_with_a_chart(&memory.chart));
        for _ in 0..random.below(3) {
            if random.percent(20) {
                let place = random.below(3);
                memory.chart[place] += random.between(-1, 1);
            } else {
                disturb_word(&mut random, &mut memory.chart);
            }
        }
        let is_accepted = memory.begin(random.settings(), 1, 0).number == 0;
        assert_eq!(is_accepted, begins_with_a_chart(&memory.chart), "{:?}", memory.chart);
        *(if is_accepted { &mut accepted } else { &mut refused }) += 1;
    }
    println!("{accepted} accepted, {refused} refused");
    assert!(accepted >= FEWEST && refused >= FEWEST);
}

#[test]
fn read_gives_the_encoding() {
    let mut random = Random::new(seed() ^ 3);
    for _ in 0..count(1_000) {
        let chart = inputs::chart(&mut random);
        let encoded = encode(&chart);
        let mut words = vec![-1; encoded.len() + 1];
        assert_eq!(calls::read(&render(&chart), &mut words).number, 0);
        assert_eq!(words.pop(), Some(-1));
        assert_eq!(words, encoded);
        words.fill(-1);
        words.pop();
        assert_eq!(calls::read(&render(&chart), &mut words).number, 14);
        assert!(words.iter().all(|&word| word == -1));
    }
}

/// Whether the words begin with the encoding of a chart that some file reads to: the words are read
/// back through a file.
fn begins_with_a_chart(words: &[i32]) -> bool {
    decode(words)
        .and_then(|chart| read(&render(&chart)).ok())
        .is_some_and(|chart| words.starts_with(&encode(&chart)))
}
