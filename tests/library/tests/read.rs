//! The library's read call against the reference walker's, on files of every sort: the number,
//! the line, and every lent word.

use library::{files, read, well_formed, Reply};
use reference::calls;
use reference::coverage::Met;
use reference::encoding::{encode, MAX_WORDS};
use reference::random::{count_at_least, damage, inputs, seed, Random};
use reference::reader;
use reference::renderer::render;
use reference::worked::{cases, examples};

/// Of each answer, so that another seed finds it too.
const FEWEST: usize = 20;

/// Reads `file` into `lent` words of rubbish by both; the number that both answer.
fn compare(random: &mut Random, file: &[u8], lent: usize) -> u32 {
    let rubbish: Vec<i32> = (0..lent).map(|_| random.between(-40_000, 40_000)).collect();
    let mut words = rubbish.clone();
    let reply = read(file, &mut words);
    let mut expected_words = rubbish.clone();
    let expected = calls::read(file, &mut expected_words);

    let shown = || format!("{lent} words lent for {:?}", file.escape_ascii().to_string());
    let answer = (reply.number, reply.line, reply.length);
    assert_eq!(answer, (expected.number, expected.line as usize, 0), "{}", shown());
    assert!(words == expected_words, "the words differ: {}", shown());
    if reply.number == 0 {
        let chart = reader::read(file).expect("both have accepted the file");
        let encoded = encode(&chart);
        assert!(words[..encoded.len()] == encoded, "not the encoding: {}", shown());
        assert!(words[encoded.len()..] == rubbish[encoded.len()..], "past it: {}", shown());
        assert!(well_formed(&words), "read and out of form: {}", shown());
    } else {
        assert!(words == rubbish, "refused and written: {}", shown());
    }
    reply.number
}

/// Mostly enough words, else about as many as the chart takes, or any number.
fn lent_words(random: &mut Random, file: &[u8]) -> usize {
    let taken = reader::read(file).map_or(0, |chart| encode(&chart).len());
    match random.below(10) {
        0 => taken.saturating_sub(1),
        1 => taken,
        2 => taken + 1,
        3 => random.below(taken + 1),
        4 => random.below(4),
        _ => MAX_WORDS + random.below(4),
    }
}

/// Of a random chart, most of them damaged; some with bytes of any kind put in.
fn random_file(random: &mut Random) -> Vec<u8> {
    let mut file = render(&inputs::chart(random));
    if random.percent(80) {
        damage::chart_file(random, &mut file);
    }
    if random.percent(5) {
        for _ in 0..random.below(4) {
            let place = random.below(file.len() + 1);
            file.insert(place, random.below(256) as u8);
        }
    }
    file
}

#[test]
fn random_files_are_read_alike() {
    let mut random = Random::new(seed());
    let mut met = Met::new();
    for _ in 0..count_at_least(40_000) {
        let file = random_file(&mut random);
        let lent = lent_words(&mut random, &file);
        met.add(compare(&mut random, &file, lent));
    }
    met.assert_exactly(&(0..=10).chain([14]).collect::<Vec<u32>>(), FEWEST);
}

#[test]
fn every_case_and_example_is_read_alike() {
    let mut random = Random::new(seed() ^ 1);
    let mut held = 0;
    for worked in cases().into_iter().chain(examples()) {
        let file = worked.chart_file();
        compare(&mut random, file, MAX_WORDS + 1);
        if let Some(expected) = printed_reply(&String::from_utf8_lossy(&worked.output)) {
            assert_eq!(read(file, &mut vec![0; MAX_WORDS]), expected, "{}", worked.name);
            held += 1;
        }
    }
    println!("{held} held to what is printed");
    assert!(held > 150);
}

/// What the output of a case says of the read call; nothing where the go line or an argument may have been refused.
fn printed_reply(output: &str) -> Option<Reply> {
    let mut fields = output.trim_end().split('\t');
    match fields.next() {
        Some("walk" | "path" | "run" | "none") => Some(Reply { number: 0, line: 0, length: 0 }),
        _ => {
            let mut numbers = fields.map(|field| field.parse().expect("a number"));
            let (number, line) = (numbers.next()?, numbers.next()?);
            (line > 0).then_some(Reply { number, line: line as usize, length: 0 })
        }
    }
}

/// Case A with each byte replaced by every other, taken out, and with each byte put before it.
#[test]
fn every_small_edit_is_read_alike() {
    let mut random = Random::new(seed() ^ 2);
    let case = files::case_a();
    for place in 0..case.len() {
        let mut without = case.to_vec();
        without.remove(place);
        compare(&mut random, &without, 200);
        for byte in 0..=u8::MAX {
            let mut replaced = case.to_vec();
            replaced[place] = byte;
            compare(&mut random, &replaced, 200);
            let mut with = case.to_vec();
            with.insert(place, byte);
            compare(&mut random, &with, 200);
        }
    }
}

/// Case A and the largest chart, with each number of words lent up to what they take and a few more.
#[test]
fn every_lent_size_is_judged_alike() {
    let mut random = Random::new(seed() ^ 3);
    for file in [files::case_a(), &files::largest()] {
        let taken = encode(&reader::read(file).expect("both are accepted")).len();
        for lent in 0..taken + 4 {
            let number = compare(&mut random, file, lent);
            assert_eq!(number, if lent < taken { 14 } else { 0 });
        }
    }
}

#[test]
fn the_limits_of_size() {
    let mut random = Random::new(seed() ^ 4);
    let largest = files::largest();
    assert_eq!(largest.len(), files::LARGEST);
    assert_eq!(compare(&mut random, &largest, MAX_WORDS), 0);

    let mut file = files::drawn_out();
    assert_eq!(file.len(), reader::MAX_FILE);
    assert_eq!(compare(&mut random, &file, MAX_WORDS), 7);
    assert_eq!(read(&file, &mut [0; MAX_WORDS]).line, 8 + 64 + 256);
    file.push(b'\n');
    assert_eq!(compare(&mut random, &file, MAX_WORDS), 1);
    assert_eq!(compare(&mut random, &vec![b'\n'; 1 << 20], MAX_WORDS), 1);
    assert_eq!(compare(&mut random, b"", 0), 8);
}
