//! The read call and the words it fills.

use reference::calls::{self, Answer};
use reference::domain::TOP;
use reference::encoding::{encode, MAX_WORDS};
use reference::memory::JUNK;
use reference::reader;
use reference::renderer::render;

use crate::common::{chart, CASE_A};
use crate::support::{begun, listing_answer, refused, DONE};

#[test]
fn read_fills_words_or_writes_nothing() {
    let file = render(&chart(CASE_A));
    let encoded = encode(&chart(CASE_A));
    assert_eq!(encoded[..12], [3, 6, 6, 0, 1, 0, 0, 1, 0, 0, 9, TOP]);
    let mut words = vec![JUNK; encoded.len() + 2];
    assert_eq!(calls::read(&file, &mut words), DONE);
    assert_eq!(words[..encoded.len()], encoded);
    assert_eq!(words[encoded.len()..], [JUNK, JUNK]);

    let mut words = vec![JUNK; encoded.len() - 1];
    assert_eq!(calls::read(&file, &mut words), refused(14));
    assert_eq!(calls::read(&file[..file.len() - 1], &mut words), Answer::refused(3, 15));
    assert_eq!(calls::read(b"", &mut words), refused(8));
    assert_eq!(calls::read(b"L\ta\to\nL\ta\to\n", &mut words), Answer::refused(9, 2));
    assert!(words.iter().all(|&word| word == JUNK));
}

#[test]
fn encodings_by_hand() {
    let chart = chart(
        "V x -5 5 -1
         L a-1 o
         L B e
         E 0 1 skip
         E 0 0 set $0 $0
         E 0 0 add $0 1 $0
         E 0 0 sub $0 $0 -2
         E 0 0 in $0 -5 4
         E 0 0 if $0 eq 3
         E 0 0 if $0 ne $0
         E 0 0 if $0 lt -3
         E 0 0 if $0 le 0
         E 0 0 if $0 gt 1
         E 1 0 if $0 ge 32767",
    );
    #[rustfmt::skip]
    let expected = [
        1, 2, 11,
        -5, 5, -1,
        0, 97, 45, 49, 0, 0, 0, 0, 0, 0, 0, 0, 0, 0, 0, 0, 0,
        1, 66, 0, 0, 0, 0, 0, 0, 0, 0, 0, 0, 0, 0, 0, 0, 0,
        0, 1, 0, 0, 0, 0, 0, 0,
        0, 0, 1, 0, 1, 0, 0, 0,
        0, 0, 2, 0, 0, 1, 1, 0,
        0, 0, 3, 0, 1, 0, 0, -2,
        0, 0, 4, 0, 0, -5, 0, 4,
        0, 0, 5, 0, 0, 3, 0, 0,
        0, 0, 6, 0, 1, 0, 0, 0,
        0, 0, 7, 0, 0, -3, 0, 0,
        0, 0, 8, 0, 0, 0, 0, 0,
        0, 0, 9, 0, 0, 1, 0, 0,
        1, 0, 10, 0, 0, 32767, 0, 0,
    ];
    assert_eq!(encode(&chart), expected);
}

#[test]
fn largest_accepted_file() {
    let mut file = String::new();
    for index in 0..8 {
        file += &format!("V\tvariable-------{index}\t-32768\t-10000\t-32768\n");
    }
    for index in 0..64 {
        file += &format!("L\tlocation------{index:02}\to\n");
    }
    for _ in 0..256 {
        file += "E\t63\t63\tsub\t$7\t-32768\t-32768\n";
    }
    assert_eq!(file.len(), 9_088);
    let chart = reader::read(file.as_bytes()).expect("it is accepted");
    assert_eq!(render(&chart), file.as_bytes());
    assert_eq!(encode(&chart).len(), MAX_WORDS);
    assert_eq!(MAX_WORDS, 3_163);
    let mut words = vec![JUNK; MAX_WORDS];
    assert_eq!(calls::read(file.as_bytes(), &mut words[..MAX_WORDS - 1]), refused(14));
    assert!(words.iter().all(|&word| word == JUNK));
    assert_eq!(calls::read(file.as_bytes(), &mut words), DONE);

    // Each line is as long as its kind can be, and no line more is accepted.
    for (line, number) in [("V\tv\t0\t0\t0\n", 4), ("L\tl\to\n", 4), ("E\t0\t0\tskip\n", 8)] {
        let longer = file.clone() + line;
        assert_eq!(calls::read(longer.as_bytes(), &mut words), Answer::refused(number, 329));
    }
    let memory = begun(&chart, "sep sep old", 256);
    assert_eq!(listing_answer(&memory), DONE);
}
