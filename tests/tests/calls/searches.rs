//! The search call on lent words.

use reference::encoding::encode;
use reference::memory::search;

use crate::common::{chart, CASE_A};
use crate::support::{refused, DONE, SPACE};

fn words(lines: &str) -> Vec<i32> {
    encode(&chart(lines))
}

fn found(lines: &str, bound: i32) -> String {
    let (answer, text) = search(&words(lines), bound, SPACE);
    assert_eq!(answer, DONE);
    String::from_utf8(text).expect("it is text").replace('\t', " ")
}

#[test]
fn searches_take_just_their_length() {
    let words = words("V x 0 1 *\nL a o\nL bad e\nE 0 1 if $0 eq 1");
    let expected = "run\t1\n0\ta\t1\n1\tbad\t1\n";
    for space in [expected.len(), expected.len() + 1, SPACE] {
        assert_eq!(search(&words, 8, space), (DONE, expected.as_bytes().to_vec()));
    }
    for space in 0..expected.len() {
        assert_eq!(search(&words, 8, space), (refused(15), Vec::new()));
    }
    assert_eq!(search(&words, 0, 7), (DONE, b"none\t0\n".to_vec()));
    assert_eq!(search(&words, 0, 6), (refused(15), Vec::new()));
}

/// Every set of refusals that can apply at once.
#[test]
fn search_order() {
    const ORDER: [u32; 4] = [30, 20, 31, 15];
    for set in 0..1 << ORDER.len() {
        let all = || ORDER.into_iter().enumerate().filter(|(place, _)| set >> place & 1 == 1);
        let applies = |number: u32| all().any(|(_, each)| each == number);
        let high = if applies(31) { 16 } else { 15 };
        let mut words = words(&format!("V x 0 20 0\nL a o\nE 0 0 in $0 0 {high}"));
        if applies(20) {
            // Neither ordinary nor an error location.
            words[6] = 2;
        }
        let expected = refused(all().next().map_or(0, |(_, number)| number));
        let space = if applies(15) { 6 } else { SPACE };
        for bound in if applies(30) { [-1, 9, i32::MIN, i32::MAX] } else { [0, 1, 2, 3] } {
            assert_eq!(search(&words, bound, space).0, expected, "set {set:04b}, {bound}");
        }
    }
}

/// What stands past the chart is not looked at; fewer words are no chart.
#[test]
fn a_search_takes_just_the_words_of_its_chart() {
    let words = words(CASE_A);
    let longer = [&words[..], &[7, -1, i32::MIN]].concat();
    assert_eq!(search(&longer, 8, SPACE), (DONE, b"none\t8\n".to_vec()));
    for length in 0..words.len() {
        assert_eq!(search(&words[..length], 8, SPACE).0, refused(20), "{length} words");
    }
}

/// The ends of 31, and that neither a known variable nor a condition counts.
#[test]
fn sizes_that_just_pass() {
    for (lines, number) in [
        ("V x 1 4096 *\nL a o", 0),
        ("V x 0 4096 *\nL a o", 31),
        ("V x 0 63 *\nV y -63 0 *\nV z -32768 32767 9\nL a o", 0),
        ("V x 0 63 *\nV y -64 0 *\nL a o", 31),
        ("V x -32768 32767 *\nV y -32768 32767 *\nL a o", 31),
        ("V x 0 99 0\nL a o\nE 0 0 in $0 84 99", 0),
        ("V x 0 99 0\nL a o\nE 0 0 in $0 83 99", 31),
        ("V x 0 99 0\nL a o\nL b o\nE 1 1 in $0 83 99", 31),
        ("V x -8 8 0\nL a e\nE 0 0 in $0 -8 8", 31),
        ("V x 0 99 0\nL a o\nE 0 0 if $0 ge 17", 0),
    ] {
        assert_eq!(search(&words(lines), 1, SPACE).0.number, number, "{lines}");
    }
}

/// A later move decides where the earlier ones are the same, and its edge before its input.
#[test]
fn the_first_of_equals() {
    let lines = "V x -1 1 0\nV y 0 1 *\nL a o\nL b o\nL c o\nL bad e
        E 0 1 skip\nE 1 2 in $0 -1 1\nE 1 2 set $0 1\nE 2 3 if $0 gt $1\nE 2 3 if $0 eq -1\nE 0 1 set $0 1";
    assert_eq!(found(lines, 8), "run 3\n0 a 0 0\n1 b 0 0\n2 c -1 0\n5 bad -1 0\n");
    assert_eq!(found(lines, 2), "none 2\n");
    // Without the first, the same start by another input.
    let lines = lines.replace("if $0 eq -1", "if $0 eq 5");
    assert_eq!(found(&lines, 8), "run 3\n0 a 0 0\n1 b 0 0\n2 c 1 0\n4 bad 1 0\n");
}
