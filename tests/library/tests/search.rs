//! The library's search: against the reference walker's on random calls, the answer, every byte lent and those around
//! them; and held to what document 02 says of it, not to the walker.

use library::lent::{search, words, SPACE};
use library::walker::WALKER;
use library::{files, LIBRARY};
use reference::calls::held_chart;
use reference::coverage::Met;
use reference::program::{asked, Asked};
use reference::random::{count_at_least, searches, seed, Random};
use reference::searches::{search_corners, search_corners_of, Search};
use reference::text;
use reference::way::check_run;
use reference::worked::cases;

const CALLS: usize = 10_000;
/// Of each number and corner, so that another seed finds it too.
const FEWEST: usize = 5;
/// Words and bytes around each buffer that is lent.
const FENCE: usize = 4;

fn file(lines: &str) -> Vec<u8> {
    let lines = lines.lines().map(|line| line.trim().replace(' ', "\t") + "\n");
    lines.collect::<String>().into_bytes()
}

fn chart(lines: &str) -> Vec<i32> {
    words(&file(lines))
}

fn found(lines: &str, bound: i32) -> String {
    let (number, text) = search(&chart(lines), bound, SPACE);
    assert_eq!(number, 0, "{lines}");
    String::from_utf8(text).expect("it is text").replace('\t', " ")
}

/// Makes the call by both, each buffer within a fence; fails where anything differs. The number answered.
fn compare(random: &mut Random, call: &Search) -> u32 {
    let fence: Vec<i32> = (0..FENCE).map(|_| random.between(-3, 3)).collect();
    let chart = [&fence, &call.chart[..], &fence].concat();
    let (lent, before) = (&chart[FENCE..chart.len() - FENCE], chart.clone());
    let bytes: Vec<u8> = (0..call.space + 2 * FENCE).map(|_| random.below(256) as u8).collect();
    let (mut one, mut other) = (bytes.clone(), bytes.clone());
    let end = FENCE + call.space;
    let reply = (LIBRARY.search)(lent, call.bound, &mut one[FENCE..end]);
    let expected = (WALKER.search)(lent, call.bound, &mut other[FENCE..end]);
    assert_eq!(reply, expected, "{call:?}");
    assert!(one == other, "the bytes differ: {call:?}");
    assert!(chart == before, "the chart is written: {call:?}");
    assert!(reply.number == 0 || one == bytes, "refused and written: {call:?}");
    if reply.number == 0 && one[FENCE..].starts_with(b"run\t") {
        let chart = held_chart(lent).expect("it has gone through");
        let text = &one[FENCE..FENCE + reply.length];
        match check_run(&chart, text) {
            Ok(moves) => assert!(moves <= call.bound as usize, "{call:?}"),
            Err(wrong) => panic!("{wrong} in {}: {call:?}", text.escape_ascii()),
        }
    }
    reply.number
}

/// Whatever the search is lent: words disturbed, cut off or of any kind, with others after them, and bytes of any
/// number.
#[test]
fn random_searches_are_answered_alike() {
    let mut random = Random::new(seed());
    let (mut answers, mut corners) = (Met::new(), Met::new());
    for _ in 0..count_at_least(CALLS) {
        let call = searches::search(&mut random);
        answers.add(compare(&mut random, &call));
        corners.add_all(search_corners_of(&call));
    }
    answers.assert_exactly(&[0, 15, 20, 30, 31], FEWEST);
    corners.assert_exactly(&search_corners(), FEWEST);
}

/// Each word of a chart given many values: in form or not, too wide or not.
#[test]
fn every_word_of_a_chart_is_judged_alike() {
    let mut random = Random::new(seed() ^ 1);
    let chart = chart(
        "V x 0 3 *\nV y -1 20 0\nL a o\nL b e
         E 0 0 in $1 0 15\nE 0 0 add $0 $0 $1\nE 0 1 if $0 eq $1",
    );
    let mut answers = Met::new();
    let extremes = [15, 16, 17, 20, 4_095, 4_096, 32_767, 32_768, -32_768, i32::MIN, i32::MAX];
    for place in 0..chart.len() {
        for value in (-2..5).chain(extremes) {
            let mut changed = chart.clone();
            changed[place] = value;
            let call = Search { chart: changed, bound: 2, space: SPACE };
            answers.add(compare(&mut random, &call));
        }
    }
    answers.assert_exactly(&[0, 20, 31], FEWEST);
}

/// What each case prints, by the calls.
#[test]
fn every_search_of_a_case_is_the_one_expected() {
    let mut texts = 0;
    for case in cases() {
        let Some(Asked::Search(bound)) = asked(&case.arguments) else {
            continue;
        };
        let Some(bound) = text::number(bound).and_then(|bound| i32::try_from(bound).ok()) else {
            continue;
        };
        let mut chart = [0; 3_163];
        if (LIBRARY.read)(case.chart_file(), &mut chart).number != 0 {
            continue;
        }
        let expected = String::from_utf8_lossy(&case.output).into_owned();
        match expected.strip_prefix("refused\t") {
            Some(refused) => {
                let number = refused.split('\t').next().and_then(|number| number.parse().ok());
                assert_eq!(Some(search(&chart, bound, SPACE).0), number, "{}", case.name);
            }
            None => {
                assert_eq!(search(&chart, bound, SPACE), (0, case.output), "{}", case.name);
                texts += 1;
            }
        }
    }
    println!("{texts} texts");
    assert!(texts > 40);
}

/// Every set of refusals that can apply at once, with the chart's words alone and with others after them.
#[test]
fn the_first_refusal_is_answered() {
    const ORDER: [u32; 4] = [30, 20, 31, 15];
    for set in 0..1 << ORDER.len() {
        let all = || ORDER.into_iter().enumerate().filter(|(place, _)| set >> place & 1 == 1);
        let applies = |number: u32| all().any(|(_, each)| each == number);
        let (wide_input, many_starts) =
            ("V x 0 20 0\nL a o\nE 0 0 in $0 0 16", "V x 0 4096 *\nL a o\nE 0 0 skip");
        let small = "V x 0 20 0\nL a o\nE 0 0 in $0 0 15";
        for lines in if applies(31) { [wide_input, many_starts] } else { [small; 2] } {
            let mut chart = chart(lines);
            if applies(20) {
                // Neither ordinary nor an error location.
                chart[6] = 2;
            }
            let expected = all().next().map_or(0, |(_, number)| number);
            for bound in if applies(30) { [-1, 9, i32::MIN, i32::MAX] } else { [0, 1, 2, 3] } {
                for space in if applies(15) { [0, 6] } else { [7, SPACE] } {
                    let number = search(&chart, bound, space).0;
                    assert_eq!(number, expected, "set {set:04b}, {bound}, {space} bytes");
                    let longer = [&chart[..], &[9, -9, i32::MIN]].concat();
                    assert_eq!(search(&longer, bound, space).0, expected);
                }
            }
        }
    }
}

#[test]
fn bounds_are_0_to_8() {
    let chart = chart("L a o");
    for bound in (-300..300).chain([i32::MIN, i32::MAX, 1 << 8, 1 << 16, i32::MIN + 3]) {
        let expected = match bound {
            0..=8 => (0, format!("none\t{bound}\n").into_bytes()),
            _ => (30, Vec::new()),
        };
        assert_eq!(search(&chart, bound, SPACE), expected);
    }
}

/// Into as many bytes as the text has and into more it is written, into fewer nothing is.
#[test]
fn a_text_takes_just_its_length() {
    let chart = chart("V x -9 9 0\nL a o\nL bad e\nE 0 0 add $0 $0 -3\nE 0 1 if $0 eq -6");
    let expected = b"run\t3\n0\ta\t0\n1\ta\t-3\n1\ta\t-6\n2\tbad\t-6\n".to_vec();
    for space in 0..expected.len() {
        assert_eq!(search(&chart, 8, space), (15, Vec::new()), "{space} bytes");
    }
    for space in [expected.len(), expected.len() + 1, 100, SPACE, 1 << 20] {
        assert_eq!(search(&chart, 8, space), (0, expected.clone()), "{space} bytes");
    }
}

#[test]
fn fewer_words_are_no_chart() {
    let words = words(files::case_a());
    for length in 0..words.len() {
        assert_eq!(search(&words[..length], 8, SPACE).0, 20, "{length} words");
    }
    assert_eq!(search(&words, 8, SPACE), (0, b"none\t8\n".to_vec()));
}

/// Each length from none to all moves, ended by an overrun and by an error location; with one move fewer there is none.
#[test]
fn every_length() {
    for moves in 1..=9 {
        let overrun = format!("V x 0 {} 0\nL a o\nE 0 0 add $0 $0 1", moves - 1);
        let error =
            format!("V x 0 99 0\nL a o\nL b e\nE 0 0 add $0 $0 1\nE 0 1 if $0 eq {}", moves - 1);
        let states: String = (1..moves).map(|value| format!("1 a {value}\n")).collect();
        for (lines, last) in [(overrun, "1".to_string()), (error, format!("2 b {}", moves - 1))] {
            let expected = format!("run {moves}\n0 a 0\n{states}{last}\n");
            for bound in 0..=8 {
                let none = format!("none {bound}\n");
                let expected = if bound < moves { &none } else { &expected };
                assert_eq!(found(&lines, bound), *expected, "{lines}");
            }
        }
    }
    for bound in 0..=8 {
        assert_eq!(found("V x -1 1 *\nL a e\nE 0 0 set $0 5", bound), "run 0\n0 a -1\n");
    }
}

/// Which of the shortest is shown: by start, by edge and by input, in this order.
#[test]
fn the_first_of_equals() {
    for (lines, expected) in [
        // The least start, though a later one has the earlier edge.
        ("V x 0 1 *\nL a o\nL b e\nE 0 1 if $0 eq 1\nE 0 1 if $0 eq 0", "run 1\n0 a 0\n2 b 0\n"),
        // But the shortest before that.
        ("V x 0 1 *\nL a o\nE 0 0 add $0 $0 1", "run 1\n0 a 1\n1\n"),
        // Variable 0 first, negative values first.
        ("V x -1 1 *\nV y -1 1 *\nL a o\nL b e\nE 0 1 if $0 ne $1", "run 1\n0 a -1 0\n1 b -1 0\n"),
        // The edge before the input, move by move.
        (
            "V x -1 1 0\nL a o\nL b o\nL c e\nE 0 1 in $0 -1 1\nE 1 2 if $0 gt 0\nE 1 2 if $0 lt 0",
            "run 2\n0 a 0\n1 b -1\n3 c -1\n",
        ),
        // An overrun and an error location are told apart by their edges alone.
        ("V x 0 1 0\nL a o\nL b e\nE 0 1 skip\nE 0 0 set $0 2", "run 1\n0 a 0\n1 b 0\n"),
        ("V x 0 1 0\nL a o\nL b e\nE 0 0 set $0 2\nE 0 1 skip", "run 1\n0 a 0\n1\n"),
        // Into an error location, but beyond the range.
        ("V x 0 1 0\nL a o\nL b e\nE 0 1 set $0 2", "run 1\n0 a 0\n1\n"),
        // Two starts meet in a state: the lower of them.
        (
            "V x 0 1 *\nL a o\nL b o\nL c e\nE 0 1 set $0 1\nE 1 2 skip",
            "run 2\n0 a 0\n1 b 1\n2 c 1\n",
        ),
    ] {
        assert_eq!(found(lines, 8), expected, "{lines}");
    }
}

/// Just as many values and starts as there may be, and one more; nothing else counts.
#[test]
fn sizes_that_just_pass() {
    for (lines, number) in [
        ("V x 1 4096 *\nL a o", 0),
        ("V x 0 4096 *\nL a o", 31),
        ("V x 0 63 *\nV y -63 0 *\nV z -32768 32767 9\nL a o", 0),
        ("V x 0 63 *\nV y -64 0 *\nL a o", 31),
        ("V x 0 99 0\nL a o\nE 0 0 in $0 84 99", 0),
        ("V x 0 99 0\nL a o\nE 0 0 in $0 83 99", 31),
        ("V x 0 99 0\nL a o\nL b o\nE 1 1 in $0 83 99", 31),
        ("V x -8 8 0\nL a e\nE 0 0 in $0 -8 8", 31),
        ("V x 0 99 0\nL a o\nE 0 0 if $0 ge 17", 0),
    ] {
        assert_eq!(search(&chart(lines), 1, SPACE).0, number, "{lines}");
    }
    // A product that is 0 in 16, 32, 64 and 128 bits.
    for count in 1..=8 {
        let variables: String =
            (0..count).map(|index| format!("V v{index} -32768 32767 *\n")).collect();
        assert_eq!(search(&chart(&format!("{variables}L a o")), 0, SPACE).0, 31, "{count}");
    }
}

/// Nine states of eight variables, every field as long as it may be, but for the start's edge.
#[test]
fn the_longest_text_fits() {
    let mut lines = String::new();
    for index in 0..8 {
        lines += &format!("V v{index} -32768 -10000 -10000\n");
    }
    lines += "L sixteen-letters1 o\nL sixteen-letters2 e\n";
    lines += &"E 0 0 if $0 gt 0\n".repeat(254);
    lines += "E 0 1 if $7 eq -10007\nE 0 0 sub $7 $7 1";
    let mut expected = String::from("run 8\n");
    for place in 0..9 {
        let (edge, name) = match place {
            0 => (0, "sixteen-letters1"),
            8 => (255, "sixteen-letters2"),
            _ => (256, "sixteen-letters1"),
        };
        let values = " -10000".repeat(7) + &format!(" {}", -10_000 - place.min(7));
        expected += &format!("{edge} {name}{values}\n");
    }
    assert_eq!(found(&lines, 8), expected);
    assert!(expected.len() <= searches::SEARCH_BYTES);
}
