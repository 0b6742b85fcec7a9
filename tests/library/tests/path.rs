//! The library's path held to what document 02 says of it, not to the walker: the words that say what
//! brought a slot, their form, the order of refusals, and that the text is a way through the chart.

use library::lent::{Lent, ALARM, ANY, OPEN, SAFE, SEP, SPACE};
use library::{files, Record, Settings};
use reference::calls::held_chart;
use reference::random::{count_at_least, inputs, seed, Random};
use reference::renderer::render;
use reference::way::check_way;

/// Of paths of one slot and of more, so that another seed finds them too.
const FEWEST: usize = 200;
const FULL: u32 = 3;
const JOIN: Settings = Settings { merge: 1, stop: 0, order: 0 };

/// Begun with the whole budget, in just the words that the capacity takes.
fn begun(file: &[u8], settings: Settings, capacity: usize) -> Lent {
    let mut lent = Lent::new(file, 0, capacity);
    lent.table = vec![0; capacity * (lent.chart[0] as usize + 3)];
    assert_eq!(lent.begin(settings, capacity as i32, 60_000), 0);
    lent
}

/// Case A with join, at its alarm.
fn case_a() -> Lent {
    let lent = begun(files::case_a(), JOIN, 8);
    assert_eq!((lent.record.verdict, lent.record.edge, lent.record.used), (ALARM, 6, 5));
    lent
}

fn file(lines: &str) -> Vec<u8> {
    let lines = lines.lines().map(|line| line.trim().replace(' ', "\t") + "\n");
    lines.collect::<String>().into_bytes()
}

fn text(lines: &[&str]) -> Vec<u8> {
    file(&lines.join("\n"))
}

#[test]
fn case_a_and_the_words_of_its_slots() {
    let lent = case_a();
    #[rustfmt::skip]
    assert_eq!(
        lent.table[..30],
        [
            0, 0, 0, ANY, 65_535, 0,
            1, 0, 0, 1, 0, 1,
            2, 0, 0, ANY, 0, 2,
            // Joined into by edge 4 from slot 2 later.
            3, ANY, ANY, ANY, 1, 3,
            4, ANY, ANY, ANY, 3, 5,
        ]
    );
    assert!(lent.table[30..].iter().all(|&word| word == 0));
    let expected = text(&[
        "path join 6",
        "0 0 top 0 0 * -",
        "1 1 left 0 0 1 -",
        "3 3 meet * * * -",
        "5 4 sum * * * w",
    ]);
    assert_eq!(lent.path(SPACE), (0, expected.clone()));
    assert_eq!(lent.path(expected.len()), (0, expected.clone()));
    for short in 0..expected.len() {
        assert_eq!(lent.path(short), (15, Vec::new()), "{short} bytes");
    }
    // Newest first, slot 3 is brought from the right, and joined into from the left.
    let newest = begun(files::case_a(), Settings { order: 1, ..JOIN }, 8);
    assert_eq!(newest.table[18..24], [3, ANY, ANY, ANY, 2, 4]);
    let expected = include_bytes!("../../cases/2.2-path-a-join-new.out");
    assert_eq!(newest.path(SPACE), (0, expected.to_vec()));
}

/// Every set of refusals that can apply at once; nothing lent may be written.
#[test]
fn the_first_refusal_is_answered() {
    const ORDER: [u32; 5] = [20, 14, 21, 24, 15];
    let length = case_a().path(SPACE).1.len();
    for set in 0..1 << ORDER.len() {
        let all = || ORDER.into_iter().enumerate().filter(|(place, _)| set >> place & 1 == 1);
        let applies = |number: u32| all().any(|(_, each)| each == number);
        let mut lent = case_a();
        if applies(20) {
            // The first variable's least value, above its highest.
            lent.chart[3] = 2;
        }
        if applies(14) {
            lent.table.truncate(47);
        }
        if applies(24) {
            (lent.record.verdict, lent.record.edge) = (OPEN, 0);
        }
        let expected = all().next().map_or(0, |(_, number)| number);
        let path = |lent: &Lent, change: &dyn Fn(&mut Lent)| {
            let mut lent = lent.clone();
            change(&mut lent);
            for space in if applies(15) { [0, length - 1] } else { [length, SPACE] } {
                let number = lent.path(space).0;
                assert_eq!(number, expected, "set {set:05b}, {space} bytes");
            }
        };
        if !applies(21) {
            path(&lent, &|_| {});
            continue;
        }
        path(&lent, &|lent| lent.record.iterations = 60_001);
        path(&lent, &|lent| lent.record.merge = 2);
        path(&lent, &|lent| lent.record.stop = 9);
        path(&lent, &|lent| lent.record.order = u32::MAX);
        path(&lent, &|lent| lent.record.edge = 7);
        path(&lent, &|lent| lent.table[4] = 0);
        if !applies(24) {
            path(&lent, &|lent| lent.record.verdict = 4);
        }
    }
}

#[test]
fn a_path_takes_just_its_words() {
    let mut lent = case_a();
    lent.table.truncate(47);
    assert_eq!(lent.path(SPACE).0, 14);
    lent.table.push(0);
    assert_eq!(lent.path(SPACE).0, 0);
    lent.list.pop();
    assert_eq!(lent.path(SPACE).0, 14);
    // What a slot of its state alone would take.
    lent.list.push(0);
    lent.table.truncate(32);
    assert_eq!((lent.path(SPACE).0, lent.listing(SPACE).0, lent.run(1)), (14, 14, 14));
}

#[test]
fn without_an_alarm_there_is_no_path() {
    let none = begun(files::case_a(), SEP, 8);
    let full = begun(files::case_a(), SEP, 6);
    let open = Lent::underway();
    let verdicts = [&none, &full, &open].map(|lent| lent.record.verdict);
    assert_eq!(verdicts, [SAFE, FULL, OPEN]);
    for lent in [none, full, open] {
        for space in [0, 10, SPACE] {
            assert_eq!(lent.path(space), (24, Vec::new()), "{:?}, {space}", lent.record);
        }
    }
    // In form without a slot in use.
    let mut empty = Lent::underway();
    empty.table.fill(0);
    empty.list.fill(0);
    (empty.record.used, empty.record.waiting, empty.record.verdict) = (0, 0, SAFE);
    assert_eq!((empty.path(SPACE).0, empty.listing(SPACE).0), (24, 0));
}

/// What 21 says of the words that brought a slot, in every call that looks at them.
#[test]
fn origins_out_of_form() {
    let alarm = case_a();
    let judge = |slot: usize, parent: i32, edge: i32| {
        let mut lent = alarm.clone();
        lent.table[6 * slot + 4..][..2].copy_from_slice(&[parent, edge]);
        let numbers = [lent.path(SPACE).0, lent.listing(SPACE).0];
        assert_eq!(lent.run(0), if numbers[0] == 21 { 21 } else { 22 });
        assert_eq!(numbers[0], numbers[1], "slot {slot} from {parent} by edge {edge}");
        assert_eq!(lent.begin(SEP, 8, 100), 0, "a begin looks at none of it");
        numbers[0]
    };
    // From, to and the slots at either end: top, left, right, meet and sum are slots 0 to 4.
    let edges = [(0, 1), (0, 2), (1, 3), (2, 3), (3, 4), (4, 5)];
    let words = (-2..9).chain([65_534, 65_535, 65_536, i32::MIN, i32::MAX]);
    for slot in 0..5 {
        for parent in words.clone() {
            for edge in words.clone() {
                let is_in_form = match slot {
                    0 => (parent, edge) == (65_535, 0),
                    _ => {
                        let joined = (1..=6).contains(&edge).then(|| edges[edge as usize - 1]);
                        (0..slot).contains(&parent) && joined == Some((parent, slot))
                    }
                };
                let number = judge(slot as usize, parent, edge);
                let expected = if is_in_form { 0 } else { 21 };
                assert_eq!(number, expected, "slot {slot} from {parent} by edge {edge}");
            }
        }
    }
}

/// Words beyond the slots in use are 0, those of an origin too; a slot of zero words is brought by nothing.
#[test]
fn a_zero_slot_is_not_in_use() {
    let mut lent = case_a();
    lent.record.used = 6;
    assert_eq!((lent.path(SPACE).0, lent.listing(SPACE).0, lent.run(1)), (21, 21, 21));
    lent.record.used = 5;
    for place in 30..48 {
        lent.table[place] = 1;
        assert_eq!(lent.path(SPACE).0, 21, "word {place}");
        lent.table[place] = 0;
    }
    assert_eq!(lent.path(SPACE).0, 0);
}

/// Self-loops: an own slot or a later one is no parent, though the edge joins the locations.
#[test]
fn a_parent_stands_below_its_slot() {
    let lent = begun(&file("V x 0 4 0\nL only o\nE 0 0 add $0 $0 1"), SEP, 8);
    assert_eq!((lent.record.verdict, lent.record.used), (ALARM, 5));
    for slot in 1..5 {
        for parent in -1..8 {
            let mut changed = lent.clone();
            changed.table[4 * slot + 2] = parent;
            let expected = if (0..slot as i32).contains(&parent) { 0 } else { 21 };
            assert_eq!(changed.path(SPACE).0, expected, "slot {slot} from {parent}");
        }
    }
}

/// Words in form that no begin leaves: the slot at the place taken next decides, whatever raised the alarm.
#[test]
fn the_slot_taken_next_ends_the_path() {
    let chart = file("L a o\nL b o\nL c o\nE 0 1 skip\nE 1 2 skip\nE 0 2 skip\nE 2 1 skip");
    let mut lent = begun(&chart, SEP, 5);
    #[rustfmt::skip]
    lent.table.copy_from_slice(&[
        0, 65_535, 0,
        1, 0, 1,
        2, 0, 3,
        1, 2, 4,
        2, 3, 2,
    ]);
    lent.list.copy_from_slice(&[1, 0, 4, 0, 0]);
    lent.record = Record { used: 5, waiting: 3, verdict: ALARM, edge: 3, ..lent.record };
    assert_eq!(lent.path(SPACE), (0, text(&["path sep 3", "0 0 a w", "1 1 b w"])));
    lent.record.order = 1;
    let newest = text(&["path sep 3", "0 0 a w", "3 2 c -", "4 3 b -", "2 4 c w"]);
    assert_eq!(lent.path(SPACE), (0, newest));
    // Slot 0 at an error location or not, alone on the way.
    lent.list.copy_from_slice(&[1, 4, 0, 0, 0]);
    lent.record.edge = 0;
    assert_eq!(lent.path(SPACE), (0, text(&["path sep 0", "0 0 a w"])));
}

#[test]
fn an_error_location_at_the_start() {
    let chart = file("V x 0 9 4\nL only e\nE 0 0 add $0 $0 1");
    for settings in [SEP, JOIN, Settings { merge: 1, stop: 1, order: 1 }] {
        let lent = begun(&chart, settings, 3);
        let merge = ["sep", "join"][settings.merge as usize];
        let expected = text(&[&format!("path {merge} 0"), "0 0 only 4 w"]);
        assert_eq!(lent.path(SPACE), (0, expected));
    }
}

/// A join into a slot changes its state alone: by another edge of its parent while it waits, by another
/// slot, or by itself when it is taken.
#[test]
fn a_join_keeps_what_brought_the_slot() {
    for (from, to, order) in [(0, 1, 0), (0, 1, 1), (2, 1, 1), (1, 1, 0)] {
        let chart = file(&format!(
            "V x 0 9 0\nL a o\nL b o\nL c o\nL bad e
             E 0 1 set $0 1\nE 0 2 set $0 2\nE {from} {to} set $0 3\nE 1 3 if $0 eq 7"
        ));
        let lent = begun(&chart, Settings { order, ..JOIN }, 4);
        assert_eq!((lent.record.verdict, lent.record.edge), (ALARM, 4), "from {from}");
        assert_eq!(lent.table[4..8], [1, ANY, 0, 1], "from {from}");
        let expected = text(&["path join 4", "0 0 a 0 -", "1 1 b * w"]);
        assert_eq!(lent.path(SPACE), (0, expected), "from {from}");
    }
}

/// The longest path there is.
#[test]
fn all_256_slots() {
    let chart = file("V x 0 255 0\nL loop o\nE 0 0 add $0 $0 1");
    for order in [0, 1] {
        let lent = begun(&chart, Settings { order, ..SEP }, 256);
        assert_eq!((lent.record.verdict, lent.record.used), (ALARM, 256));
        let mut expected = String::from("path\tsep\t1\n");
        for slot in 0..256 {
            let (edge, waiting) = (u8::from(slot > 0), if slot == 255 { 'w' } else { '-' });
            expected += &format!("{edge}\t{slot}\tloop\t{slot}\t{waiting}\n");
        }
        assert_eq!(lent.path(expected.len()), (0, expected.into_bytes()));
    }
}

/// Every line as long as it may be: the bytes that the header promises to be enough.
#[test]
fn the_longest_path_fits() {
    let mut lines = String::new();
    for index in 0..8 {
        lines += &format!("V v{index} -32768 -10000 -10000\n");
    }
    lines += "L sixteen-letters1 o\n";
    // The last of all edges counts, so that its number is the longest too.
    lines += &"E 0 0 if $0 gt 0\n".repeat(255);
    lines += "E 0 0 sub $7 $7 1";
    let mut lent = begun(&file(&lines), SEP, 256);
    assert_eq!((lent.record.verdict, lent.record.used), (FULL, 256));
    (lent.record.verdict, lent.record.edge) = (ALARM, 256);
    let mut expected = String::from("path\tsep\t256\n");
    for slot in 0..256 {
        let (edge, waiting) = (if slot > 0 { 256 } else { 0 }, if slot == 255 { 'w' } else { '-' });
        let values = "\t-10000".repeat(7) + &format!("\t{}", -10_000 - slot);
        expected += &format!("{edge}\t{slot}\tsixteen-letters1{values}\t{waiting}\n");
    }
    assert!(expected.len() > 20_000 && expected.len() < SPACE);
    assert_eq!(lent.path(SPACE), (0, expected.into_bytes()));
}

/// By the texts and the chart alone, of what random charts come to.
#[test]
fn every_path_is_a_way_through_the_chart() {
    let mut random = Random::new(seed() ^ 3);
    let (mut of_one, mut of_more) = (0, 0);
    for _ in 0..count_at_least(10_000) {
        let (chart, settings, capacity) = inputs::analysis(&mut random);
        let lent = begun(&render(&chart), Settings::from(settings), capacity as usize);
        let (number, path) = lent.path(SPACE);
        if lent.record.verdict != ALARM {
            assert_eq!(number, 24);
            continue;
        }
        assert_eq!(number, 0);
        let (_, listing) = lent.listing(SPACE);
        let chart = held_chart(&lent.chart).expect("the chart is as it was read");
        if let Err(wrong) = check_way(&chart, &listing, &path) {
            panic!(
                "{wrong}: {}",
                String::from_utf8_lossy(&[path, listing, render(&chart)].concat())
            );
        }
        let lines = path.iter().filter(|&&byte| byte == b'\n').count();
        *(if lines == 2 { &mut of_one } else { &mut of_more }) += 1;
    }
    println!("{of_one} paths of one slot, {of_more} longer ones");
    assert!(of_one >= FEWEST && of_more >= FEWEST);
}
