//! The form of the walk and of the chart held: 21 and 20 in the stated cases and no other.

use reference::analysis::{Stop, Verdict};
use reference::domain::TOP;
use reference::memory::{Memory, JUNK};

use crate::common::{chart, settings, CASE_A};
use crate::support::{begun, case_a_underway, listing_answer, refused, DONE, SPACE};

type Disturb = fn(&mut Memory);

/// Where a word of a slot of case A stands: its location, three values, its parent and its edge.
const fn at(slot: usize, word: usize) -> usize {
    6 * slot + word
}

#[test]
fn form_21() {
    let out_of_form: [(&str, Disturb); 38] = [
        ("used above capacity", |m| {
            m.record.used = 9;
            m.table.truncate(at(8, 0));
            m.table.extend([3, 0, 1, TOP, 2, 4]);
        }),
        ("used far above capacity", |m| m.record.used = u32::MAX),
        ("waiting above used", |m| m.record.waiting = 6),
        ("waiting far above used", |m| m.record.waiting = u32::MAX),
        ("location below 0", |m| m.table[at(1, 0)] = -1),
        ("location past the last", |m| m.table[at(1, 0)] = 6),
        ("location unspecific", |m| m.table[0] = TOP),
        ("location of the last slot in use", |m| m.table[at(4, 0)] = 6),
        ("value below its range", |m| m.table[at(0, 1)] = -1),
        ("value above its range", |m| m.table[at(0, 2)] = 2),
        ("value above another range", |m| m.table[at(0, 3)] = 10),
        ("value past unspecific", |m| m.table[at(4, 3)] = TOP + 1),
        ("value that is the least word", |m| m.table[at(4, 3)] = i32::MIN),
        ("waiting slot not in use", |m| m.waitlist[0] = 5),
        ("waiting slot past the capacity", |m| m.waitlist[1] = 8),
        ("waiting slot below 0", |m| m.waitlist[0] = -1),
        ("waiting slot named twice", |m| m.waitlist[0] = 4),
        ("a slot in use no longer counted", |m| m.record.used = 4),
        ("last slot in use not counted, nor waiting", |m| {
            m.record.used = 4;
            m.record.waiting = 1;
            m.waitlist[1] = 0;
        }),
        ("waiting slot no longer counted", |m| m.record.waiting = 1),
        // Nothing brings a slot of zero words: its edge is none.
        ("a zero slot counted in", |m| m.record.used = 6),
        ("all slots counted in", |m| m.record.used = 8),
        ("first unused table word", |m| m.table[at(5, 0)] = 1),
        ("last unused table word", |m| m.table[at(7, 5)] = -1),
        ("first unused list word", |m| m.waitlist[2] = 1),
        ("last unused list word", |m| m.waitlist[7] = 2),
        ("iterations above 60,000", |m| m.record.iterations = 60_001),
        ("edge above the last", |m| {
            m.record.verdict = Verdict::Alarm;
            m.record.edge = 7;
        }),
        ("edge with open", |m| m.record.edge = 1),
        ("edge with room", |m| {
            m.record.verdict = Verdict::Full;
            m.record.edge = 6;
        }),
        ("edge with safe", |m| {
            no_list(m, Verdict::Safe);
            m.record.edge = 6;
        }),
        ("capacity 0", |m| m.record.capacity = 0),
        ("settings that 12 refuses", |m| m.record.settings.stop = Stop::Join),
        ("safe with a list", |m| m.record.verdict = Verdict::Safe),
        ("open without a list", |m| no_list(m, Verdict::Open)),
        ("alarm without a list", |m| no_list(m, Verdict::Alarm)),
        ("room without a list", |m| no_list(m, Verdict::Full)),
        ("capacity that 11 refuses", |m| {
            m.record.capacity = 257;
            m.table.resize(257 * 6, 0);
            m.table[at(8, 0)..at(9, 0)].fill(0);
            m.waitlist.resize(257, 0);
            m.waitlist[8..11].fill(0);
        }),
    ];
    for (clause, disturb) in out_of_form {
        let mut memory = case_a_underway();
        disturb(&mut memory);
        assert_out_of_form(&mut memory, clause);
    }
}

fn assert_out_of_form(memory: &mut Memory, clause: &str) {
    assert_eq!(memory.run(1), refused(21), "{clause}");
    assert_eq!(memory.run(0), refused(21), "{clause}");
    assert_eq!(listing_answer(memory), refused(21), "{clause}");
    assert_eq!(memory.path(SPACE).0, refused(21), "{clause}");
    assert_begins_anew(memory, clause);
}

/// Of a slot that no other is brought by, the location alone.
#[test]
fn a_location_not_of_the_chart() {
    for location in [-1, 6, TOP, i32::MIN] {
        let mut memory = begun(&chart(CASE_A), "sep sep old", 8);
        memory.table[0] = location;
        assert_out_of_form(&mut memory, &format!("location {location}"));
    }
}

/// Each word that says what brought a slot, in slot 0 and after it.
#[test]
fn origins_out_of_form() {
    let origin_of = |slot: usize, parent: i32, edge: i32| {
        let mut memory = case_a_underway();
        memory.table[at(slot, 4)..at(slot, 6)].copy_from_slice(&[parent, edge]);
        (memory, format!("slot {slot} from {parent} by edge {edge}"))
    };
    for (slot, parent, edge) in [
        (0, 0, 0),
        (0, 65_534, 0),
        (0, 65_536, 0),
        (0, -1, 0),
        (0, 65_535, 1),
        (0, 65_535, -1),
        (0, 0, 1),
        // As slot 0 has it.
        (1, 65_535, 0),
        (1, 65_535, 1),
        (1, -1, 1),
        (1, i32::MIN, 1),
        (1, i32::MAX, 1),
        (1, 0, 0),
        (1, 0, -1),
        (1, 0, 7),
        (1, 0, i32::MIN),
        (1, 0, i32::MAX),
        // From left to meet, but the parent is at right, or at meet.
        (3, 2, 3),
        (4, 3, 3),
        // From its parent's location, but to another than its own.
        (3, 0, 1),
        (2, 0, 1),
        (3, 2, 2),
        // Slots 5 and 9 are not in use.
        (4, 5, 4),
        (4, 9, 4),
    ] {
        let (mut memory, clause) = origin_of(slot, parent, edge);
        assert_out_of_form(&mut memory, &clause);
    }
}

/// A parent of the same location, which its edge joins, must still be an earlier slot.
#[test]
fn a_parent_stands_below_its_slot() {
    let mut underway = begun(&chart("V x 0 9 0\nL only o\nE 0 0 add $0 $0 1"), "sep sep new", 8);
    assert_eq!(underway.run(4), DONE);
    assert_eq!(underway.record.used, 5);
    for slot in 1..5 {
        for parent in -2..8 {
            let mut memory = underway.clone();
            memory.table[4 * slot + 2] = parent;
            if (0..slot as i32).contains(&parent) {
                assert_eq!(listing_answer(&memory), DONE, "slot {slot} from {parent}");
                assert_eq!(memory.run(0), DONE, "slot {slot} from {parent}");
            } else {
                assert_out_of_form(&mut memory, &format!("slot {slot} from {parent}"));
            }
        }
    }
}

/// Whatever is held, a begin goes through; `Memory` checks that it comes to the same as over junk.
fn assert_begins_anew(memory: &Memory, case: &str) {
    for budget in [0, 2, 60_000] {
        let answer = memory.clone().begin(settings("join sep new"), 8, budget);
        assert_eq!(answer, DONE, "{case}, budget {budget}");
    }
}

/// Slot 4 at `sum`, which brought slot 5 at `bad`.
fn error_location(memory: &mut Memory) {
    memory.table[at(4, 0)..at(6, 0)].copy_from_slice(&[4, 1, 0, 1, 3, 5, 5, 1, 0, 1, 4, 6]);
    memory.record.used = 6;
}

fn no_list(memory: &mut Memory, verdict: Verdict) {
    memory.record.verdict = verdict;
    memory.record.waiting = 0;
    memory.waitlist[..2].fill(0);
}

/// 21 is given in the stated cases and no other.
#[test]
fn form_21_leaves_unusual_walks_alone() {
    let in_form: [(&str, u32, Disturb); 16] = [
        ("no slot in use", 22, |m| {
            no_list(m, Verdict::Safe);
            m.record.used = 0;
            m.table[..at(5, 0)].fill(0);
        }),
        ("several slots of a location with join", 0, |m| {
            m.record.settings = settings("join join new")
        }),
        ("a waiting slot at an error location", 0, |m| {
            error_location(m);
            m.waitlist[1] = 5;
        }),
        ("an error location, not waiting", 0, error_location),
        ("an alarm without an edge", 22, |m| m.record.verdict = Verdict::Alarm),
        ("an alarm edge that leads elsewhere", 22, |m| {
            m.record.verdict = Verdict::Alarm;
            m.record.edge = 1;
        }),
        ("room with slots left", 22, |m| m.record.verdict = Verdict::Full),
        ("two equal slots", 0, |m| m.table.copy_within(at(3, 0)..at(4, 0), at(4, 0))),
        ("another slot and edge that join the locations", 0, |m| {
            m.table[at(4, 4)..at(5, 0)].copy_from_slice(&[1, 3]);
        }),
        ("values that no edge brings", 0, |m| m.table[at(1, 1)..at(1, 3)].fill(1)),
        ("a start elsewhere", 0, |m| {
            m.table[at(1, 0)..].fill(0);
            m.table[0] = 3;
            m.record.used = 1;
            m.record.waiting = 1;
            m.waitlist[..2].fill(0);
        }),
        ("a list in another order", 0, |m| m.waitlist.swap(0, 1)),
        ("any other slot in use waiting", 0, |m| m.waitlist[0] = 0),
        ("iterations at 0", 0, |m| m.record.iterations = 0),
        ("other words past the capacity", 0, |m| {
            m.table[at(8, 0)..].fill(5);
            m.waitlist[8..].fill(5);
        }),
        ("safe", 22, |m| no_list(m, Verdict::Safe)),
    ];
    for (case, number, disturb) in in_form {
        let mut memory = case_a_underway();
        disturb(&mut memory);
        assert_eq!(listing_answer(&memory), DONE, "{case}");
        assert_begins_anew(&memory, case);
        assert_eq!(memory.run(100), refused(number), "{case}");
        assert_eq!(listing_answer(&memory), DONE, "{case}, after its run");
    }
}

/// Words after the encoded chart are not looked at; any change in it is seen.
#[test]
fn the_chart_held() {
    let underway = case_a_underway();
    let mut memory = underway.clone();
    memory.chart.extend([JUNK, 0, 7]);
    assert_eq!(memory.clone().run(1), DONE);
    memory.chart.clear();
    assert_eq!(listing_answer(&memory), refused(20));
    for length in 0..underway.chart.len() {
        let mut memory = underway.clone();
        memory.chart.truncate(length.max(1));
        assert_eq!(memory.run(1), refused(20), "{length} words");
    }
    let settings = underway.record.settings;
    let names = 3 + 3 * 3;
    #[rustfmt::skip]
    let out_of_form = [
        (0, 9), (0, -1), (1, 0), (1, 65), (2, 257), (2, i32::MAX),
        (3, -32_769), (3, 2), (4, -1), (4, 32_768), (5, 2), (5, -1), (5, 32_769),
        (names, 2), (names, -1), (names + 1, 0), (names + 1, 95), (names + 1, 256 + 116),
        (names + 1, 10), (names + 1, 9), (names + 1, -1), (names + 5, 45),
        (names + 2, 0),
    ];
    for (place, word) in out_of_form {
        let mut memory = underway.clone();
        memory.chart[place] = word;
        assert_eq!(memory.begin(settings, 8, 0), refused(20), "word {place} = {word}");
        assert_eq!(listing_answer(&memory), refused(20), "word {place} = {word}");
    }
}
