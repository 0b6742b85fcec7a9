//! Random damage to chart files and go lines, aimed at each refusal in turn.

use super::Random;
use crate::chart::{MAX_EDGES, MAX_LOCATIONS, MAX_VARIABLES};
use crate::reader::MAX_FILE;
use crate::text::{self, LINE_FEED};

/// Fields that are refused somewhere, or wrap around where digits are judged carelessly.
#[rustfmt::skip]
const FIELDS: [&str; 44] = [
    "", "*", "**", "-", "--1", "-0", "0", "00", "07", "-07", "+1", "1x", "0x1", "1", "-1", "63", "64",
    "255", "256", "257", "32767", "32768", "-32768", "-32769", "60000", "60001", "65536", "99999",
    "4294967296", "-4294967296", "18446744073709551616", "$", "$0", "$1", "$7", "$8", "$-1", "$01",
    "$$0", "$4294967296", "$18446744073709551616", "o", "e", "a_b",
];

/// Words of both formats, in right and wrong spelling.
#[rustfmt::skip]
const WORDS: [&str; 26] = [
    "V", "L", "E", "v", "VV", "skip", "set", "add", "sub", "in", "if", "SET", "mul", "eq", "ne", "lt",
    "le", "gt", "ge", "EQ", "go", "sep", "join", "old", "new", "abcdefghijklmnopq",
];

const BAD_CAPACITIES: [&str; 6] = ["0", "257", "-1", "-16", "4294967312", "18446744073709551632"];
const BAD_BUDGETS: [&str; 5] = ["60001", "-1", "99999", "4294967296", "18446744073709551616"];
const BAD_BYTES: [u8; 8] = [0x00, 0x0B, 0x0D, 0x1F, 0x20, 0x7F, 0x80, 0xFF];

/// One to three damages to a chart file.
pub fn chart_file(random: &mut Random, file: &mut Vec<u8>) {
    let times = random.pick(&[1, 1, 1, 1, 2, 3]);
    for _ in 0..times {
        match random.below(20) {
            0 => lengthen(random, file),
            1 => bad_byte(random, file),
            2 => cut(random, file),
            3 => disorder(random, file),
            4 | 5 => field_count(random, file),
            6..=10 => replace_field(random, file),
            11 => too_many(random, file),
            12 => without_locations(random, file),
            13 => repeat_name(random, file),
            14 => dangling_reference(random, file),
            15 => number_out_of_range(random, file),
            16..=18 => several_faults(random, file),
            _ => flip_byte(random, file),
        }
    }
}

/// One or two damages to a go line.
pub fn go_line(random: &mut Random, line: &mut Vec<u8>) {
    let times = random.pick(&[1, 1, 1, 2]);
    for _ in 0..times {
        match random.below(9) {
            0 => {
                // Around the 64 bytes among which the line must end.
                let filler = if random.percent(50) { b'1' } else { random.pick(&BAD_BYTES) };
                let length = 60 + random.below(8);
                let end = line.pop();
                line.resize(length, filler);
                line.extend(end);
            }
            1 => bad_byte(random, line),
            2 => cut(random, line),
            3 => field_count(random, line),
            4 => set_field(line, 0, 4, random.pick(&BAD_CAPACITIES)),
            5 => set_field(line, 0, 5, random.pick(&BAD_BUDGETS)),
            6 => {
                set_field(line, 0, 1, "sep");
                set_field(line, 0, 2, "join");
            }
            _ => replace_field(random, line),
        }
    }
}

/// Often unended, which with a chart after it no go line is.
pub fn go_line_alone(random: &mut Random, line: &mut Vec<u8>) {
    match random.below(4) {
        0 => line.clear(),
        1 => drop(line.pop()),
        2 => line.resize(62 + random.below(4), b'1'),
        _ => {}
    }
}

/// Past the limit, at times by far, or just up to it, with what the file holds or with other lines.
fn lengthen(random: &mut Random, file: &mut Vec<u8>) {
    let filler = match random.below(3) {
        0 => file.clone(),
        1 => vec![LINE_FEED],
        _ => b"1".to_vec(),
    };
    let length = match random.below(8) {
        0 => MAX_FILE + random.below(8 * MAX_FILE),
        _ => MAX_FILE - 1 + random.below(4),
    };
    while file.len() < length && !filler.is_empty() {
        let part = filler.len().min(length - file.len());
        file.extend_from_slice(&filler[..part]);
    }
}

fn bad_byte(random: &mut Random, file: &mut Vec<u8>) {
    let place = random.below(file.len() + 1);
    file.insert(place, random.pick(&BAD_BYTES));
}

/// Mostly the last line feed alone.
fn cut(random: &mut Random, file: &mut Vec<u8>) {
    let length = if random.percent(60) {
        file.len().saturating_sub(1)
    } else {
        random.below(file.len() + 1)
    };
    file.truncate(length);
}

fn disorder(random: &mut Random, file: &mut Vec<u8>) {
    edit_lines(file, |lines| {
        let (from, to) = (random.below(lines.len()), random.below(lines.len()));
        let stray = random.pick(&["", "\t", "\t\t", "X\t1", "go\tsep"]);
        match random.below(4) {
            0 => lines.swap(from, to),
            1 => lines.insert(to, stray.as_bytes().to_vec()),
            2 => lines.insert(to, lines[from].clone()),
            _ => {
                let line = lines.remove(from);
                lines.push(line);
            }
        }
    });
}

fn field_count(random: &mut Random, file: &mut Vec<u8>) {
    edit_fields(random, file, |random, fields| {
        let place = random.below(fields.len());
        match random.below(4) {
            0 => fields[place].clear(),
            1 => fields.push(Vec::new()),
            2 => fields.insert(place, random.pick(&FIELDS).as_bytes().to_vec()),
            _ if fields.len() > 1 => drop(fields.remove(place)),
            _ => {}
        }
    });
}

fn replace_field(random: &mut Random, file: &mut Vec<u8>) {
    edit_fields(random, file, |random, fields| {
        let place = random.below(fields.len());
        let word = if random.percent(75) { random.pick(&FIELDS) } else { random.pick(&WORDS) };
        fields[place] = word.as_bytes().to_vec();
    });
}

/// Faults side by side on a line, which tell in what order they are judged.
fn several_faults(random: &mut Random, file: &mut Vec<u8>) {
    #[rustfmt::skip]
    const FAULTS: [&str; 16] = [
        "-0", "x_y", "07", "$-1", "$", "*", "99999", "-32769", "32768", "$9", "$4294967296", "64",
        "-1", "4294967296", "", "mul",
    ];
    if random.percent(20) {
        repeat_name(random, file);
    }
    edit_fields(random, file, |random, fields| {
        let first = random.below(fields.len());
        for (place, field) in fields.iter_mut().enumerate().skip(first.max(1)) {
            if place == first || random.percent(50) {
                *field = random.pick(&FAULTS).as_bytes().to_vec();
            }
        }
        if random.percent(10) {
            fields.push(b"0".to_vec());
        }
    });
}

/// As many lines of a kind as there may be or one more, which at times has a fault of its own.
fn too_many(random: &mut Random, file: &mut Vec<u8>) {
    let (kind, most, rest, last_rest) = random.pick(&[
        ("V", MAX_VARIABLES, "0\t1\t0", "0\t1\t0"),
        ("V", MAX_VARIABLES, "0\t1\t0", "0\t1"),
        ("L", MAX_LOCATIONS, "o", "e"),
        ("L", MAX_LOCATIONS, "o", "x"),
        ("E", MAX_EDGES, "0\tskip", "0\tskip"),
        ("E", MAX_EDGES, "0\tskip", "x\tskip"),
    ]);
    edit_lines(file, |lines| {
        let is_kind = |line: &Vec<u8>| line.starts_with(kind.as_bytes());
        let held = lines.iter().filter(|line| is_kind(line)).count();
        let place = match lines.iter().rposition(is_kind) {
            Some(last) => last + 1,
            None if kind == "V" => 0,
            None => lines.len(),
        };
        let wanted = most + random.below(2);
        for index in held..wanted {
            let name = if kind == "E" { "0".to_string() } else { format!("extra{index}") };
            let rest = if index == most { last_rest } else { rest };
            lines.insert(place + index - held, format!("{kind}\t{name}\t{rest}").into_bytes());
        }
    });
}

fn without_locations(random: &mut Random, file: &mut Vec<u8>) {
    let keeps_edges = random.percent(30);
    edit_lines(file, |lines| {
        lines.retain(|line| line.starts_with(b"V") || (keeps_edges && line.starts_with(b"E")));
    });
}

/// The name of one line on another of the same kind.
fn repeat_name(random: &mut Random, file: &mut Vec<u8>) {
    let kind = random.pick(b"VL");
    edit_lines(file, |lines| {
        let places: Vec<usize> =
            (0..lines.len()).filter(|&place| lines[place].first() == Some(&kind)).collect();
        if places.is_empty() {
            return;
        }
        let (from, to) = (random.pick(&places), random.pick(&places));
        if from == to {
            lines.insert(to, lines[from].clone());
        } else if let Some(name) = fields_of(&lines[from]).get(1).cloned() {
            let mut fields = fields_of(&lines[to]);
            if fields.len() > 1 {
                fields[1] = name;
                lines[to] = fields.join(&text::TAB);
            }
        }
    });
}

/// A location or variable number that may be of none.
fn dangling_reference(random: &mut Random, file: &mut Vec<u8>) {
    const NUMBERS: [&str; 7] =
        ["7", "8", "40", "64", "32768", "99999999999999999999", "18446744073709551616"];
    edit_some_field(random, file, |random, line, field| {
        let number = random.pick(&NUMBERS);
        match (line[0], field) {
            (b"E", 1 | 2) => Some(format!("{}{number}", random.pick(&["", "", "-"]))),
            (b"E", _) if line[field].starts_with(b"$") => Some(format!("${number}")),
            _ => None,
        }
    });
}

/// A number outside all numbers, or outside its variable's range.
fn number_out_of_range(random: &mut Random, file: &mut Vec<u8>) {
    const NUMBERS: [&str; 7] =
        ["32768", "-32769", "32767", "-32768", "65536", "-4294967296", "18446744073709551616"];
    edit_some_field(random, file, |random, line, field| {
        let is_number = text::number(line[field]).is_some();
        let is_location = line[0] == b"E" && field <= 2;
        (is_number && !is_location && field > 1).then(|| random.pick(&NUMBERS).to_string())
    });
}

/// Gives a field its new text, one of those for which `edit` has any.
fn edit_some_field(
    random: &mut Random,
    file: &mut Vec<u8>,
    edit: impl Fn(&mut Random, &[&[u8]], usize) -> Option<String>,
) {
    let mut edits = Vec::new();
    for (number, line) in text::lines(file).enumerate() {
        let fields: Vec<&[u8]> = text::fields(line).collect();
        for field in 0..fields.len() {
            if let Some(word) = edit(random, &fields, field) {
                edits.push((number, field, word));
            }
        }
    }
    if !edits.is_empty() {
        let (line, field, word) = edits.swap_remove(random.below(edits.len()));
        set_field(file, line, field, &word);
    }
}

fn flip_byte(random: &mut Random, file: &mut [u8]) {
    if !file.is_empty() {
        let place = random.below(file.len());
        file[place] = if random.percent(80) {
            random.pick(b"\t\n0123456789-*$VLEoeabX_")
        } else {
            random.below(256) as u8
        };
    }
}

fn set_field(file: &mut Vec<u8>, line: usize, field: usize, word: &str) {
    edit_lines(file, |lines| {
        let mut fields = fields_of(&lines[line]);
        if let Some(field) = fields.get_mut(field) {
            *field = word.as_bytes().to_vec();
            lines[line] = fields.join(&text::TAB);
        }
    });
}

fn edit_fields(
    random: &mut Random,
    file: &mut Vec<u8>,
    edit: impl FnOnce(&mut Random, &mut Vec<Vec<u8>>),
) {
    edit_lines(file, |lines| {
        let line = random.below(lines.len());
        let mut fields = fields_of(&lines[line]);
        edit(random, &mut fields);
        lines[line] = fields.join(&text::TAB);
    });
}

fn fields_of(line: &[u8]) -> Vec<Vec<u8>> {
    text::fields(line).map(<[u8]>::to_vec).collect()
}

/// Edits the lines, of which there is at least one; a last line feed stays as it is.
fn edit_lines(file: &mut Vec<u8>, edit: impl FnOnce(&mut Vec<Vec<u8>>)) {
    let is_ended = file.ends_with(&[LINE_FEED]);
    let mut lines: Vec<Vec<u8>> = text::lines(file).map(<[u8]>::to_vec).collect();
    if lines.is_empty() {
        return;
    }
    edit(&mut lines);
    let is_empty = lines.is_empty();
    *file = lines.join(&LINE_FEED);
    if is_ended && !is_empty {
        file.push(LINE_FEED);
    }
}
