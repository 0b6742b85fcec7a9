//! `walk search` against the reference walker, byte for byte, and against `walk` itself where that is exact.

mod compare;

use compare::{assert_prints, each_at_once};
use program::{output, output_of_pieces};
use reference::coverage::{program_label, search_labels, Met};
use reference::program::asked;
use reference::random::searches::{known_chart, program_input, ODD_BOUNDS};
use reference::random::{count_at_least, seed, Random};
use reference::reader;
use reference::renderer::render;
use reference::search::{check_bound, MAX_BOUND};
use reference::searches::{found_corners, found_corners_of};
use reference::text;
use reference::way::{check_exact, check_run, Exact};
use reference::worked::examples;

const INPUTS: usize = 4_000;
const KNOWN_CHARTS: usize = 1_000;
const PIECED_INPUTS: usize = 100;
/// Of each outcome and corner, so that another seed finds it too.
const FEWEST: usize = 5;

fn expected(bound: &str, input: &[u8]) -> Vec<u8> {
    asked(&["search", bound]).expect("it asks for a search").respond(input)
}

fn assert_alike(name: &str, bound: &str, input: &[u8]) {
    let printed = output(&["search", bound], input);
    let name =
        format!("{name}, search {}", &bound[..bound.len().min(20)]).replace(['\n', '\t'], "?");
    assert_prints(&name, &printed, input, &expected(bound, input));
}

#[test]
fn random_searches_print_alike() {
    let mut random = Random::new(seed());
    let all: Vec<(String, Vec<u8>)> =
        (0..count_at_least(INPUTS)).map(|_| program_input(&mut random)).collect();
    let (mut met, mut corners) = (Met::new(), Met::new());
    for (bound, file) in &all {
        met.add(program_label(&expected(bound, file)));
        let bound = text::number(bound.as_bytes()).and_then(|bound| check_bound(bound).ok());
        if let (Some(bound), Ok(chart)) = (bound, reader::read(file)) {
            corners.add_all(found_corners_of(&chart, bound));
        }
    }
    met.assert_exactly(&search_labels(), FEWEST);
    corners.assert_exactly(&found_corners(), FEWEST);

    each_at_once(&all, |place, (bound, file)| {
        assert_alike(&format!("random-{place}"), bound, file);
    });
}

/// Whatever the bound is written as, and whatever is wrong in the chart beside it.
#[test]
fn bounds_of_every_form_print_alike() {
    const CHART: &str = "V\tx\t0\t9\t7\nL\ta\to\nE\t0\t0\tadd\t$0\t$0\t1\n";
    let inputs = ["", CHART, &CHART[1..], &CHART.replace('7', "*"), "V\tx\t0\t4096\t*\nL\ta\to\n"];
    let mut bounds: Vec<String> = (-2..12).map(|bound| bound.to_string()).collect();
    bounds.extend(ODD_BOUNDS.map(String::from));
    for length in [2, 63, 64, 65, 99, 100, 4_095, 4_096, 4_097, 100_000] {
        bounds.extend(["0", "1", "8", "-", " ", "x"].map(|part| part.repeat(length)));
        bounds.push(format!("-{}", "9".repeat(length)));
        bounds.push(format!("{}8", "0".repeat(length)));
        bounds.push(format!("8{}", "x".repeat(length)));
    }
    for bound in &bounds {
        for input in inputs {
            assert_alike("bounds", bound, input.as_bytes());
        }
    }
}

#[test]
fn searches_of_examples_print_alike() {
    for example in examples() {
        for bound in 0..=MAX_BOUND {
            assert_alike(&example.name, &bound.to_string(), example.chart_file());
        }
    }
}

/// A pipe may hand over any part of a chart at a time; the program must read on to its end.
#[test]
fn charts_in_pieces_print_alike() {
    let mut random = Random::new(seed() ^ 1);
    for place in 0..PIECED_INPUTS {
        let (bound, file) = program_input(&mut random);
        let mut cuts: Vec<usize> =
            (0..random.below(6)).map(|_| random.below(file.len() + 1)).collect();
        cuts.extend([0, file.len()]);
        cuts.sort();
        let pieces: Vec<&[u8]> = cuts.windows(2).map(|cut| &file[cut[0]..cut[1]]).collect();
        let printed = output_of_pieces(&["search", &bound], &pieces);
        assert_prints(&format!("pieces-{place}"), &printed, &file, &expected(&bound, &file));
    }
}

/// Around the sizes at which a chart, a pipe or a page ends, and far beyond: no go line comes before the chart.
#[test]
fn charts_of_every_size_print_alike() {
    let chart: &[u8] = b"V\tx\t0\t9\t*\nL\ta\to\nL\tb\te\nE\t0\t1\tif\t$0\teq\t5\n";
    let around = |size: usize| size - 3..=size + 3;
    let sizes = (0..=70)
        .chain(around(4_096))
        .chain(around(32_768))
        .chain(around(32_768 + 64))
        .chain(around(65_536))
        .chain([100_000, 3 << 20]);
    for size in sizes {
        for (name, filler) in [("lf", b"\n"), ("digit", b"1"), ("tab", b"\t"), ("nul", b"\0")] {
            let mut input = chart.to_vec();
            input.resize(size, filler[0]);
            assert_alike(&format!("size-{size}-{name}"), "8", &input);
        }
    }
}

/// Nine states of eight variables, every field as long as it may be, but for the start's edge.
#[test]
fn the_longest_text_prints_alike() {
    let mut input = String::new();
    for index in 0..8 {
        input += &format!("V\tv{index}\t-32768\t-10000\t-10000\n");
    }
    input += "L\tsixteen-letters1\to\nL\tsixteen-letters2\te\n";
    input += &"E\t0\t0\tif\t$0\tgt\t0\n".repeat(254);
    let error = "E\t0\t1\tif\t$7\teq\t-10007\n";
    let count = "E\t0\t0\tsub\t$7\t$7\t1\n";
    input += error;
    input += count;
    assert!(expected("8", input.as_bytes()).len() > 650);
    assert_alike("longest-run", "8", input.as_bytes());
}

/// Of charts without unknown values, `walk` with merge sep is exact: each alarm of at most 8 moves is a run that the
/// search shows, just that way where the oldest is taken first; and where it says safe there is none.
#[test]
fn an_exact_walk_agrees() {
    let mut random = Random::new(seed() ^ 2);
    let all: Vec<Vec<u8>> =
        (0..count_at_least(KNOWN_CHARTS)).map(|_| render(&known_chart(&mut random))).collect();
    let met = std::sync::Mutex::new(Met::new());
    each_at_once(&all, |place, file| {
        let name = format!("known-{place}");
        let bound = MAX_BOUND.to_string();
        let searched = output(&["search", &bound], file);
        assert_prints(&name, &searched, file, &expected(&bound, file));
        if searched.starts_with(b"run\t") {
            let chart = reader::read(file).expect("it is accepted");
            if let Err(wrong) = check_run(&chart, &searched) {
                panic!("{name}: {wrong} in {}", searched.escape_ascii());
            }
        }
        for order in ["old", "new"] {
            let go_line = format!("go\tsep\tsep\t{order}\t256\t60000\n");
            let input = [go_line.as_bytes(), file].concat();
            let none: [&str; 0] = [];
            let (listing, path) = (output(&none, &input), output(&["path"], &input));
            match check_exact(&listing, &path, &searched, MAX_BOUND) {
                // A chart of more states than slots, one of some tens of thousands.
                Ok(Exact::Nothing) => {}
                Ok(exact) => met.lock().expect("nobody has failed").add((exact, order)),
                Err(wrong) => panic!("{name}: {wrong} on {}", input.escape_ascii()),
            }
        }
    });
    let wanted = [Exact::Safe, Exact::Within, Exact::Beyond]
        .into_iter()
        .flat_map(|exact| ["old", "new"].map(|order| (exact, order)));
    let met = met.into_inner().expect("nobody has failed");
    met.assert_exactly(&wanted.collect::<Vec<_>>(), FEWEST);
}
