//! The walk program against the reference walker, byte for byte, its listing and its path: the worked
//! cases, the examples, random inputs, inputs in pieces and inputs of every size.

mod compare;

use compare::{assert_prints, each_at_once};
use program::{longest, longest_path, output, output_of_pieces};
use reference::coverage::{
    corner_labels, corner_labels_of, path_labels, program_label, program_labels, Met,
};
use reference::listing::Report;
use reference::paths::{alarm_corners, alarm_corners_of};
use reference::program::{printed, respond, walk};
use reference::random::{count_at_least, inputs, seed, Random};
use reference::worked::{cases, example_paths, examples, Worked};

const INPUTS: usize = 4_000;
/// Of each verdict and refusal, so that another seed finds it too.
const FEWEST: usize = 5;
const PIECED_INPUTS: usize = 150;
/// What to start the program with, and what it then prints.
const REPORTS: [(&[&str], Report); 2] = [(&[], Report::Listing), (&["path"], Report::Path)];

fn assert_prints_each(all: &[Worked]) {
    for worked in all {
        let printed = output(&worked.arguments, &worked.input);
        assert_prints(&worked.name, &printed, &worked.input, &worked.output);
    }
}

/// The listing and the path.
fn assert_alike(name: &str, input: &[u8]) {
    for (arguments, report) in REPORTS {
        assert_prints(name, &output(arguments, input), input, &respond(report, input));
    }
}

#[test]
fn every_case_prints_what_is_expected() {
    assert_prints_each(&cases());
}

#[test]
fn every_example_prints_what_is_expected() {
    assert_prints_each(&examples());
    assert_prints_each(&example_paths());
}

#[test]
fn random_inputs_print_alike() {
    let mut random = Random::new(seed());
    let all: Vec<Vec<u8>> =
        (0..count_at_least(INPUTS)).map(|_| inputs::program_input(&mut random)).collect();
    let (mut met, mut corners) = (Met::new(), Met::new());
    let (mut met_by_path, mut paths) = (Met::new(), Met::new());
    for walked in all.iter().map(|input| walk(input)) {
        met.add(program_label(&printed(Report::Listing, &walked)));
        met_by_path.add(program_label(&printed(Report::Path, &walked)));
        if let Ok((chart, analysis)) = walked {
            corners.add_all(corner_labels_of(&analysis));
            paths.add_all(alarm_corners_of(&chart, &analysis));
        }
    }
    met.assert_exactly(&program_labels(), FEWEST);
    corners.assert_exactly(&corner_labels(), FEWEST);
    met_by_path.assert_exactly(&path_labels(), FEWEST);
    paths.assert_exactly(&alarm_corners(), FEWEST);

    each_at_once(&all, |place, input| assert_alike(&format!("random-{place}"), input));
}

/// A pipe may hand over any part of an input at a time; the program must read on to its end.
#[test]
fn inputs_in_pieces_print_alike() {
    let mut random = Random::new(seed() ^ 1);
    for place in 0..PIECED_INPUTS {
        let input = inputs::program_input(&mut random);
        let mut cuts: Vec<usize> =
            (0..random.below(6)).map(|_| random.below(input.len() + 1)).collect();
        cuts.extend([0, input.len()]);
        cuts.sort();
        let pieces: Vec<&[u8]> = cuts.windows(2).map(|cut| &input[cut[0]..cut[1]]).collect();
        for (arguments, report) in REPORTS {
            let printed = output_of_pieces(arguments, &pieces);
            assert_prints(&format!("pieces-{place}"), &printed, &input, &respond(report, &input));
        }
    }
    for example in examples().into_iter().chain(example_paths()) {
        let bytes: Vec<&[u8]> = example.input.chunks(1).collect();
        let printed = output_of_pieces(&example.arguments, &bytes);
        assert_prints(&example.name, &printed, &example.input, &example.output);
    }
}

/// Around the sizes at which a go line, a chart, a pipe or a page ends, and far beyond.
#[test]
fn inputs_of_every_size_print_alike() {
    const GO_LINE: &[u8] = b"go\tjoin\tjoin\tnew\t256\t60000\n";
    let chart: &[u8] = b"V\tx\t0\t9\t*\nL\ta\to\nL\tb\te\nE\t0\t1\tif\t$0\teq\t5\n";
    let around = |size: usize| size - 3..=size + 3;
    let sizes = (0..=70).chain(around(4_096)).chain(around(32_768)).chain(around(65_536)).chain([
        100_000,
        1 << 20,
        3 << 20,
    ]);
    for size in sizes {
        for (name, filler) in [("lf", b"\n"), ("digit", b"1"), ("tab", b"\t"), ("nul", b"\0")] {
            let mut input = [GO_LINE, chart].concat();
            if size > input.len() - GO_LINE.len() {
                input.resize(GO_LINE.len() + size, filler[0]);
            } else {
                input.truncate(size);
            }
            assert_alike(&format!("size-{size}-{name}"), &input);
        }
    }
}

#[test]
fn the_longest_texts_print_alike() {
    assert_alike("longest-listing", &longest());
    assert!(respond(Report::Listing, &longest()).len() > 20_000);
    assert_alike("longest-path", &longest_path());
    assert!(respond(Report::Path, &longest_path()).len() > 21_000);
}
