//! The worked cases and the examples: each input fed to the walk program, byte for byte.

use std::fs;
use std::path::Path;

use reference::explorer::Explorer;
use reference::program::asked;
use reference::reader;
use reference::worked::{cases, example_paths, examples, Worked};

#[test]
fn every_case_prints_what_is_expected() {
    assert_prints(&cases());
}

#[test]
fn every_example_prints_what_is_expected() {
    assert_prints(&examples());
}

/// Each that raises an alarm has a path beside it, and no other.
#[test]
fn every_path_of_an_example_is_what_is_expected() {
    let names = |all: &[Worked]| all.iter().map(|each| each.name.clone()).collect::<Vec<_>>();
    let mut alarms = examples();
    alarms.retain(|example| verdict(example) == "alarm");
    assert_eq!(names(&example_paths()), names(&alarms));
    assert_prints(&example_paths());
}

/// Each has its search beside it, of at most 8 moves; `program/tests/search.rs` holds the program to the walker there.
#[test]
fn every_search_of_an_example_is_what_is_expected() {
    let search = |example: Worked| {
        let path = format!("../examples/{}.search", example.name);
        Worked {
            arguments: ["search", "8"].map(String::from).to_vec(),
            input: example.chart_file().to_vec(),
            output: fs::read(Path::new(env!("CARGO_MANIFEST_DIR")).join(path))
                .expect("each example has a search"),
            ..example
        }
    };
    assert_prints(&examples().into_iter().map(search).collect::<Vec<_>>());
}

fn assert_prints(all: &[Worked]) {
    let prints = |worked: &Worked| {
        let asked = asked(&worked.arguments).expect("the arguments ask for something");
        asked.respond(&worked.input) == worked.output
    };
    let differing: Vec<&str> =
        all.iter().filter(|worked| !prints(worked)).map(|worked| worked.name.as_str()).collect();
    assert!(differing.is_empty(), "{} differ: {differing:#?}", differing.len());
}

/// What `examples/README.md` says of each: the verdict, and whether a run does stand at a bad
/// location or overruns, which is found out by going through all concrete states.
#[test]
fn every_example_means_what_its_description_says() {
    const DESCRIBED: [(&str, &str, bool); 15] = [
        ("axis", "alarm", true),
        ("axis-join", "alarm", false),
        ("axis-mended", "safe", false),
        ("feeder-pitch", "safe", false),
        ("feeder-pitch-open", "open", false),
        ("gripper", "safe", false),
        ("head-nozzle", "alarm", true),
        ("head-nozzle-mended", "safe", false),
        ("nozzle", "alarm", true),
        ("nozzle-mended", "safe", false),
        ("tape-advance", "safe", false),
        ("tape-count", "room", false),
        ("tape-count-join", "alarm", false),
        ("two-lanes", "safe", false),
        ("two-lanes-join", "alarm", false),
    ];
    let described: Vec<(String, String, bool)> = DESCRIBED
        .map(|(name, verdict, is_wrong)| (name.to_string(), verdict.to_string(), is_wrong))
        .to_vec();
    assert_eq!(examples().iter().map(found).collect::<Vec<_>>(), described);
}

fn found(example: &Worked) -> (String, String, bool) {
    let chart = reader::read(example.chart_file()).expect("an example is accepted");
    let explorer = Explorer::new(&chart, 200_000).expect("an example has few states");
    let is_wrong = explorer.reaches_error() || explorer.overruns();
    (example.name.clone(), verdict(example), is_wrong)
}

/// As its listing has it.
fn verdict(example: &Worked) -> String {
    String::from_utf8_lossy(&example.output).split('\t').nth(4).unwrap_or_default().to_string()
}
