//! Random charts, checked against their concrete states: what is called safe
//! has no run to an error location and none that overruns, and every run is covered
//! as far as the analysis has come.

use reference::analysis::{Analysis, Settings, Verdict};
use reference::chart::Chart;
use reference::coverage::{
    analysis_label, analysis_labels, corner_labels, corner_labels_of, program_label,
    program_labels, Met,
};
use reference::explorer::Explorer;
use reference::listing::Report;
use reference::program::respond;
use reference::random::charts::small;
use reference::random::{count, count_at_least, inputs, permitted_settings, seed, Random};
use reference::renderer::render;
use reference::text;

const MAX_STATES: usize = 10_000;
const ENOUGH: u32 = 60_000;
/// Of each verdict and corner, so that another seed finds it too.
const FEWEST: usize = 20;

/// Fails with all that is needed to see it again.
fn check(explorer: &Explorer, chart: &Chart, analysis: &Analysis) {
    if let Err(violation) = explorer.check(analysis) {
        panic!(
            "{violation:?}\n{:?}, capacity {}, {:?} after {} iterations\n{}",
            analysis.settings,
            analysis.capacity,
            analysis.verdict,
            analysis.iterations,
            String::from_utf8_lossy(&render(chart)),
        );
    }
}

#[test]
fn runs_are_covered_and_safe_is_safe() {
    let mut random = Random::new(seed());
    let (mut met, mut corners) = (Met::new(), Met::new());
    for _ in 0..count_at_least(10_000) {
        let chart = small(&mut random);
        let explorer = Explorer::new(&chart, MAX_STATES).expect("small charts have few states");
        for settings in permitted_settings() {
            for (capacity, budget) in [
                (256, ENOUGH),
                (random.between(1, 8) as usize, ENOUGH),
                (
                    inputs::capacity(&mut random, &chart, settings) as usize,
                    random.between(0, 12) as u32,
                ),
            ] {
                let analysis = Analysis::begin(&chart, settings, capacity, budget);
                check(&explorer, &chart, &analysis);
                let verdict = analysis_label(settings, analysis.verdict);
                met.add(run_label(&verdict, explorer.reaches_error(), explorer.overruns()));
                corners.add_all(
                    corner_labels_of(&analysis).into_iter().filter(|label| is_small(label)),
                );
            }
        }
    }
    let mut wanted = Vec::new();
    for verdict in analysis_labels() {
        wanted.push(run_label(&verdict, false, false));
        if !verdict.ends_with("safe") {
            let wrong = [(true, false), (false, true), (true, true)];
            wanted.extend(wrong.map(|(error, overrun)| run_label(&verdict, error, overrun)));
        }
    }
    met.assert_exactly(&wanted, FEWEST);
    corners.assert_exactly(
        &corner_labels().into_iter().filter(|label| is_small(label)).collect::<Vec<_>>(),
        FEWEST,
    );
}

/// Beside a verdict, what some run of the chart comes to.
fn run_label(verdict: &str, reaches_error: bool, overruns: bool) -> String {
    format!("{verdict}, error reached: {reaches_error}, overrun: {overruns}")
}

/// Few small charts have states for 256 slots.
fn is_small(label: &str) -> bool {
    !label.starts_with("used = 256")
}

/// After each single iteration, and in the end as after one run.
#[test]
fn runs_are_covered_at_every_iteration() {
    let mut random = Random::new(seed() ^ 1);
    for _ in 0..count(4_000) {
        let chart = small(&mut random);
        let explorer = Explorer::new(&chart, MAX_STATES).expect("small charts have few states");
        let settings: Settings = random.settings();
        let capacity = inputs::capacity(&mut random, &chart, settings) as usize;
        let mut analysis = Analysis::start(&chart, settings, capacity);
        check(&explorer, &chart, &analysis);
        while analysis.verdict == Verdict::Open {
            let before = analysis.iterations;
            analysis.run(&chart, 1);
            assert_eq!(analysis.iterations, before + 1);
            check(&explorer, &chart, &analysis);
        }
        let at_once = Analysis::begin(&chart, settings, capacity, ENOUGH);
        assert_eq!(analysis, at_once);
    }
}

/// Random bytes of any kind never make the program panic, and always give one refusal, of a line that
/// the input has, or one listing, with a line for each slot that its header counts.
#[test]
fn every_input_has_an_answer() {
    let mut random = Random::new(seed() ^ 2);
    let mut met = Met::new();
    for _ in 0..count_at_least(10_000) {
        let mut input = inputs::program_input(&mut random);
        for _ in 0..random.below(4) {
            let place = random.below(input.len() + 1);
            input.insert(place, random.below(256) as u8);
        }
        let output = respond(Report::Listing, &input);
        met.add(program_label(&output));
        let text = std::str::from_utf8(&output).expect("names and numbers are text");
        let text = text.strip_suffix('\n').expect("the last line is ended too");
        let lines: Vec<Vec<&str>> =
            text.split('\n').map(|line| line.split('\t').collect()).collect();
        let number = |field: &str| field.parse::<usize>().expect("a number");
        match &lines[..] {
            [refusal] => {
                assert_eq!((refusal[0], refusal.len()), ("refused", 3), "{text}");
                assert!(number(refusal[2]) <= text::lines(&input).count(), "{text}");
            }
            [header, slots @ ..] => {
                assert_eq!((header[0], header.len()), ("walk", 8), "{text}");
                assert_eq!(number(header[6]), slots.len(), "{text}");
                for (place, slot) in slots.iter().enumerate() {
                    assert_eq!((number(slot[0]), slot.len()), (place, slots[0].len()), "{text}");
                    assert!(["w", "-"].contains(&slot[slot.len() - 1]), "{text}");
                }
            }
            [] => panic!("nothing is printed"),
        }
    }
    met.assert_exactly(&program_labels(), 5);
}
