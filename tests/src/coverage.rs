//! What a comparison has met, so that a test can tell that it has met everything.

use std::collections::{BTreeMap, BTreeSet};
use std::fmt::Debug;

use crate::analysis::{Analysis, Merge, Order, Settings, Verdict, MAX_CAPACITY};
use crate::chart::Relation;
use crate::corner::{Corner, End, KnownSide, Rest};
use crate::random::permitted_settings;
use crate::search::MAX_BOUND;

/// How often each label was met.
#[derive(Clone, Debug)]
pub struct Met<L>(BTreeMap<L, usize>);

impl<L: Ord + Debug> Met<L> {
    pub fn new() -> Self {
        Met(BTreeMap::new())
    }

    pub fn add(&mut self, label: L) {
        *self.0.entry(label).or_insert(0) += 1;
    }

    pub fn add_all(&mut self, labels: impl IntoIterator<Item = L>) {
        labels.into_iter().for_each(|label| self.add(label));
    }

    /// Fails unless each label of `wanted` is met so often, and no other at all.
    pub fn assert_exactly(&self, wanted: &[L], fewest: usize) {
        for (label, times) in &self.0 {
            println!("{label:?}: {times}");
        }
        for label in wanted {
            let times = self.0.get(label).copied().unwrap_or(0);
            assert!(times >= fewest, "{label:?} is met {times} times only");
        }
        for label in self.0.keys() {
            assert!(wanted.contains(label), "{label:?} cannot be");
        }
    }
}

impl<L: Ord + Debug> Default for Met<L> {
    fn default() -> Self {
        Met::new()
    }
}

/// Of what the program printed: the settings and the verdict of a listing, the merge of a path, the moves of
/// a search, or the refusal's number and whether it has a line.
pub fn program_label(output: &[u8]) -> String {
    let header = String::from_utf8_lossy(output.split(|&byte| byte == b'\n').next().unwrap_or(b""));
    let fields: Vec<&str> = header.split('\t').collect();
    match fields[..] {
        ["refused", number, "0"] => format!("refused {number}, line 0"),
        ["refused", number, _] => format!("refused {number}"),
        ["walk", merge, stop, order, verdict, ..] => format!("{merge} {stop} {order} {verdict}"),
        ["path", merge, _] => format!("path {merge}"),
        [word @ ("run" | "none"), moves] => format!("{word} {moves}"),
        _ => format!("no listing, path, run or refusal: {header}"),
    }
}

/// Every label that an output of the program can have, started without an argument.
pub fn program_labels() -> Vec<String> {
    let mut labels = refusal_labels(&GO_LINE_REFUSALS);
    labels.extend(analysis_labels());
    labels
}

/// Every label that an output of the program can have, started with `search`.
pub fn search_labels() -> Vec<String> {
    let mut labels = refusal_labels(&[1, 6, 8, 30, 31]);
    labels.extend(
        (0..=MAX_BOUND).flat_map(|moves| ["run", "none"].map(|word| format!("{word} {moves}"))),
    );
    labels
}

/// Every label that an output of the program can have, started with `path`.
pub fn path_labels() -> Vec<String> {
    let mut labels = refusal_labels(&GO_LINE_REFUSALS);
    labels.push("refused 24, line 0".to_string());
    labels.extend(Merge::ALL.map(|merge| format!("path {}", merge.word())));
    labels
}

/// Of a go line, or of a chart and no line of it.
const GO_LINE_REFUSALS: [u32; 9] = [1, 2, 3, 5, 6, 8, 11, 12, 13];

/// Of the lines of a chart, and these of none.
fn refusal_labels(of_line_0: &[u32]) -> Vec<String> {
    let lines = (2..=10).map(|number| format!("refused {number}"));
    lines.chain(of_line_0.iter().map(|number| format!("refused {number}, line 0"))).collect()
}

pub fn analysis_label(settings: Settings, verdict: Verdict) -> String {
    let Settings { merge, stop, order } = settings;
    format!("{} {} {} {}", merge.word(), stop.word(), order.word(), verdict.word())
}

/// Permitted settings with each verdict.
pub fn analysis_labels() -> Vec<String> {
    permitted_settings()
        .iter()
        .flat_map(|&settings| Verdict::ALL.map(|verdict| analysis_label(settings, verdict)))
        .collect()
}

/// What a run has met that few meet, by the analysis as the run left it: corners, and a table of which
/// every slot is used, the largest one too.
pub fn corner_labels_of(analysis: &Analysis) -> BTreeSet<String> {
    let Settings { merge, order, .. } = analysis.settings;
    let (order, verdict) = (order.word(), analysis.verdict.word());
    let mut labels = BTreeSet::new();
    for corner in &analysis.corners {
        match *corner {
            Corner::PutBack => labels.extend([format!("{corner:?} {order} {verdict}")]),
            Corner::Result { operation, unknown, low, high } => {
                labels.extend(result_labels(operation, unknown, low, high));
            }
            Corner::Comparison { relation, known, rest, low, high } => {
                labels.extend(comparison_labels(relation, known, rest, low, high));
            }
            Corner::OneValue { .. }
            | Corner::NoneKnown { .. }
            | Corner::ComparisonAtLimit { .. } => {
                labels.extend([format!("{corner:?}")]);
            }
            _ => labels.extend([format!("{corner:?} {order}")]),
        }
    }
    let used = analysis.reached.len();
    if analysis.iterations > 0 && used == analysis.capacity {
        labels.insert(format!("used = room {} {verdict}", merge.word()));
        if used == MAX_CAPACITY {
            labels.insert(format!("used = 256 {verdict}"));
        }
    }
    labels
}

/// At which ends a result overruns, with so many unknown operands; or, unknown, at which it just fits
/// or is one past.
fn result_labels(operation: &str, unknown: usize, low: End, high: End) -> Vec<String> {
    let mut labels = Vec::new();
    let ends = match (low.is_past(), high.is_past()) {
        (true, true) => Some("both"),
        (true, false) => Some("low"),
        (false, true) => Some("high"),
        (false, false) => None,
    };
    if let Some(ends) = ends {
        labels.push(format!("{operation} overruns, {unknown} unknown, {ends}"));
    }
    for (name, end) in [("low", low), ("high", high)] {
        match end {
            End::OnePast if unknown > 0 => labels.push(format!("{operation} one past, {name}")),
            End::AtBound if ends.is_none() => labels.push(format!("{operation} just fits, {name}")),
            _ => {}
        }
    }
    labels
}

/// What a comparison leaves, and where the known value lies beside the range.
fn comparison_labels(
    relation: Relation,
    known: KnownSide,
    rest: Rest,
    low: End,
    high: End,
) -> Vec<String> {
    let comparison = comparison_label(relation, known);
    let mut labels = vec![format!("{comparison}, leaves {rest:?}")];
    if low < End::AtBound && high < End::AtBound {
        labels.push(format!("{comparison}, within"));
    }
    for (name, end) in [("low", low), ("high", high)] {
        if end != End::Inside {
            labels.push(format!("{comparison}, {end:?} {name}"));
        }
    }
    labels
}

fn comparison_label(relation: Relation, known: KnownSide) -> String {
    format!("if {}, {known:?} known", relation.word())
}

/// Every label that `corner_labels_of` gives.
pub fn corner_labels() -> Vec<String> {
    let mut labels = Vec::new();
    for order in Order::ALL.map(Order::word) {
        for corner in [
            Corner::KeepsPlace,
            Corner::SelfLoop,
            Corner::CopyFollowed,
            Corner::CopyFits,
            Corner::OverrunFull,
            Corner::OverrunUnmerged,
            Corner::OverrunAfterStored,
            Corner::OverrunAfterWidened,
        ] {
            labels.push(format!("{corner:?} {order}"));
        }
        for verdict in [Verdict::Alarm, Verdict::Full] {
            labels.push(format!("{:?} {order} {}", Corner::PutBack, verdict.word()));
        }
    }
    for verdict in Verdict::ALL.map(Verdict::word) {
        labels.extend(Merge::ALL.map(|merge| format!("used = room {} {verdict}", merge.word())));
        labels.push(format!("used = 256 {verdict}"));
    }
    for (operation, operands) in [("set", 1), ("add", 2), ("sub", 2)] {
        for end in ["low", "high"] {
            labels.push(format!("{operation} just fits, {end}"));
            labels.push(format!("{operation} one past, {end}"));
            labels.extend(
                (0..=operands)
                    .map(|unknown| format!("{operation} overruns, {unknown} unknown, {end}")),
            );
        }
        // A known result is past one end alone.
        labels.extend(
            (1..=operands).map(|unknown| format!("{operation} overruns, {unknown} unknown, both")),
        );
    }
    labels.extend([true, false].map(|overruns| format!("{:?}", Corner::OneValue { overruns })));
    for relation in Relation::ALL {
        for is_itself in [true, false] {
            labels.push(format!("{:?}", Corner::NoneKnown { relation, is_itself }));
        }
        for known in [KnownSide::Left, KnownSide::Right, KnownSide::Number] {
            for is_lowest in [true, false] {
                let corner = Corner::ComparisonAtLimit { relation, known, is_lowest };
                labels.push(format!("{corner:?}"));
            }
            let comparison = comparison_label(relation, known);
            labels.push(format!("{comparison}, within"));
            for end in [End::OneInside, End::AtBound, End::OnePast, End::FarPast] {
                labels.extend(["low", "high"].map(|name| format!("{comparison}, {end:?} {name}")));
            }
            for rest in [Rest::Nothing, Rest::OnlyValue, Rest::OneOfSeveral, Rest::Several] {
                // One value at most is equal to the known one.
                if (relation, rest) != (Relation::Eq, Rest::Several) {
                    labels.push(format!("{comparison}, leaves {rest:?}"));
                }
            }
        }
    }
    labels
}
