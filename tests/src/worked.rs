//! Inputs of the walk program that stand in files, each with the output it must print.

use std::fs;
use std::path::{Path, PathBuf};

use crate::program::{asked, chart_part, Asked};

/// `NAME.in` and `NAME.out` of one folder, or the `NAME.path` beside them.
#[derive(Clone, Debug)]
pub struct Worked {
    pub name: String,
    /// What the program is started with: nothing, but for the fields of a `NAME.args`.
    pub arguments: Vec<String>,
    pub input: Vec<u8>,
    pub output: Vec<u8>,
}

impl Worked {
    /// The input without its go line; a search has none.
    pub fn chart_file(&self) -> &[u8] {
        match asked(&self.arguments) {
            Some(Asked::Search(_)) => &self.input,
            _ => chart_part(&self.input),
        }
    }
}

/// The worked cases of `tests/cases`.
pub fn cases() -> Vec<Worked> {
    in_folder("cases", 459)
}

/// The charts of `examples` that a trainer would know.
pub fn examples() -> Vec<Worked> {
    in_folder("../examples", 15)
}

/// The paths of those that raise an alarm: what each `NAME.path` says is printed with the argument `path`.
pub fn example_paths() -> Vec<Worked> {
    let with_path = |example: Worked| {
        let path = folder("../examples").join(format!("{}.path", example.name));
        let output = path.exists().then(|| fs::read(path).expect("the path is readable"))?;
        Some(Worked { arguments: vec!["path".to_string()], output, ..example })
    };
    examples().into_iter().filter_map(with_path).collect()
}

/// Sorted by name; fewer than `fewest` means that the folder is not the one meant.
fn in_folder(name: &str, fewest: usize) -> Vec<Worked> {
    let folder = folder(name);
    let mut worked: Vec<Worked> = fs::read_dir(&folder)
        .expect("the folder is readable")
        .map(|entry| entry.expect("its entries are readable").path())
        .filter(|path| path.extension().is_some_and(|extension| extension == "in"))
        .map(|path| Worked {
            name: path.file_stem().unwrap_or_default().to_string_lossy().into_owned(),
            arguments: arguments(&path.with_extension("args")),
            input: fs::read(&path).expect("the input is readable"),
            output: fs::read(path.with_extension("out")).expect("each input has an output"),
        })
        .collect();
    worked.sort_by(|one, other| one.name.cmp(&other.name));
    assert!(worked.len() >= fewest, "only {} inputs in {}", worked.len(), folder.display());
    worked
}

fn folder(name: &str) -> PathBuf {
    Path::new(env!("CARGO_MANIFEST_DIR")).join(name)
}

/// The fields of the one line of a file; none where there is no file.
fn arguments(path: &Path) -> Vec<String> {
    if !path.exists() {
        return Vec::new();
    }
    let line = fs::read_to_string(path).expect("the arguments are text");
    let line = line.strip_suffix('\n').expect("the arguments are one line");
    line.split('\t').map(String::from).collect()
}
