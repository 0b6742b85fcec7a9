//! Request 2.4: the cover check neither divides nor takes a remainder. It is looked for in the code of
//! its crate and of every crate that this one stands on.

use std::collections::{BTreeMap, BTreeSet};
use std::fs;
use std::path::{Path, PathBuf};

/// The crate of the cover check and of the merge over slots.
const COVER_CHECK: &str = "reached";

fn repository() -> PathBuf {
    Path::new(env!("CARGO_MANIFEST_DIR")).join("..")
}

/// A crate and all that it stands on, by `crates.txt`: lines `NAME: NAME NAME ..`, and comments.
fn standing_on(name: &str) -> BTreeSet<String> {
    let text = fs::read_to_string(repository().join("crates.txt")).expect("crates.txt is read");
    let below: BTreeMap<&str, Vec<&str>> = text
        .lines()
        .filter_map(|line| line.split_once(':'))
        .map(|(name, rest)| (name, rest.split_whitespace().collect()))
        .collect();
    let mut found = BTreeSet::new();
    let mut rest = vec![name];
    while let Some(name) = rest.pop() {
        if found.insert(name.to_string()) {
            rest.extend(&below[name]);
        }
    }
    found
}

/// The `.rt` files of a folder and those below it.
fn code_files(folder: &Path) -> Vec<PathBuf> {
    let entries = fs::read_dir(folder).expect("a crate has a src folder");
    let mut files = Vec::new();
    for entry in entries {
        let path = entry.expect("a folder is read").path();
        if path.is_dir() {
            files.extend(code_files(&path));
        } else if path.extension().is_some_and(|extension| extension == "rt") {
            files.push(path);
        }
    }
    files
}

/// Parts of the names of functions that divide: those named after it (`checked_div`, `rem_euclid`,
/// `is_multiple_of`), and those that cut a slice into chunks of one length, since they divide its length
/// (`as_chunks`, `chunks_exact`, `rchunks`). `first_chunk` does not.
const DIVIDING: [&str; 5] = ["div", "rem", "multiple", "chunks", "rchunks"];

/// Whether a line of code divides or takes a remainder: by an operator, or by a function of such a name.
/// Comments are passed over, contracts are not.
fn divides(line: &str) -> bool {
    let code = line.split("//").next().unwrap_or_default();
    let named = code.split(|c: char| !c.is_alphanumeric()).any(|word| DIVIDING.contains(&word));
    code.contains(['/', '%']) || named
}

/// The lines of a crate's code, each with its place.
fn code_of(name: &str) -> Vec<(String, String)> {
    let mut found = Vec::new();
    for file in code_files(&repository().join("crates").join(name).join("src")) {
        let text = fs::read_to_string(&file).expect("a code file is read");
        for (at, line) in text.lines().enumerate() {
            found.push((format!("{}:{}", file.display(), at + 1), line.to_string()));
        }
    }
    found
}

/// Those that divide.
fn divisions(name: &str) -> String {
    let lines = code_of(name).into_iter().filter(|(_, line)| divides(line));
    lines.map(|(place, line)| format!("{place}: {line}\n")).collect()
}

#[test]
fn the_cover_check_never_divides() {
    let here = code_of(COVER_CHECK);
    for function in ["pub fn covered(", "pub fn merge_slots("] {
        assert!(here.iter().any(|(_, line)| line.starts_with(function)), "{function} is elsewhere");
    }
    let crates = standing_on(COVER_CHECK);
    for name in ["state", "semantics"] {
        assert!(crates.contains(name), "{name} is not looked at");
    }
    let found: String = crates.iter().map(|name| divisions(name)).collect();
    assert!(found.is_empty(), "{found}");
}

/// The crate that prints numbers does both, so what is looked for is found where it is.
#[test]
fn a_division_is_found() {
    let found = divisions("writer");
    for code in ["last_digit(n / 10)", "(48 + n % 10) as u8"] {
        assert!(found.contains(code), "{code} is not among\n{found}");
    }
    for code in ["a /= b;", "a%=b;", "let q = a/b; // half", "a.checked_rem(b)", "div_ceil(a, b)"] {
        assert!(divides(code), "{code}");
    }
    for code in
        ["&words.as_chunks::<N>().0[..n]", "s.chunks(3)", "s.chunks_exact(n)", "s.rchunks_mut(n)"]
    {
        assert!(divides(code), "{code}");
    }
    for code in ["// a / b", "let remainder = a - b; // a % b", "fn divide_up(rest: usize)"] {
        assert!(!divides(code), "{code}");
    }
    for code in ["words[N * i..].first_chunk::<N>()", "s.split_first_chunk::<2>()"] {
        assert!(!divides(code), "{code}");
    }
}
