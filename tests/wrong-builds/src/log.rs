//! What the prover said of a build, and whether that is a refusal of what was changed.

use std::collections::{BTreeMap, BTreeSet};
use std::ops::Range;

use crate::edit::Target;
use crate::function::{folder_of, Unit};

pub struct Log {
    pub status: Option<i32>,
    pub text: String,
}

/// What is not proved: where that stands in the crate, and what the prover says.
#[derive(Clone, Debug, PartialEq, Eq)]
struct Error<'a> {
    file: &'a str,
    place: &'a str,
    says: &'a str,
}

/// Errors that only say that something else was refused.
const FOLLOWS: [&str; 4] = [
    "was not admitted",
    "is not admitted: rejected",
    "which was rejected, was not checked",
    "which was rejected, were not checked",
];

/// Errors that say that a proof no longer fits the shape of the code, that a name is not there or that a text cannot be read:
/// they show nothing of what the code does.
const SHAPE: [&str; 11] = [
    "that can be named from here",
    "` has no field `",
    "has room for only",
    "not in scope",
    "is not a definition that can be named here",
    "is no name",
    "exports no",
    "no module is found",
    "operand is missing",
    "expected the end",
    "cannot continue",
];

impl Log {
    pub fn is_proved(&self) -> bool {
        self.status == Some(0) && (self.line("logic=proved ") || self.line("only="))
    }

    /// The first own error of each unit that was changed, as one line, or the first error of all; or why this log shows no
    /// refusal of what was changed. The units are those of the changed code.
    pub fn refusal(
        &self,
        crate_name: &str,
        target: &Target,
        units: &BTreeMap<String, Unit>,
    ) -> Result<String, String> {
        if self.is_proved() {
            return Err("NOT REFUSED: it is still proved".into());
        }
        if self.status != Some(1) || !(self.line("logic=not-proved") || self.line("only=")) {
            let said = self.text.lines().find(|line| line.contains("error"));
            let said = said.or(self.text.lines().last()).unwrap_or("nothing");
            return Err(format!("it came to no verdict; the prover said: {said}"));
        }
        let found = match target {
            Target::Whole => vec![self.of_any()?],
            Target::Bodies(names) => {
                let each = names.iter().map(|name| {
                    let unit = units.get(name).ok_or(format!("{name} is no function any more"))?;
                    self.of_unit(crate_name, name, unit)
                });
                each.collect::<Result<_, _>>()?
            }
        };
        Ok(found.join("; "))
    }

    /// A unit that was left as it was and yet has a goal of its own that is not proved.
    pub fn lost<'a>(
        &self,
        crate_name: &str,
        changed: &BTreeSet<String>,
        units: &'a BTreeMap<String, Unit>,
    ) -> Option<&'a String> {
        let left = units.iter().filter(|(name, _)| !changed.contains(*name));
        left.map(|(name, unit)| (name, self.of_unit(crate_name, name, unit)))
            .find_map(|(name, own)| own.is_ok().then_some(name))
    }

    /// The first own error of a unit: in its proof files, or a goal that the prover finds no proof of. Where the proof files do
    /// not fit the code, the goals that they leave open show nothing.
    fn of_unit(&self, crate_name: &str, name: &str, unit: &Unit) -> Result<String, String> {
        let folder = folder_of(name);
        let own = self.errors().filter(|error| error.file.starts_with(&folder));
        let (shape, facts): (Vec<Error>, Vec<Error>) = own.partition(Error::is_of_shape);
        if let Some(error) = facts.first() {
            return Ok(error.shown());
        }
        if let Some(error) = shape.first() {
            return Err(format!("{name} is refused for its shape alone: {}", error.shown()));
        }
        if let Some(error) = self.open(unit).next() {
            return Ok(error.shown());
        }
        let mut unfound = unit.functions.iter().filter_map(|name| self.unfound(crate_name, name));
        unfound.next().ok_or(format!("{name} has no error of its own"))
    }

    /// The first error of any function or lemma.
    fn of_any(&self) -> Result<String, String> {
        let Some(first) = self.errors().next() else {
            let open = self.notes().next().map(|error| error.shown());
            return open.ok_or("nothing has an error of its own".into());
        };
        let same = |error: &Error| error.file == first.file && error.name() == first.name();
        if let Some(error) = self.errors().filter(same).find(Error::is_of_shape) {
            return Err(format!("refused for its shape alone: {}", error.shown()));
        }
        if !first.file.starts_with("proofs/") {
            return Err(format!("what it changes does not check: {}", first.shown()));
        }
        Ok(first.shown())
    }

    /// The errors that do not merely follow from others, in the order of the log.
    fn errors(&self) -> impl Iterator<Item = Error<'_>> {
        let said = self.text.lines().filter_map(|line| line.split_once(": error: "));
        let placed = said.filter_map(|(place, says)| Error::at(place, says));
        placed.filter(|error| !FOLLOWS.iter().any(|words| error.says.contains(words)))
    }

    /// The goals that the prover finds no proof of, by the place in the code that asks for them.
    fn notes(&self) -> impl Iterator<Item = Error<'_>> {
        let notes = self.text.lines().filter_map(|line| line.strip_prefix("note: "));
        let said = notes.filter_map(|line| line.split_once(": it is not proved that "));
        said.filter_map(|(place, says)| Error::at(place, says))
    }

    /// Those of a unit.
    fn open<'a>(&'a self, unit: &'a Unit) -> impl Iterator<Item = Error<'a>> {
        self.notes().filter(|note| {
            let line = note.place.split(':').nth(1).and_then(|line| line.parse().ok());
            let here =
                |at: &(String, Range<usize>), line| at.0 == note.file && at.1.contains(&line);
            let stands = |line| unit.lines.iter().any(|at| here(at, line));
            line.is_some_and(stands)
        })
    }

    /// The goals that the prover says it finds no proof of for a function.
    fn unfound(&self, crate_name: &str, name: &str) -> Option<String> {
        let start = format!("fn {crate_name}::{name}: ");
        let mut said = self.text.lines().filter_map(|line| line.strip_prefix(&start));
        let (_, goals) = said.next()?.split_once("`search` did not prove ")?;
        Some(format!("{name}: no proof is found of {}", goals.split(';').next()?))
    }

    fn line(&self, start: &str) -> bool {
        self.text.lines().any(|line| line.starts_with(start))
    }
}

impl<'a> Error<'a> {
    /// At a place of the crate itself: `./proofs/Laws.antt:7:13`.
    fn at(place: &'a str, says: &'a str) -> Option<Error<'a>> {
        let place = place.strip_prefix("./").unwrap_or(place);
        let (file, numbers) = place.split_once(':')?;
        let is_numbers = numbers.chars().all(|c| c.is_ascii_digit() || c == ':');
        let is_own = !file.starts_with(['/', '.']) && is_numbers;
        is_own.then_some(Error { file, place, says })
    }

    /// The lemma or goal, which stands first in backquotes.
    fn name(&self) -> &str {
        self.says.split('`').nth(1).unwrap_or("")
    }

    fn is_of_shape(&self) -> bool {
        let is_read = self.says.starts_with('`');
        !is_read || SHAPE.iter().any(|words| self.says.contains(words))
    }

    fn shown(&self) -> String {
        let says: String = self.says.chars().take(160).collect();
        format!("{}: {says}", self.place)
    }
}

#[cfg(test)]
mod tests {
    use super::*;

    fn log(status: i32, lines: &[&str]) -> Log {
        Log { status: Some(status), text: lines.join("\n") + "\n" }
    }

    fn body(name: &str) -> Target {
        Target::Bodies([name.to_string()].into())
    }

    fn units() -> BTreeMap<String, Unit> {
        let unit = |name: &str, lines| Unit {
            functions: vec![name.to_string()],
            lines: vec![("src/lib.rt".to_string(), lines)],
        };
        let each = [("join", 10..20), ("put", 20..30), ("joined", 30..40)];
        let mut found: BTreeMap<_, _> =
            each.map(|(name, lines)| (name.to_string(), unit(name, lines))).into();
        found.insert("store::+turn".into(), unit("store::turn", 40..50));
        found
    }

    fn error(file: &str, says: &str) -> String {
        format!("./{file}:7:13: error: {says}")
    }

    fn judged(target: &Target, lines: &[&str]) -> Result<String, String> {
        let mut lines = lines.to_vec();
        lines.push("only=2 proved=1");
        log(1, &lines).refusal("rows", target, &units())
    }

    #[test]
    fn a_right_build_is_not_refused() {
        for end in ["logic=proved functions=1 sum=0", "only=1 proved=1"] {
            let right = log(0, &["fn rows::join: proved", end]);
            assert!(right.is_proved());
            for target in [body("join"), Target::Whole] {
                let said = right.refusal("rows", &target, &units()).unwrap_err();
                assert!(said.starts_with("NOT REFUSED"));
            }
        }
    }

    #[test]
    fn a_build_that_does_not_compile_is_not_refused() {
        let line = "src/lib.rt:61:17: error[unknown-name]: cannot find value";
        for status in [1, 2, 3] {
            let said = log(status, &[line]).refusal("rows", &body("join"), &units()).unwrap_err();
            assert!(said.starts_with("it came to no verdict") && said.contains("unknown-name"));
        }
        assert!(!log(1, &[line]).is_proved());
        assert!(!log(0, &[line]).is_proved());
    }

    #[test]
    fn an_error_in_the_proof_of_the_function_is_its_own() {
        let own = error("proofs/join/Answers.antt", "`returns`: the two types differ");
        let shown = "proofs/join/Answers.antt:7:13: `returns`: the two types differ";
        assert_eq!(judged(&body("join"), &[&own]), Ok(shown.into()));
        assert_eq!(judged(&Target::Whole, &[&own]), Ok(shown.into()));
        let own = error("proofs/store/+turn/Answers.antt", "`returns`: the two types differ");
        assert!(judged(&body("store::+turn"), &[&own]).is_ok());
    }

    #[test]
    fn an_error_of_another_function_is_not_its_own() {
        let other = error("proofs/joined/Answers.antt", "`returns`: the two types differ");
        let moduled = error("proofs/store/join/Answers.antt", "`returns`: the two types differ");
        let below = error("../low/proofs/join/Answers.antt", "`returns`: the two types differ");
        let note = "note: src/lib.rt:20:5: it is not proved that it holds (`returns`)";
        assert!(judged(&body("join"), &[&other, &moduled, &below, note])
            .unwrap_err()
            .contains("no error of its own"));
    }

    #[test]
    fn an_error_that_follows_from_another_is_not_its_own() {
        let follows = [
            "`join-spec`: `close` was not admitted (it has holes), so this cannot be checked",
            "`returns` is not admitted: rejected",
            "2 declarations that depend on `a`, which was rejected, were not checked: b, c",
        ];
        let calls = "fn rows::join: not proved; it calls `rows::put`, which is not proved";
        for says in follows {
            let follows = error("proofs/join/Answers.antt", says);
            for target in [body("join"), Target::Whole] {
                let said = judged(&target, &[&follows, calls]).unwrap_err();
                assert!(said.contains("error of its own"), "{said}");
            }
        }
    }

    #[test]
    fn a_goal_that_is_not_found_is_an_error_of_its_function() {
        let note = "note: src/lib.rt:12:5: it is not proved that it holds (`returns`); at a limit";
        let shown = "src/lib.rt:12:5: it holds (`returns`); at a limit";
        assert_eq!(judged(&body("join"), &[note]), Ok(shown.into()));
        assert_eq!(judged(&Target::Whole, &[note]), Ok(shown.into()));
        let line = "fn rows::join: no proof: expected answers in ./proofs/join/Answers.antt; `search` did not prove `a`, `b`; it calls `rows::put`, which is not proved";
        let shown = "join: no proof is found of `a`, `b`";
        assert_eq!(judged(&body("join"), &[line]), Ok(shown.into()));
        assert!(judged(&body("joined"), &[line]).is_err());
    }

    #[test]
    fn what_was_left_as_it_was_is_still_proved() {
        let note = "note: src/lib.rt:12:5: it is not proved that it holds (`returns`)";
        let log = log(1, &[note, "fn rows::put: not proved; it calls `rows::join`"]);
        let lost = |name: &str| log.lost("rows", &[name.to_string()].into(), &units()).cloned();
        assert_eq!(lost("join"), None);
        assert_eq!(lost("put"), Some("join".to_string()));
    }

    #[test]
    fn a_refusal_for_the_shape_shows_nothing() {
        let real = error("proofs/join/Answers.antt", "`returns`: the two types differ");
        let note = "note: src/lib.rt:12:5: it is not proved that it holds (`returns-2`)";
        for says in [
            "`returns`: record `Lts.Start` has no field `before`",
            "`returns-2`: `goal.returns-2`: module `Goals` has no `returns-2` that can be named from here",
            "`returns`: this λ has 2 binders, but its type has room for only 1",
            "expected `)`, found end of file",
        ] {
            let shape = error("proofs/join/Answers.antt", says);
            let said = judged(&body("join"), &[&shape, note]).unwrap_err();
            assert!(said.contains("shape"), "{says}");
            assert!(judged(&Target::Whole, &[&shape]).unwrap_err().contains("shape"), "{says}");
            assert!(judged(&body("join"), &[&shape, &real]).is_ok());
        }
    }

    #[test]
    fn of_a_definition_the_first_lemma_is_named() {
        let first = error("proofs/Laws.antt", "`join-grows`: the two types differ");
        let later = error("proofs/Laws.antt", "`other`: record `R` has no field `a`");
        assert!(judged(&Target::Whole, &[&first, &later]).unwrap().contains("`join-grows`"));
        let itself = error("specs/Rows.antt", "`join`: expected type `ℕ`");
        assert!(judged(&Target::Whole, &[&itself, &first]).unwrap_err().contains("does not check"));
    }
}
