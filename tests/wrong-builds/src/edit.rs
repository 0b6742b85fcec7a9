//! An edit: a wrong build, in the form of `rt must-fail`. A comment says what would go wrong; a `file:` line holds for the
//! pairs of `old:` and `new:` after it; each old text stands exactly once when its turn comes.

use std::collections::{BTreeMap, BTreeSet};

use crate::function::{functions, is_of_name, proved_in, unit_of};

/// The texts of a crate by their path in it, `src/lib.rt`.
pub type Sources = BTreeMap<String, String>;

#[derive(Clone, Debug, PartialEq, Eq)]
pub struct Edit {
    pub comment: String,
    pub replacements: Vec<Replacement>,
}

#[derive(Clone, Debug, PartialEq, Eq)]
pub struct Replacement {
    pub file: String,
    pub old: String,
    pub new: String,
}

/// What an edit changes.
#[derive(Clone, Debug, PartialEq, Eq)]
pub enum Target {
    /// The bodies of these functions, each by its unit: `module::function`, or the cycle that it is in; or a constant that they
    /// and no others name.
    Bodies(BTreeSet<String>),
    /// A definition, a contract or a type, which any function may rest on.
    Whole,
}

impl Target {
    pub fn bodies(&self) -> Option<&BTreeSet<String>> {
        match self {
            Target::Bodies(names) => Some(names),
            Target::Whole => None,
        }
    }
}

impl Edit {
    pub fn parse(text: &str) -> Result<Edit, String> {
        let (mut comments, mut replacements) = (Vec::new(), Vec::new());
        let (mut file, mut old) = (None, None);
        for line in text.lines() {
            if let Some(words) = line.strip_prefix('#') {
                comments.push(words.trim());
            } else if let Some(path) = line.strip_prefix("file: ") {
                file = Some(path.to_string());
            } else if let Some(text) = line.strip_prefix("old: ") {
                old = Some(text.to_string());
            } else if let Some(text) = line.strip_prefix("new:") {
                let new = text.strip_prefix(' ').unwrap_or(text).to_string();
                let file = file.clone().ok_or("no `file:` line before `new:`")?;
                let old = old.take().ok_or("no `old:` line before `new:`")?;
                replacements.push(Replacement { file, old, new });
            } else if !line.is_empty() {
                return Err(format!("a line that is no part of an edit: {line}"));
            }
        }
        if comments.is_empty() {
            return Err("no comment that says what would go wrong".into());
        }
        if old.is_some() || replacements.is_empty() {
            return Err("an `old:` line without its `new:`, or none at all".into());
        }
        Ok(Edit { comment: comments.join(" "), replacements })
    }

    /// Whether it changes code, or a contract beside it.
    pub fn is_in_code(&self) -> bool {
        self.replacements.iter().any(|one| one.file.ends_with(".rt"))
    }

    /// Makes the replacements one after the other, and says what was changed.
    pub fn apply(&self, sources: &mut Sources) -> Result<Target, String> {
        let mut bodies = BTreeSet::new();
        let mut whole = false;
        for Replacement { file, old, new } in &self.replacements {
            let text = sources.get(file).ok_or(format!("the crate has no file {file}"))?;
            let places: Vec<usize> = text.match_indices(old.as_str()).map(|(at, _)| at).collect();
            let [at] = places[..] else {
                return Err(format!("stands {} times in {file}, not once: {old}", places.len()));
            };
            let found = changed_at(sources, file, at);
            whole |= found.is_empty();
            bodies.extend(found);
            let changed = format!("{}{new}{}", &text[..at], &text[at + old.len()..]);
            sources.insert(file.clone(), changed);
        }
        Ok(if whole { Target::Whole } else { Target::Bodies(bodies) })
    }
}

/// The function whose body or proof the place lies in, or those that name the constant which it lies in; none where it is another.
fn changed_at(sources: &Sources, file: &str, at: usize) -> BTreeSet<String> {
    if let Some(unit) = proved_in(file) {
        return [unit].into();
    }
    let text = &sources[file];
    if let Some(found) = functions(text).into_iter().find(|one| one.body.contains(&at)) {
        return unit_of(file, &found).into_iter().collect();
    }
    let line = text[..at].rfind('\n').map_or(0, |end| end + 1);
    let words = text[line..].trim_start_matches("pub ");
    let Some((name, _)) = words.strip_prefix("const ").and_then(|words| words.split_once(':'))
    else {
        return BTreeSet::new();
    };
    let names_it = |code: &str| code.split(|c| !is_of_name(c)).any(|word| word == name);
    let each = sources.iter().flat_map(|(file, text)| {
        let users = functions(text).into_iter().filter(|one| names_it(&text[one.whole.clone()]));
        users.filter_map(move |one| unit_of(file, &one))
    });
    each.collect()
}

/// Which edits can be tried together: those that change the bodies of different functions.
pub fn groups(targets: &[Target]) -> Vec<Vec<usize>> {
    let mut groups: Vec<(BTreeSet<&String>, Vec<usize>)> = Vec::new();
    for (edit, target) in targets.iter().enumerate() {
        let Target::Bodies(names) = target else {
            groups.push((BTreeSet::new(), vec![edit]));
            continue;
        };
        let open = groups
            .iter_mut()
            .find(|(taken, _)| !taken.is_empty() && names.iter().all(|name| !taken.contains(name)));
        match open {
            Some((taken, members)) => {
                taken.extend(names);
                members.push(edit);
            }
            None => groups.push((names.iter().collect(), vec![edit])),
        }
    }
    groups.into_iter().map(|(_, members)| members).collect()
}

#[cfg(test)]
mod tests {
    use super::*;

    const CODE: &str = "\
// fn said is no function
pub const MOST: usize = 64;

#[unsafe(no_mangle)]
pub extern \"C\" fn first(
    a: usize,
) -> usize
    requires { a ≡ 1 }
    ensures { result ≡ 2 }
{
    while a < 3 {
        a += 4;
    }
}

fn second() -> bool {
    true
}

enum Kind {
    Five,
}
";

    fn sources() -> Sources {
        let specs = "limit = 60000\n".to_string();
        Sources::from([
            ("src/lib.rt".into(), CODE.into()),
            ("src/more.rt".into(), CODE.into()),
            ("specs/Rules.antt".into(), specs),
            ("proofs/Laws.antt".into(), "law = refl\n".to_string()),
            ("proofs/more/first/Answers.antt".into(), "returns c = refl\n".to_string()),
        ])
    }

    fn target(file: &str, old: &str) -> Result<Target, String> {
        let text = format!("# wrong\nfile: {file}\nold: {old}\nnew: 9\n");
        Edit::parse(&text).unwrap().apply(&mut sources())
    }

    fn bodies(names: &[&str]) -> Target {
        Target::Bodies(names.iter().map(|name| name.to_string()).collect())
    }

    #[test]
    fn an_edit_is_read_whole() {
        let edit = Edit::parse("# a\n# b\n\nfile: src/lib.rt\nold:   x y\nnew:\nold: z\nnew:  w\n")
            .unwrap();
        assert_eq!(edit.comment, "a b");
        let parts: Vec<_> =
            edit.replacements.iter().map(|r| (&r.file[..], &r.old[..], &r.new[..])).collect();
        assert_eq!(parts, [("src/lib.rt", "  x y", ""), ("src/lib.rt", "z", " w")]);
    }

    #[test]
    fn half_an_edit_is_none() {
        for text in [
            "",
            "# c\n",
            "file: src/lib.rt\nold: a\nnew: b\n",
            "# c\nold: a\nnew: b\n",
            "# c\nfile: src/lib.rt\nnew: b\n",
            "# c\nfile: src/lib.rt\nold: a\n",
            "# c\nfile: src/lib.rt\nold: a\nnew: b\nand more\n",
        ] {
            assert!(Edit::parse(text).is_err(), "{text}");
        }
    }

    #[test]
    fn an_old_text_stands_once() {
        assert!(target("src/lib.rt", "nowhere").unwrap_err().contains("0 times"));
        assert!(target("src/lib.rt", "a").unwrap_err().contains("not once"));
        assert!(target("src/none.rt", "a").unwrap_err().contains("no file"));
    }

    #[test]
    fn a_later_pair_sees_the_earlier_one() {
        let edit =
            Edit::parse("# c\nfile: src/lib.rt\nold: a < 3\nnew: b\nold: while b {\nnew: c {\n");
        let mut changed = sources();
        assert_eq!(edit.unwrap().apply(&mut changed), Ok(bodies(&["first"])));
        assert!(changed["src/lib.rt"].contains("\n    c {\n"));
    }

    #[test]
    fn a_body_is_told_from_a_contract() {
        assert_eq!(target("src/lib.rt", "a < 3"), Ok(bodies(&["first"])));
        assert_eq!(target("src/more.rt", "a += 4"), Ok(bodies(&["more::first"])));
        assert_eq!(target("src/lib.rt", "true"), Ok(bodies(&["second"])));
        for old in ["a: usize", "a ≡ 1", "result ≡ 2", "Five"] {
            assert_eq!(target("src/lib.rt", old), Ok(Target::Whole), "{old}");
        }
        assert_eq!(target("specs/Rules.antt", "60000"), Ok(Target::Whole));
        assert_eq!(target("proofs/Laws.antt", "refl"), Ok(Target::Whole));
        assert_eq!(target("proofs/more/first/Answers.antt", "refl"), Ok(bodies(&["more::first"])));
    }

    #[test]
    fn of_a_constant_the_functions_that_name_it() {
        assert_eq!(target("src/lib.rt", "64"), Ok(Target::Whole));
        let mut named = sources();
        named.insert("src/lib.rt".into(), CODE.replace("true", "MOST < 1 & ALMOST"));
        let edit = Edit::parse("# c\nfile: src/lib.rt\nold: 64\nnew: 63\n").unwrap();
        assert_eq!(edit.apply(&mut named), Ok(bodies(&["second"])));
    }

    #[test]
    fn different_bodies_are_tried_together() {
        let targets =
            [bodies(&["a"]), Target::Whole, bodies(&["b", "c"]), bodies(&["c"]), bodies(&["d"])];
        assert_eq!(groups(&targets), [vec![0, 2, 4], vec![1], vec![3]]);
    }
}
