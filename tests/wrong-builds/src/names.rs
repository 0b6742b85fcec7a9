//! The names that the proof of a function cites of its steps, places and goals. They are made of the code's own words, as
//! `returns-then-n-lt10` under `if n < 10`, so that an edit can take a name away of which the proof still holds or fails. A proof
//! file is then brought to the names of the changed code, for the fact alone to decide. What belongs together is told by the
//! names of an older Rattle, which count the steps of a kind: `rattle check --generated DIR --old-names` writes both.

use std::collections::BTreeMap;

use crate::json::Json;

/// By function: each name with the older one, in the order of the code.
#[derive(Clone, Debug, Default, PartialEq, Eq)]
pub struct Names(BTreeMap<String, Listed>);

#[derive(Clone, Debug, Default, PartialEq, Eq)]
struct Listed {
    /// Of each place what it is.
    places: Vec<String>,
    steps: Vec<(String, String)>,
    goals: Vec<(String, String)>,
}

impl Names {
    /// Reads what the prover wrote; none where it has another form.
    pub fn read(text: &str, crate_name: &str) -> Option<Names> {
        let Json::Object(modules) = Json::read(text)? else { return None };
        let start = format!("Rattle-{crate_name}-proofs.");
        let mut found = Names::default();
        for (module, said) in &modules {
            let Some(path) = module.strip_prefix(&start) else { continue };
            // The steps of each function of a cycle stand in a module of their own.
            let Some((unit, member)) = path.rsplit_once(".Lts") else { continue };
            let stem = said.get("stem")?.text()?;
            let pair = |said: &Json, start: &str| {
                let [older, name] = said.list()? else { return None };
                Some((format!("{member} {}", older.text()?), format!("{start}{}", name.text()?)))
            };
            let listed = found.0.entry(unit.replace('.', "::")).or_default();
            let places = said.get("places")?.list()?;
            let by_name = said.get("places_by_name")?.list()?;
            for (place, name) in places.iter().zip(by_name) {
                let [older, _, step, ..] = place.list()? else { return None };
                let place = (format!("{member} {}", older.text()?), name.text()?.to_string());
                listed.places.push(kind(&place.0).to_string());
                listed.steps.extend([place, pair(step, "")?]);
            }
            for one in said.get("loops")?.list()? {
                let one = one.list()?.first()?;
                for start in
                    [String::new(), format!("invariant-{stem}"), format!("decreases-{stem}")]
                {
                    listed.steps.push(pair(one, &start)?);
                }
            }
            for need in said.get("needs")?.list()? {
                listed.goals.push(pair(need, stem)?);
            }
        }
        Some(found)
    }

    /// The names of a unit's proof that are others in the changed code. None where the code has other places, since a proof that is
    /// written for others shows nothing; a call at one of them may be another.
    pub fn changed(&self, changed: &Names, unit: &str) -> BTreeMap<String, String> {
        let (Some(before), Some(after)) = (self.0.get(unit), changed.0.get(unit)) else {
            return BTreeMap::new();
        };
        if before.places != after.places || before.steps.len() != after.steps.len() {
            return BTreeMap::new();
        }
        let kinds = |goals: &[(String, String)]| -> Vec<String> {
            goals.iter().map(|(older, _)| kind(older).to_string()).collect()
        };
        let goals: Vec<_> = if kinds(&before.goals) == kinds(&after.goals) {
            before.goals.iter().zip(&after.goals).collect()
        } else {
            // A goal more or less, as for a sum that can wrap, leaves the others.
            let same =
                |goal: &(String, String)| after.goals.iter().find(|(older, _)| *older == goal.0);
            before.goals.iter().filter_map(|goal| Some((goal, same(goal)?))).collect()
        };
        let pairs = before.steps.iter().zip(&after.steps).chain(goals);
        let others = pairs.map(|((_, name), (_, other))| (name, other));
        let others = others.filter(|(name, other)| name != other);
        others.map(|(name, other)| (name.clone(), other.clone())).collect()
    }
}

/// What an older name says of its place or goal, whatever is called there: `After` of `After-put2`, `requires` of `put-requires`.
fn kind(older: &str) -> &str {
    if older.contains("-requires") {
        return "requires";
    }
    let name = older.split(' ').next_back().unwrap_or(older);
    name.split(|c: char| c == '-' || c.is_ascii_digit()).next().unwrap_or(name)
}

/// A proof file with these names in place of its own.
pub fn respelled(text: &str, names: &BTreeMap<String, String>) -> String {
    let is_of_name = |c: char| c.is_alphanumeric() || "_-'".contains(c);
    let mut left = String::new();
    let mut rest = text;
    while !rest.is_empty() {
        let end = rest.find(|c| !is_of_name(c)).unwrap_or(rest.len());
        let (word, more) = rest.split_at(end);
        left.push_str(names.get(word).map_or(word, |name| name));
        let next = more.find(is_of_name).unwrap_or(more.len());
        left.push_str(&more[..next]);
        rest = &more[next..];
    }
    left
}

#[cfg(test)]
mod tests {
    use super::*;

    fn said(condition: &str, goals: &str) -> String {
        format!(
            r#"{{"Rattle-rows-proofs.low.put.Lts": {{
                "loops": [[["loop", "loop-i"], ["s"]]],
                "needs": [["returns", "returns-then-{condition}"]{goals}],
                "places": [["Start", null, ["", ""], null, []], ["Then1", "Start", ["if1", "if-{condition}"], null, []]],
                "places_by_name": ["Start", "Then-{condition}"],
                "stem": ""
            }}, "off:rows": []}}"#
        )
    }

    fn names(condition: &str, goals: &str) -> Names {
        Names::read(&said(condition, goals), "rows").unwrap()
    }

    #[test]
    fn what_an_edit_renames_is_told_by_the_older_names() {
        let found = names("n-lt10", "").changed(&names("n-lt11", ""), "low::put");
        let pairs: Vec<(&str, &str)> = found.iter().map(|(a, b)| (&a[..], &b[..])).collect();
        assert_eq!(
            pairs,
            [
                ("Then-n-lt10", "Then-n-lt11"),
                ("if-n-lt10", "if-n-lt11"),
                ("returns-then-n-lt10", "returns-then-n-lt11")
            ]
        );
        assert!(names("n-lt10", "").changed(&names("n-lt10", ""), "low::put").is_empty());
    }

    #[test]
    fn a_loop_is_renamed_with_its_invariant() {
        let other = said("n-lt10", "").replace("loop-i", "loop-s");
        let other = Names::read(&other, "rows").unwrap();
        let found = names("n-lt10", "").changed(&other, "low::put");
        let text = respelled("invariant-loop-i l = c.loop-i.i ≤ decreases-loop-i", &found);
        assert_eq!(text, "invariant-loop-s l = c.loop-s.i ≤ decreases-loop-s");
    }

    #[test]
    fn a_goal_more_leaves_the_others() {
        let more = names("n-lt11", r#", ["add-n", "overflow_add-n"]"#);
        assert_eq!(names("n-lt10", "").changed(&more, "low::put").len(), 3);
        assert_eq!(more.changed(&names("n-lt10", ""), "low::put").len(), 3);
    }

    #[test]
    fn of_other_steps_nothing_is_renamed() {
        let other = said("n-lt11", "").replace("Then1", "Else1");
        let other = Names::read(&other, "rows").unwrap();
        assert!(names("n-lt10", "").changed(&other, "low::put").is_empty());
    }

    #[test]
    fn steps_of_one_kind_are_told_apart_by_their_order() {
        let arms = |first: &str, second: &str| {
            let text = format!(
                r#"{{"Rattle-rows-proofs.+turn.Lts-put": {{"loops": [], "needs": [],
                    "places": [["Told", null, ["told", "in-{first}"]], ["Past", null, ["told", "in-{second}"]]],
                    "places_by_name": ["In-{first}", "In-{second}"], "stem": "put-"}}}}"#
            );
            Names::read(&text, "rows").unwrap()
        };
        assert!(arms("Old", "New").changed(&arms("Old", "New"), "+turn").is_empty());
        let found = arms("Old", "New").changed(&arms("New", "Old"), "+turn");
        assert_eq!(found["in-Old"], "in-New");
        assert_eq!(found["in-New"], "in-Old");
    }

    #[test]
    fn another_call_at_the_same_place_renames_what_it_gives() {
        let calls = |called: &str| {
            let text = format!(
                r#"{{"Rattle-rows-proofs.+turn.Lts-put": {{"loops": [], "needs": [["{called}-requires", "{called}-x-requires"]],
                    "places": [["After-{called}", null, ["{called}", "{called}-x"]]],
                    "places_by_name": ["After-{called}-x"], "stem": "put-"}}}}"#
            );
            Names::read(&text, "rows").unwrap()
        };
        let found = calls("low").changed(&calls("high"), "+turn");
        let text = respelled("put-low-x-requires c = c.low-x.ensures", &found);
        assert_eq!(text, "put-high-x-requires c = c.high-x.ensures");
    }

    #[test]
    fn whole_names_are_respelled() {
        let names: BTreeMap<String, String> =
            [("if-n-lt1".to_string(), "if-n-lt2".to_string())].into();
        let text = "a c = c.if-n-lt1.true ∙ c.if-n-lt10 (if-n-lt1)";
        assert_eq!(respelled(text, &names), "a c = c.if-n-lt2.true ∙ c.if-n-lt10 (if-n-lt2)");
    }
}
