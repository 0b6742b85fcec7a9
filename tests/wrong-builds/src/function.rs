//! The functions of a crate: where they stand, what the prover calls them, and where their proofs lie.

use std::collections::BTreeMap;
use std::ops::Range;

use crate::edit::Sources;

/// A function, its places in the text of its file.
pub struct Function {
    /// Of a method with its type, as [`of_impl`] has it: `Type::method`.
    pub name: String,
    /// The word of its `#[cycle(word)]`, which functions that call one another share.
    pub cycle: Option<String>,
    /// With its attributes and its contract.
    pub whole: Range<usize>,
    pub body: Range<usize>,
}

/// The functions of a file. In the layout of `rt fmt` a head begins at the margin, after its attributes; a body begins where
/// a line of the head that is no clause of a contract ends in `{`, and it ends with `}` at the margin. The methods of an `impl`
/// stand a step in from it, which is their margin.
pub fn functions(text: &str) -> Vec<Function> {
    let mut found = Vec::new();
    let (mut attributes, mut name, mut start, mut body, mut at) = (None, None, 0, None, 0);
    let mut implemented: Option<String> = None;
    for line in text.split_inclusive('\n') {
        let (words, next) = (line.trim(), at + line.len());
        let indented = if implemented.is_some() { line.strip_prefix("    ") } else { Some(line) };
        let margin = indented.is_some_and(|line| !line.starts_with([' ', '/', '\n']));
        let is_clause = words.starts_with("requires") || words.starts_with("ensures");
        if line.starts_with('}') && implemented.is_some() {
            implemented = None;
        } else if let Some(head) = line.strip_prefix("impl") {
            implemented = Some(of_impl(head));
        } else if margin && words == "}" {
            if let (Some(name), Some(body)) = (name.take(), body.take()) {
                let cycle = cycle_of(&text[start..body]);
                found.push(Function { name, cycle, whole: start..next, body: body..at });
            }
        } else if let (true, Some((_, head))) = (margin, line.split_once("fn ")) {
            let word = head.split(|c| !is_of_name(c)).next();
            name = word.map(|word| match &implemented {
                Some(type_name) => format!("{type_name}::{word}"),
                None => word.to_string(),
            });
            start = attributes.unwrap_or(at);
            body = words.ends_with('{').then_some(next);
        } else if name.is_some() && body.is_none() && words.ends_with('{') && !is_clause {
            body = Some(next);
        }
        attributes = if margin && words.starts_with("#[") { attributes.or(Some(at)) } else { None };
        at = next;
    }
    found
}

/// What the prover calls the methods of an `impl` after, by its head: the type, and behind it the trait with what it is of,
/// `U32FromRefusal` for `From<Refusal> for u32`.
fn of_impl(head: &str) -> String {
    let after = head.split_once("> ").filter(|_| head.starts_with('<'));
    let head = after.map_or(head, |(_, words)| words).trim_start();
    let words = |text: &str| -> Vec<String> {
        let words = text.split(|c| !is_of_name(c)).filter(|word| !word.is_empty());
        words.map(|word| word[..1].to_uppercase() + &word[1..]).collect()
    };
    match head.split_once(" for ") {
        Some((of, name)) => words(name).swap_remove(0) + &words(&of.replace("()", "Unit")).concat(),
        None => words(head).swap_remove(0),
    }
}

pub fn is_of_name(c: char) -> bool {
    c.is_alphanumeric() || c == '_'
}

fn cycle_of(head: &str) -> Option<String> {
    let attributes = head.lines().map(str::trim).take_while(|line| line.starts_with("#["));
    let mut cycles = attributes.filter_map(|line| line.strip_prefix("#[cycle("));
    Some(cycles.next()?.strip_suffix(")]")?.to_string())
}

/// The name of a function as the prover has it after the crate's: `module::function`.
pub fn path_of(file: &str, name: &str) -> Option<String> {
    let module = file.strip_prefix("src/")?.strip_suffix(".rt")?;
    Some(match module {
        "lib" | "main" => name.to_string(),
        _ => format!("{}::{name}", module.replace('/', "::")),
    })
}

/// What is proved at once: a function, or all functions of a cycle.
#[derive(Clone, Debug, Default, PartialEq, Eq)]
pub struct Unit {
    /// The functions, as the prover names them after the crate.
    pub functions: Vec<String>,
    /// Where each stands: its file, and its lines, counted from 1.
    pub lines: Vec<(String, Range<usize>)>,
}

/// The units of a crate by name: `module::function`, and `module::+cycle` for a cycle.
pub fn units(sources: &Sources) -> BTreeMap<String, Unit> {
    let mut found: BTreeMap<String, Unit> = BTreeMap::new();
    for (file, text) in sources {
        for function in functions(text) {
            let Some(path) = path_of(file, &function.name) else { continue };
            let unit = unit_of(file, &function);
            let unit = found.entry(unit.unwrap_or_else(|| path.clone())).or_default();
            unit.functions.push(path);
            let before = text[..function.whole.start].matches('\n').count();
            let long = text[function.whole].matches('\n').count();
            unit.lines.push((file.clone(), before + 1..before + long + 1));
        }
    }
    found
}

/// The name of the unit that a function of the file is in.
pub fn unit_of(file: &str, function: &Function) -> Option<String> {
    match &function.cycle {
        Some(cycle) => path_of(file, &format!("+{cycle}")),
        None => path_of(file, &function.name),
    }
}

/// The folder of a unit's proof.
pub fn folder_of(unit: &str) -> String {
    format!("proofs/{}/", unit.replace("::", "/"))
}

/// The unit that a proof file is of.
pub fn proved_in(file: &str) -> Option<String> {
    let (folder, name) = file.strip_prefix("proofs/")?.rsplit_once('/')?;
    ["Answers.antt", "Invariants.antt", "Proof.antt"]
        .contains(&name)
        .then(|| folder.replace('/', "::"))
}

#[cfg(test)]
mod tests {
    use super::*;

    const CODE: &str = "\
// fn said is no function
pub const MOST: usize = 64;

#[unsafe(no_mangle)]
pub extern \"C\" fn first(
    a: usize,
) -> usize
    requires { a ≡ 1 }
{
    while low::second(a) < 3 {
        a += 4;
    }
}

#[cycle(turn)]
fn third() -> bool {
    first(3) == third()
}
";
    const LOW: &str = "pub fn second(a: usize) -> usize {\n    MOST\n}\n";

    #[test]
    fn a_function_has_its_attributes_and_its_body() {
        let found = functions(CODE);
        assert_eq!(found.iter().map(|f| &f.name[..]).collect::<Vec<_>>(), ["first", "third"]);
        assert!(CODE[found[0].whole.clone()].starts_with("#[unsafe(no_mangle)]\npub"));
        assert!(CODE[found[0].whole.clone()].ends_with("    }\n}\n"));
        assert!(CODE[found[0].body.clone()].starts_with("    while low"));
        assert_eq!(&CODE[found[1].body.clone()], "    first(3) == third()\n");
        assert_eq!(found[0].cycle, None);
        assert_eq!(found[1].cycle.as_deref(), Some("turn"));
    }

    #[test]
    fn a_method_is_named_with_its_type() {
        let code = "\
fn before() -> u8 {
    1
}

impl<'a> Held<'a> {
    // Not fn said.
    pub fn one(self) -> u8
        ensures { result ≡ 2 }
    {
        before()
    }

    fn two(self) -> u8 {
        if self.one() == 2 {
            return 3;
        }
        4
    }
}

impl Side {
    fn two() {
    }
}

impl<'a> Stream for Held<'a> {
    fn three() {
    }
}

impl From<Result<(), Refusal>> for u32 {
    fn from() {
    }
}

fn after<R: Read>(r: R) -> u8 {
    5
}
";
        let found = functions(code);
        let names: Vec<&str> = found.iter().map(|f| &f.name[..]).collect();
        assert_eq!(
            names,
            [
                "before",
                "Held::one",
                "Held::two",
                "Side::two",
                "HeldStream::three",
                "U32FromResultUnitRefusal::from",
                "after"
            ]
        );
        assert_eq!(&code[found[1].body.clone()], "        before()\n");
        assert!(code[found[2].whole.clone()].starts_with("    fn two"));
        assert!(code[found[2].whole.clone()].ends_with("        4\n    }\n"));
        assert_eq!(&code[found[6].body.clone()], "    5\n");
    }

    #[test]
    fn functions_of_a_cycle_are_one_unit() {
        let files = [("src/lib.rt", CODE), ("src/low.rt", LOW), ("proofs/Laws.antt", "4")];
        let sources: Sources =
            files.map(|(file, text)| (file.to_string(), text.to_string())).into();
        let found = units(&sources);
        let names: Vec<&String> = found.keys().collect();
        assert_eq!(names, ["+turn", "first", "low::second"]);
        assert_eq!(found["+turn"].functions, ["third"]);
        assert_eq!(found["first"].lines, [("src/lib.rt".to_string(), 4..14)]);
        assert_eq!(found["low::second"].lines, [("src/low.rt".to_string(), 1..4)]);
        assert_eq!(folder_of("+turn"), "proofs/+turn/");
        assert_eq!(folder_of("low::second"), "proofs/low/second/");
        assert_eq!(proved_in("proofs/low/second/Answers.antt"), Some("low::second".to_string()));
        assert_eq!(proved_in("proofs/+turn/Invariants.antt"), Some("+turn".to_string()));
        assert_eq!(proved_in("proofs/Laws.antt"), None);
        assert_eq!(proved_in("proofs/low/Laws.antt"), None);
    }
}
