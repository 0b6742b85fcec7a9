//! `wrong-builds` tries the wrong builds of `crates/*/wrong-builds/*.edit`: a proof must refuse each.
//!
//!     wrong-builds                   every edit; fails unless each is refused
//!     wrong-builds CRATE[/EDIT]..    these alone (a named edit may stand in must-fail/ too)
//!     wrong-builds list              each edit of must-fail/ and wrong-builds/ with what it stands for
//!
//! Each crate is first checked as it stands, by `rt check` in its folder, and must be proved: else a refusal would show nothing.
//! Its edits are then tried on copies of it, over what that check kept in out/. Edits of the bodies of different functions are
//! tried together, in a check of these functions and those that they call; an edit of anything else, or one whose error others
//! hide, is tried alone, and that of a contract or a definition in the whole crate. An edit is refused where each function that
//! it changes has an error of its own: not one that follows from another's, and none for the shape of the code. Where the code's
//! words that it changes stand in names that a proof cites, the proof is brought to the new names first. The whole logs are left
//! in target/wrong-builds/.

mod board;
mod edit;
mod function;
mod json;
mod log;
mod names;
mod scratch;

use std::collections::{BTreeMap, BTreeSet};
use std::fmt;
use std::fs;
use std::io;
use std::path::{Path, PathBuf};
use std::process::ExitCode;
use std::sync::{Mutex, OnceLock};
use std::time::{Duration, Instant};

use board::{Board, Task};
use edit::{Edit, Sources, Target};
use log::Log;
use scratch::{Base, Kit, Room, Scratch};

fn main() -> ExitCode {
    let arguments: Vec<String> = std::env::args().skip(1).collect();
    let done = repository().and_then(|root| match &arguments[..] {
        [word] if word == "list" => list(&root),
        names => try_all(&root, names),
    });
    match done {
        Ok(()) => ExitCode::SUCCESS,
        Err(why) => {
            eprintln!("wrong-builds: {why}");
            ExitCode::FAILURE
        }
    }
}

/// The folder of crates.txt, here or above.
fn repository() -> Result<PathBuf, String> {
    let here = std::env::current_dir().map_err(said)?;
    let root = here.ancestors().find(|folder| folder.join("crates.txt").is_file());
    root.map(Path::to_path_buf).ok_or("no crates.txt in this folder or above it".into())
}

/// The crates in the order of crates.txt.
fn crates(root: &Path) -> Result<Vec<String>, String> {
    let text = fs::read_to_string(root.join("crates.txt")).map_err(said)?;
    let lines = text.lines().filter(|line| !line.starts_with('#'));
    let heads = lines.filter_map(|line| line.split_once(':')?.0.split_whitespace().next());
    Ok(heads.map(str::to_string).collect())
}

/// The edits in a folder of a crate, by name.
fn edits(root: &Path, name: &str, folder: &str) -> Result<BTreeMap<String, Edit>, String> {
    let mut found = BTreeMap::new();
    let Ok(entries) = fs::read_dir(root.join("crates").join(name).join(folder)) else {
        return Ok(found);
    };
    for entry in entries {
        let path = entry.map_err(said)?.path();
        let (Some(stem), Some("edit")) =
            (path.file_stem(), path.extension().and_then(|e| e.to_str()))
        else {
            return Err(format!("{}: no edit", path.display()));
        };
        let text = fs::read_to_string(&path).map_err(said)?;
        let edit = Edit::parse(&text).map_err(|why| format!("{}: {why}", path.display()))?;
        found.insert(stem.to_string_lossy().into_owned(), edit);
    }
    Ok(found)
}

const FOLDERS: [&str; 2] = ["must-fail", "wrong-builds"];

fn list(root: &Path) -> Result<(), String> {
    let mut all = 0;
    for name in crates(root)? {
        let mut rows = Vec::new();
        for folder in FOLDERS {
            for (label, edit) in edits(root, &name, folder)? {
                rows.push(format!("| {label} | {folder} | {} |", edit.comment));
            }
        }
        if !rows.is_empty() {
            println!("### {name}: {}\n", rows.len());
            println!("| edit | in | the wrong answer that it stands for |\n|---|---|---|");
            println!("{}\n", rows.join("\n"));
        }
        all += rows.len();
    }
    println!("{all} edits");
    Ok(())
}

/// The edits of one crate that are to be tried.
struct Plan {
    name: String,
    sources: Sources,
    edits: Vec<(String, Edit)>,
    targets: Vec<Target>,
}

impl Plan {
    fn new(root: &Path, name: &str, edits: BTreeMap<String, Edit>) -> Result<Plan, String> {
        let sources = scratch::sources(&root.join("crates").join(name)).map_err(said)?;
        let edits: Vec<_> = edits.into_iter().collect();
        let target = |(label, edit): &(String, Edit)| {
            edit.apply(&mut sources.clone()).map_err(|why| format!("{name}/{label}: {why}"))
        };
        let targets = edits.iter().map(target).collect::<Result<_, _>>()?;
        Ok(Plan { name: name.to_string(), sources, edits, targets })
    }

    /// The sources with some of the edits in them. Each stood once alone, and does among the others, or the plan is refused.
    fn changed(&self, members: &[usize]) -> Result<Sources, String> {
        let mut sources = self.sources.clone();
        for &member in members {
            let (label, edit) = &self.edits[member];
            edit.apply(&mut sources).map_err(|why| format!("{}/{label}: {why}", self.name))?;
        }
        Ok(sources)
    }
}

fn plans(root: &Path, names: &[String]) -> Result<Vec<Plan>, String> {
    let mut wanted: BTreeMap<String, BTreeMap<String, Edit>> = BTreeMap::new();
    let crates = crates(root)?;
    for name in &crates {
        if names.is_empty() || names.contains(name) {
            wanted.insert(name.clone(), edits(root, name, "wrong-builds")?);
        }
    }
    for name in names.iter().filter(|name| !crates.contains(name)) {
        let (of, label) = name.split_once('/').ok_or(format!("{name} is no crate"))?;
        let mut all = edits(root, of, "must-fail")?;
        all.extend(edits(root, of, "wrong-builds")?);
        let edit = all.remove(label).ok_or(format!("there is no edit {name}"))?;
        wanted.entry(of.to_string()).or_default().insert(label.to_string(), edit);
    }
    wanted.retain(|_, edits| !edits.is_empty());
    if wanted.is_empty() {
        return Err("there is nothing to try".into());
    }
    wanted.into_iter().map(|(name, edits)| Plan::new(root, &name, edits)).collect()
}

type Results<'a> = BTreeMap<(&'a str, &'a str), Result<String, String>>;

/// What the workers share.
struct Work<'a> {
    root: &'a Path,
    kit: &'a Kit,
    plans: &'a [Plan],
    /// What the checks of each plan begin with, once its control is done.
    bases: Vec<OnceLock<Base>>,
    below: BTreeMap<String, BTreeSet<String>>,
    board: Board,
    spent: Spent,
    results: Mutex<Results<'a>>,
    /// How many checks tried edits, and how many of them one edit again.
    tries: Mutex<(usize, usize)>,
}

impl<'a> Work<'a> {
    /// Does tasks until none is left, or one cannot be done.
    fn go_on(&self, scratch: &Scratch) -> Result<(), String> {
        let can_begin = |task: &Task| match task {
            Task::Control(number) => self.is_next(*number),
            Task::Edits(..) => true,
        };
        let all = || {
            while let Some(task) = self.board.take(can_begin) {
                self.board.done(self.follow(scratch, task)?);
            }
            Ok(())
        };
        all().inspect_err(|_| self.board.stop())
    }

    /// Whether the crates below that of the plan are built, as far as they have a plan.
    fn is_next(&self, number: usize) -> bool {
        let below = &self.below[&self.plans[number].name];
        let plans = self.plans.iter().zip(&self.bases);
        plans.filter(|(plan, _)| below.contains(&plan.name)).all(|(_, base)| base.get().is_some())
    }

    /// Does one task, and answers those that follow from it.
    fn follow(&self, scratch: &Scratch, task: Task) -> Result<Vec<Task>, String> {
        match task {
            Task::Control(number) => {
                let plan = &self.plans[number];
                let control = || self.kit.control(self.root, &plan.name);
                let log = self.spent.on(&plan.name, control).map_err(said)?;
                if !log.is_proved() {
                    return Err(format!("{} is not proved as it stands:\n{}", plan.name, log.text));
                }
                let base = scratch.base(self.root, &plan.name, &plan.sources).map_err(said)?;
                let _ = self.bases[number].set(base);
                let groups = edit::groups(&plan.targets).into_iter();
                Ok(groups.map(|members| Task::Edits(number, members)).collect())
            }
            Task::Edits(number, members) => {
                let plan = &self.plans[number];
                let base = self.bases[number].get().ok_or("edits before their control")?;
                let attempt = || attempt(self.root, scratch, base, plan, &members);
                let shown = self.spent.on(&plan.name, attempt)?;
                let mut alone = Vec::new();
                for (&member, result) in members.iter().zip(shown) {
                    if result.is_err() && members.len() > 1 {
                        alone.push(Task::Edits(number, vec![member]));
                    } else {
                        let named = (&plan.name[..], &plan.edits[member].0[..]);
                        self.results.lock().unwrap().insert(named, result);
                    }
                }
                let mut tries = self.tries.lock().unwrap();
                *tries = (tries.0 + 1, tries.1 + alone.len());
                Ok(alone)
            }
        }
    }
}

fn try_all(root: &Path, names: &[String]) -> Result<(), String> {
    let began = Instant::now();
    let plans = plans(root, names)?;
    let kit = Kit::find().map_err(said)?;
    let room = Room::new().map_err(said)?;
    let workers: Vec<Scratch> =
        (0..worker_count()).map(|number| Scratch::new(&kit, &room, number)).collect();

    let work = Work {
        root,
        kit: &kit,
        plans: &plans,
        bases: plans.iter().map(|_| OnceLock::new()).collect(),
        below: scratch::crates_below(root).map_err(said)?,
        board: Board::new((0..plans.len()).map(Task::Control).collect()),
        spent: Spent::default(),
        results: Mutex::default(),
        tries: Mutex::default(),
    };
    std::thread::scope(|scope| {
        let each: Vec<_> = workers.iter().map(|one| scope.spawn(|| work.go_on(one))).collect();
        each.into_iter().map(|one| one.join().unwrap()).collect::<Result<Vec<()>, _>>()
    })?;

    let Work { spent, results, tries, .. } = work;
    let (results, (tries, again)) = (results.into_inner().unwrap(), tries.into_inner().unwrap());
    for ((name, label), result) in &results {
        match result {
            Ok(error) => println!("{name}/{label}: refused at {error}"),
            Err(why) => println!("{name}/{label}: FAILED: {why}"),
        }
    }
    println!("wrong-builds: a worker's seconds on each crate: {spent}");
    let failed = results.values().filter(|result| result.is_err()).count();
    println!(
        "wrong-builds: {} refused, {failed} not, in {} crates, each proved as it stands ({tries} checks, {again} alone again; {} s)",
        results.len() - failed,
        plans.len(),
        began.elapsed().as_secs()
    );
    if failed == 0 && results.len() == plans.iter().map(|plan| plan.edits.len()).sum() {
        return Ok(());
    }
    Err(format!("{failed} wrong builds are not refused as they must be"))
}

/// How long the workers were at each crate.
#[derive(Default)]
struct Spent(Mutex<BTreeMap<String, Duration>>);

impl Spent {
    fn on<R>(&self, name: &str, work: impl FnOnce() -> R) -> R {
        let began = Instant::now();
        let result = work();
        *self.0.lock().unwrap().entry(name.to_string()).or_default() += began.elapsed();
        result
    }
}

impl fmt::Display for Spent {
    fn fmt(&self, f: &mut fmt::Formatter) -> fmt::Result {
        let spent = self.0.lock().unwrap();
        let each: Vec<String> =
            spent.iter().map(|(name, time)| format!("{name} {}", time.as_secs())).collect();
        f.write_str(&each.join(", "))
    }
}

/// Tries some edits of a plan together, and answers what that showed of each.
fn attempt(
    root: &Path,
    scratch: &Scratch,
    base: &Base,
    plan: &Plan,
    members: &[usize],
) -> Result<Vec<Result<String, String>>, String> {
    let mut changed = match plan.changed(members) {
        // edits that do not go together are tried alone
        Err(why) if members.len() > 1 => {
            return Ok(members.iter().map(|_| Err(why.clone())).collect())
        }
        other => other?,
    };
    let units = function::units(&changed);
    let bodies: Option<Vec<_>> =
        members.iter().map(|&member| plan.targets[member].bodies()).collect();
    let names: BTreeSet<String> =
        bodies.iter().flatten().flat_map(|names| names.iter().cloned()).collect();
    let is_cited = |file: &String| {
        function::proved_in(file).is_some_and(|unit| bodies.is_none() || names.contains(&unit))
    };
    let is_in_code = members.iter().any(|&member| plan.edits[member].1.is_in_code());
    if is_in_code && changed.keys().any(is_cited) {
        respell(scratch, base, &plan.name, &mut changed).map_err(said)?;
    }
    let functions =
        names.iter().filter_map(|name| units.get(name)).flat_map(|unit| &unit.functions);
    let only = functions.map(|function| format!("{}::{function}", plan.name)).collect();
    let log = scratch.check(base, &plan.name, &changed, &only).map_err(said)?;
    for &member in members {
        keep(root, &plan.name, &plan.edits[member].0, &log).map_err(said)?;
    }
    if let Some(name) = log.lost(&plan.name, &names, &units).filter(|_| bodies.is_some()) {
        let why = format!("{name}, which is as it was, is not proved");
        return Ok(members.iter().map(|_| Err(why.clone())).collect());
    }
    let refusal = |&member: &usize| log.refusal(&plan.name, &plan.targets[member], &units);
    Ok(members.iter().map(refusal).collect())
}

/// Brings proofs to the names that the changed code gives to its steps, places and goals.
fn respell(
    scratch: &Scratch,
    base: &Base,
    crate_name: &str,
    changed: &mut Sources,
) -> io::Result<()> {
    let Some(before) = &base.names else { return Ok(()) };
    let Some(after) = scratch.names(base, crate_name, changed)? else { return Ok(()) };
    for (file, text) in changed {
        if let Some(unit) = function::proved_in(file) {
            *text = names::respelled(text, &before.changed(&after, &unit));
        }
    }
    Ok(())
}

fn keep(root: &Path, name: &str, label: &str, log: &Log) -> io::Result<()> {
    let folder = root.join("target/wrong-builds").join(name);
    fs::create_dir_all(&folder)?;
    fs::write(folder.join(format!("{label}.log")), &log.text)
}

/// RT_JOBS, or the processors, but no more than there is memory for: a check was seen to take 2 GiB.
fn worker_count() -> u64 {
    let asked = std::env::var("RT_JOBS").ok().and_then(|jobs| jobs.parse().ok());
    let memory = fs::read_to_string("/proc/meminfo").unwrap_or_default();
    let free = memory.lines().find_map(|line| line.strip_prefix("MemAvailable:"));
    let free = free.and_then(|line| line.split_whitespace().next()?.parse::<u64>().ok());
    let most = free.map_or(8, |kib| kib >> 21);
    let processors = || std::thread::available_parallelism().map_or(1, |n| n.get() as u64);
    asked.unwrap_or_else(|| processors().min(most)).max(1)
}

fn said(error: io::Error) -> String {
    error.to_string()
}
