//! Where wrong builds are tried: copies of a crate, over what `rt check` kept of it.

use std::collections::{BTreeMap, BTreeSet};
use std::fs;
use std::io;
use std::path::{Path, PathBuf};
use std::process::{Command, Stdio};

use crate::edit::Sources;
use crate::log::Log;
use crate::names::Names;

/// The toolchain that `rt` is of.
pub struct Kit {
    bin: PathBuf,
}

/// Writes the words of a check of a crate, one a line, as rt itself puts them together for a must-fail edit.
const WORDS: &str = "\
import sys
sys.path.insert(0, sys.argv[1])
import rtlib
print('\\n'.join(rtlib.Crate(sys.argv[2], sys.argv[3], {}).words(['--jobs', '1'], keeps=False)))
";

impl Kit {
    pub fn find() -> io::Result<Kit> {
        let path = std::env::var_os("PATH").unwrap_or_default();
        let rt =
            std::env::split_paths(&path).map(|folder| folder.join("rt")).find(|rt| rt.is_file());
        let rt = rt.ok_or(io::Error::other("no `rt` in PATH"))?.canonicalize()?;
        Ok(Kit { bin: rt.parent().unwrap_or(Path::new("/")).to_path_buf() })
    }

    /// Checks a crate where it stands, and those below it that are not built. What it proves is kept in the crate's out/.
    pub fn control(&self, root: &Path, name: &str) -> io::Result<Log> {
        run(Command::new(self.bin.join("rt")).arg("check").current_dir(home(root, name)))
    }

    /// The words of a check of a crate over the libraries below it.
    fn words(&self, root: &Path, name: &str) -> io::Result<Vec<String>> {
        let mut python = Command::new("python3");
        python.args(["-c", WORDS]).arg(&self.bin).arg(home(root, name)).arg(root);
        let log = run(&mut python)?;
        match log.status {
            Some(0) => Ok(log.text.lines().map(str::to_string).collect()),
            _ => Err(io::Error::other(format!(
                "rt says no words of a check of {name}: {}",
                log.text
            ))),
        }
    }
}

fn home(root: &Path, name: &str) -> PathBuf {
    root.join("crates").join(name)
}

/// The folder of all copies, removed at the end.
pub struct Room {
    path: PathBuf,
}

impl Room {
    pub fn new() -> io::Result<Room> {
        let path = std::env::temp_dir().join(format!("wrong-builds.{}", std::process::id()));
        remove(&path)?;
        fs::create_dir(&path)?;
        Ok(Room { path })
    }
}

impl Drop for Room {
    fn drop(&mut self) {
        let _ = fs::remove_dir_all(&self.path);
    }
}

/// What checks of a crate begin with: their words, what was proved of the crate, and the names that its proofs cite.
pub struct Base {
    words: Vec<String>,
    proved: PathBuf,
    pub names: Option<Names>,
}

/// One worker's place.
pub struct Scratch<'a> {
    kit: &'a Kit,
    room: &'a Path,
    home: PathBuf,
}

impl<'a> Scratch<'a> {
    pub fn new(kit: &'a Kit, room: &'a Room, number: u64) -> Scratch<'a> {
        Scratch { kit, room: &room.path, home: room.path.join(number.to_string()) }
    }

    /// Takes what `rt check` proved of a crate.
    pub fn base(&self, root: &Path, name: &str, sources: &Sources) -> io::Result<Base> {
        let words = self.kit.words(root, name)?;
        let proved = self.room.join("proved").join(name);
        link(&home(root, name).join("out/incremental"), &proved)?;
        let base = Base { words, proved, names: None };
        let names = self.names(&base, name, sources)?;
        Ok(Base { names, ..base })
    }

    /// Checks a crate as these sources have it: the functions named and those that they call, or all where none is named.
    pub fn check(
        &self,
        base: &Base,
        name: &str,
        sources: &Sources,
        only: &BTreeSet<String>,
    ) -> io::Result<Log> {
        let flags = only.iter().flat_map(|function| ["--only", function]);
        self.rattle(base, name, sources, flags.collect())
    }

    /// The names that the proofs of these sources cite, where the prover tells them.
    pub fn names(&self, base: &Base, name: &str, sources: &Sources) -> io::Result<Option<Names>> {
        let to = self.home.join("generated");
        remove(&to)?;
        let folder = to.to_string_lossy().into_owned();
        self.rattle(base, name, sources, vec!["--generated", &folder, "--old-names"])?;
        let text = fs::read_to_string(to.join("names.json")).ok();
        Ok(text.and_then(|text| Names::read(&text, name)))
    }

    fn rattle(
        &self,
        base: &Base,
        name: &str,
        sources: &Sources,
        flags: Vec<&str>,
    ) -> io::Result<Log> {
        let (copy, begun) = (self.home.join(name), self.home.join("begun"));
        write(&copy, sources)?;
        remove(&begun)?;
        link(&base.proved, &begun)?;
        let mut rattle = Command::new(self.kit.bin.join("rattle"));
        rattle.arg("check").args(&base.words).args(flags).arg("--incremental").arg(&begun);
        let log = run(rattle.current_dir(&copy));
        remove(&begun)?;
        log
    }
}

fn run(command: &mut Command) -> io::Result<Log> {
    let done = command.stdin(Stdio::null()).output()?;
    let text = String::from_utf8_lossy(&done.stderr) + String::from_utf8_lossy(&done.stdout);
    Ok(Log { status: done.status.code(), text: text.into_owned() })
}

/// Makes the files of a copy be these and no others, and leaves those that are so already.
fn write(copy: &Path, files: &Sources) -> io::Result<()> {
    let there = sources(copy)?;
    for file in there.keys().filter(|file| !files.contains_key(*file)) {
        fs::remove_file(copy.join(file))?;
    }
    for (file, text) in files.iter().filter(|(file, text)| there.get(*file) != Some(text)) {
        let path = copy.join(file);
        fs::create_dir_all(path.parent().unwrap_or(copy))?;
        fs::write(path, text)?;
    }
    Ok(())
}

/// The crates of the repository that each crate stands on, by crates.txt.
pub fn crates_below(root: &Path) -> io::Result<BTreeMap<String, BTreeSet<String>>> {
    let text = fs::read_to_string(root.join("crates.txt"))?;
    let lines = text.lines().filter_map(|line| line.split('#').next()?.split_once(':'));
    let named = lines.map(|(name, below)| (name.split_whitespace().next().unwrap_or(""), below));
    let direct: BTreeMap<&str, &str> = named.collect();
    let below = |name: &str| {
        let (mut found, mut open) = (BTreeSet::new(), vec![name]);
        while let Some(line) = open.pop().and_then(|next| direct.get(next)) {
            let fresh = line.split_whitespace().filter(|next| direct.contains_key(next));
            open.extend(fresh.filter(|next| found.insert(next.to_string())));
        }
        found
    };
    Ok(direct.keys().map(|name| (name.to_string(), below(name))).collect())
}

/// The files of a crate that an edit can change.
pub fn sources(crate_home: &Path) -> io::Result<Sources> {
    let mut found = Sources::new();
    for part in ["src", "specs", "proofs"] {
        read_into(&mut found, crate_home, part)?;
    }
    Ok(found)
}

fn read_into(found: &mut Sources, home: &Path, part: &str) -> io::Result<()> {
    let path = home.join(part);
    if path.is_dir() {
        for entry in fs::read_dir(path)? {
            let name = entry?.file_name();
            read_into(found, home, &format!("{part}/{}", name.to_string_lossy()))?;
        }
    } else if path.is_file() {
        found.insert(part.to_string(), fs::read_to_string(path)?);
    }
    Ok(())
}

fn remove(path: &Path) -> io::Result<()> {
    match fs::remove_dir_all(path) {
        Err(error) if error.kind() != io::ErrorKind::NotFound => Err(error),
        _ => Ok(()),
    }
}

/// Copies a folder of checked modules. The modules themselves get a second name where one can be made: a check replaces such
/// a file, and changes none.
fn link(from: &Path, to: &Path) -> io::Result<()> {
    if from.is_dir() {
        fs::create_dir_all(to)?;
        for entry in fs::read_dir(from)? {
            let entry = entry?;
            link(&entry.path(), &to.join(entry.file_name()))?;
        }
        return Ok(());
    }
    let is_module = from.extension().is_some_and(|ending| ending == "oantt");
    if is_module && fs::hard_link(from, to).is_ok() {
        return Ok(());
    }
    fs::copy(from, to).map(|_| ())
}
