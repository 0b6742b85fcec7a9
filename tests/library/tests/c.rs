//! The library called from C and C++, over the header that the repository ships.

use std::fmt::Write as _;
use std::io::Write as _;
use std::path::{Path, PathBuf};
use std::process::{Command, Stdio};

use library::walker::WALKER;
use library::{files, Called, Record, Reply, Report, Settings};
use reference::encoding::MAX_WORDS;
use reference::random::permitted_settings;

/// A compiler, and what makes it take a source for its own language.
type Compiler = (&'static str, [&'static str; 3]);

const COMPILERS: [Compiler; 2] =
    [("cc", ["-x", "c", "-std=c11"]), ("c++", ["-x", "c++", "-std=c++11"])];

#[test]
fn a_c_program_reads_charts() {
    for compiler in COMPILERS {
        let program = compiled("read", compiler);
        assert_eq!(output(&program, files::case_a()), "0\t0\t0\t1\n");
        assert_eq!(output(&program, &files::largest()), "0\t0\t0\t1\n");
        assert_eq!(output(&program, &files::drawn_out()), "7\t328\t0\t0\n");
        assert_eq!(output(&program, b""), "8\t0\t0\t0\n");
    }
}

/// Every field of every answer, as the walker has it.
#[test]
fn a_c_program_walks_case_a() {
    let expected = Shown::walks();
    for part in [
        include_str!("../../cases/dagger-a-room-6.out"),
        "\nwalk\tjoin\tjoin\told\talarm\t5\t5\t6\n",
        "\nbegin: 13 0 0, record",
        "\nbegin: 14 0 0, record",
        "\nrun: 22 0 0, record",
        "\nlisting: 15 0 0, record",
        include_str!("../../cases/2.2-path-a-join-new.out"),
        "\npath: 15 0 0, record",
        "\npath: 24 0 0, record",
        "\nbegin: 6 0 0, record",
    ] {
        assert!(expected.contains(part), "{part} is not in\n{expected}");
    }
    for compiler in COMPILERS {
        assert_eq!(output(&compiled("walk", compiler), files::case_a()), expected, "{compiler:?}");
    }
}

/// Every bound, with bytes that are just enough and just not, as the walker has it.
#[test]
fn a_c_program_searches() {
    let overrun: &[u8] = b"V\tx\t0\t4\t*\nL\ta\to\nL\tb\to\nE\t0\t0\tset\t$0\t0\nE\t0\t1\tin\t$0\t1\t3\nE\t1\t1\tadd\t$0\t$0\t2\n";
    let wide: &[u8] = b"V\tx\t0\t4096\t*\nL\ta\to\n";
    let all = [files::case_a(), overrun, wide].map(|file| (file, searches(file)));
    for (place, part) in [
        (0, "search 8: 0 0 7, 0 touched\nnone\t8\n"),
        (1, "run\t2\n0\ta\t0\n2\tb\t3\n3\n"),
        (1, "search 2: 15 0 0, 0 touched\n"),
        (1, "search -1: 30 0 0, 0 touched\n"),
        (1, "search 9: 30 0 0, 0 touched\n"),
        (1, "search 8: 20 0 0, 0 touched\n"),
        (2, "search 8: 31 0 0, 0 touched\n"),
    ] {
        assert!(all[place].1.contains(part), "{part} is not in\n{}", all[place].1);
    }
    for compiler in COMPILERS {
        let program = compiled("search", compiler);
        for (file, expected) in &all {
            assert_eq!(output(&program, file), *expected, "{compiler:?}");
        }
    }
}

/// What `c/search.c` prints, by the walker's calls.
fn searches(file: &[u8]) -> String {
    let mut chart = vec![0; MAX_WORDS];
    let Reply { number, line, length } = (WALKER.read)(file, &mut chart);
    let mut text = format!("read: {number} {line} {length}\n");
    let mut search = |chart: &[i32], bound: i32, lent: usize| {
        let mut space = vec![0; lent];
        let Reply { number, line, length } = (WALKER.search)(chart, bound, &mut space);
        text += &format!("search {bound}: {number} {line} {length}, 0 touched\n");
        text += std::str::from_utf8(&space[..length]).expect("it is text");
        length
    };
    for bound in -1..=9 {
        let written = search(&chart, bound, Shown::SPACE);
        if written > 0 {
            search(&chart, bound, written);
            search(&chart, bound, written - 1);
        }
    }
    search(&chart[..3], 8, Shown::SPACE);
    text
}

/// What `c/walk.c` prints, by the walker's calls.
struct Shown {
    chart: Vec<i32>,
    record: Record,
    table: [i32; Shown::TABLE],
    list: [i32; Shown::ROOM],
    text: String,
}

impl Shown {
    const ROOM: usize = 6;
    const TABLE: usize = Shown::ROOM * (3 + 3);
    const SPACE: usize = 24_576;
    const NO_MERGE: u32 = 7;

    fn walks() -> String {
        let mut shown = Shown {
            chart: vec![0; MAX_WORDS],
            record: Record::NONE,
            table: [0; Shown::TABLE],
            list: [0; Shown::ROOM],
            text: format!("{MAX_WORDS} {} {} {}\n", 256 * 11, 256, Shown::SPACE),
        };
        let reply = (WALKER.read)(files::case_a(), &mut shown.chart);
        shown.show("read", reply);
        for settings in permitted_settings() {
            shown.walk(Settings::from(settings));
        }
        shown.text
    }

    fn walk(&mut self, settings: Settings) {
        self.begin(settings, 100, Shown::TABLE - 1);
        self.begin(settings, 0, Shown::TABLE);
        for budget in [0, 1, 2] {
            self.run(budget);
        }
        self.path(Shown::SPACE);
        for budget in [100, 100] {
            self.run(budget);
        }
        let length = self.listing(Shown::SPACE);
        self.listing(length - 1);
        let length = self.path(Shown::SPACE);
        if length > 0 {
            self.path(length - 1);
        }
        self.begin(settings, -1, Shown::TABLE - 1);
        self.begin(settings, 3, Shown::TABLE);
        self.begin(settings, 100, Shown::TABLE);
        self.listing(Shown::SPACE);
        self.begin(Settings { merge: Shown::NO_MERGE, ..settings }, -1, Shown::TABLE - 1);
    }

    fn begin(&mut self, settings: Settings, budget: i32, lent: usize) {
        let Shown { chart, record, table, list, .. } = self;
        let (table, capacity) = (&mut table[..lent], Shown::ROOM as i32);
        let called = (WALKER.begin)(chart, settings, capacity, budget, *record, table, list);
        self.take("begin", called);
    }

    fn run(&mut self, budget: i32) {
        let called =
            (WALKER.run)(&self.chart, budget, self.record, &mut self.table, &mut self.list);
        self.take("run", called);
    }

    fn listing(&mut self, lent: usize) -> usize {
        self.report("listing", WALKER.listing, lent)
    }

    fn path(&mut self, lent: usize) -> usize {
        self.report("path", WALKER.path, lent)
    }

    fn report(&mut self, name: &str, call: Report, lent: usize) -> usize {
        let mut space = vec![0; lent];
        let reply = call(&self.chart, self.record, &self.table, &self.list, &mut space);
        self.show(name, reply);
        self.text += std::str::from_utf8(&space[..reply.length]).expect("it is text");
        reply.length
    }

    fn take(&mut self, name: &str, called: Called) {
        self.record = called.record;
        self.show(name, called.reply);
    }

    fn show(&mut self, name: &str, reply: Reply) {
        let Reply { number, line, length } = reply;
        let Record { merge, stop, order, capacity, iterations, used, waiting, verdict, edge } =
            self.record;
        let words = |words: &[i32]| words.iter().map(|word| format!(" {word}")).collect::<String>();
        writeln!(
            self.text,
            "{name}: {number} {line} {length}, record {merge} {stop} {order} {capacity} {iterations} \
             {used} {waiting} {verdict} {edge}, table{}, list{}",
            words(&self.table),
            words(&self.list),
        )
        .expect("a string takes every write");
    }
}

fn compiled(name: &str, (compiler, language): Compiler) -> PathBuf {
    let package = Path::new(env!("CARGO_MANIFEST_DIR"));
    let program = Path::new(env!("CARGO_TARGET_TMPDIR")).join(format!("{name}-{compiler}"));
    let status = Command::new(compiler)
        .args(language)
        .args(["-pedantic", "-Wall", "-Wextra", "-Werror", "-I"])
        .arg(package.join("../../include"))
        .arg(package.join("c").join(name).with_extension("c"))
        .args(["-x", "none"])
        .arg(package.join("../../target/staticlib/libtarknotter.a"))
        .arg("-o")
        .arg(&program)
        .status()
        .expect("the compiler runs");
    assert!(status.success(), "{compiler} refuses {name}.c");
    program
}

fn output(program: &Path, input: &[u8]) -> String {
    let mut running = Command::new(program)
        .stdin(Stdio::piped())
        .stdout(Stdio::piped())
        .spawn()
        .expect("the program runs");
    let mut stdin = running.stdin.take().expect("its input is piped");
    stdin.write_all(input).expect("it reads its input");
    drop(stdin);
    let output = running.wait_with_output().expect("it ends");
    assert!(output.status.success());
    String::from_utf8(output.stdout).expect("it prints text")
}
