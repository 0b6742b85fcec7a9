//! What the walk program is started with: a listing without an argument, a path, a search, help, and one line on
//! standard error for all else; and the hint on standard error where it waits for somebody to type.

mod calls;

use std::ffi::OsStr;
use std::fs::File;
use std::io::{self, Write};
use std::os::fd::AsFd;
use std::os::unix::ffi::OsStrExt;
use std::os::unix::process::CommandExt;
use std::path::Path;
use std::process::{Child, Command, Output, Stdio};

use calls::with_calls;
use program::{command, ended, has_said, said, system};
use reference::program::asked;

/// An alarm, so that a path is printed.
const INPUT: &[u8] = b"go\tjoin\tjoin\tnew\t16\t100\nL\ta\to\nL\tb\te\nE\t0\t1\tskip\n";
/// Without a go line, and with a run of one move.
const CHART: &[u8] = b"L\ta\to\nL\tb\te\nE\t0\t1\tskip\n";
/// Arguments and an input for them.
const COMMANDS: [(&[&str], &[u8]); 3] =
    [(&[], INPUT), (&["path"], INPUT), (&["search", "3"], CHART)];

fn expected(arguments: &[&str], input: &[u8]) -> Vec<u8> {
    asked(arguments).expect("they ask for something").respond(input)
}

fn shown(bytes: &[u8]) -> String {
    bytes.escape_ascii().to_string()
}

/// It said one line of text on standard error and printed nothing.
fn assert_one_line(ended: &Output, case: &str) {
    assert!(ended.stdout.is_empty(), "{case}: it printed {}", shown(&ended.stdout));
    let line = ended.stderr.strip_suffix(b"\n").unwrap_or_default();
    let is_one = !line.is_empty() && !line.contains(&b'\n');
    assert!(is_one, "{case}: it said {}", shown(&ended.stderr));
}

/// It printed a text about its arguments, and said nothing on standard error.
fn assert_helps(ended: &Output) {
    assert_eq!(shown(&ended.stderr), "");
    let text = std::str::from_utf8(&ended.stdout).expect("help is text");
    assert!(text.ends_with('\n'), "{text}");
    for command in ["walk path", "walk search"] {
        assert!(text.contains(command), "{command} is not in {text}");
    }
}

/// Whatever is wrong in the input: refusals come before the path, and without an alarm it is 24.
#[test]
fn a_path_or_why_there_is_none() {
    const CHART: &str = "V\tx\t0\t9\t0\nL\ta\to\nL\tb\to\nE\t0\t1\tset\t$0\t9\n";
    const OVERRUN: &str = "E\t1\t0\tadd\t$0\t$0\t1\n";
    let path = |input: &str| shown(&program::output(&["path"], input.as_bytes()));
    for (input, expected) in [
        (format!("go\tsep\tsep\told\t9\t9\n{CHART}"), "refused\t24\t0\n"),
        (format!("go\tsep\tsep\told\t1\t9\n{CHART}{OVERRUN}"), "refused\t24\t0\n"),
        (format!("go\tsep\tsep\told\t9\t1\n{CHART}{OVERRUN}"), "refused\t24\t0\n"),
        (format!("go\tsep\tjoin\told\t9\t9\n{CHART}{OVERRUN}"), "refused\t12\t0\n"),
        (format!("go\tsep\tsep\told\t9\t9\n{CHART}{CHART}"), "refused\t4\t5\n"),
        (format!("{CHART}{OVERRUN}"), "refused\t5\t0\n"),
        (String::new(), "refused\t3\t0\n"),
        (
            format!("go\tsep\tsep\told\t9\t9\n{CHART}{OVERRUN}"),
            "path\tsep\t2\n0\t0\ta\t0\t-\n1\t1\tb\t9\tw\n",
        ),
    ] {
        assert_eq!(path(&input), shown(expected.as_bytes()), "{input}");
    }
}

/// The bound is judged before the chart, and its form before its size; the chart before its size.
#[test]
fn a_run_or_why_there_is_none() {
    const WIDE: &str = "V\tx\t0\t4096\t*\nL\ta\to\n";
    let search =
        |bound: &str, input: &str| shown(&program::output(&["search", bound], input.as_bytes()));
    for (bound, input, expected) in [
        ("x", "V", "refused\t6\t0\n"),
        ("", "", "refused\t6\t0\n"),
        ("08", WIDE, "refused\t6\t0\n"),
        ("9", "V", "refused\t30\t0\n"),
        ("-1", WIDE, "refused\t30\t0\n"),
        ("8", "V", "refused\t3\t1\n"),
        ("8", "", "refused\t8\t0\n"),
        ("0", WIDE, "refused\t31\t0\n"),
        ("0", &WIDE[..WIDE.len() - 2], "refused\t3\t2\n"),
        ("0", "L\ta\to\n", "none\t0\n"),
        ("8", "L\ta\te\n", "run\t0\n0\ta\n"),
        ("1", "V\tx\t0\t1\t*\nL\ta\to\nE\t0\t0\tadd\t$0\t$0\t1\n", "run\t1\n0\ta\t1\n1\n"),
    ] {
        assert_eq!(search(bound, input), shown(expected.as_bytes()), "{bound}, {input}");
    }
}

/// Its input is left to whoever reads next, even one that never ends or cannot be read.
#[test]
fn help_reads_nothing() {
    let (reader, mut writer) = io::pipe().expect("a pipe");
    writer.write_all(INPUT).expect("the pipe holds it");
    let stdin = reader.try_clone().expect("the end can be shared");
    let running = command().arg("help").stdin(stdin).spawn().expect("the program can be started");
    assert_helps(&said(running));
    assert_eq!(system::unread(&reader), INPUT.len());

    let directory = File::open(env!("CARGO_MANIFEST_DIR")).expect("a directory can be opened");
    let running = command().arg("help").stdin(directory).spawn();
    assert_helps(&said(running.expect("the program can be started")));

    let mut command = command();
    system::start_without(command.arg("help").stdin(Stdio::null()), 0);
    assert_helps(&said(command.spawn().expect("the program can be started")));
}

/// What help says that its example prints is what the example prints.
#[test]
fn the_example_of_help_is_true() {
    let help = ended(command().arg("help"), &[]).stdout;
    let help = String::from_utf8(help).expect("help is text");
    let (_, example) = help.split_once("printf '").expect("there is an example");
    let (input, rest) = example.split_once("' | walk path\n\n").expect("it asks for a path");
    let (expected, _) = rest.split_once("\n\n").expect("it is followed by what it prints");
    let input = input.replace("\\t", "\t").replace("\\n", "\n");
    assert_eq!(
        shown(&program::output(&["path"], input.as_bytes())),
        shown(format!("{expected}\n").as_bytes())
    );
}

#[test]
fn help_that_cannot_be_printed_is_told() {
    let full = File::options().write(true).open("/dev/full").expect("/dev/full can be opened");
    let ended = ended(command().arg("help").stdout(full), &[]);
    assert_eq!(shown(&ended.stderr), "walk: standard output: No space left on device\\n");
}

/// Each must be taken for what it is, whatever stands in it.
fn other_arguments() -> Vec<Vec<Vec<u8>>> {
    let words: [&[u8]; 30] = [
        b"",
        b" ",
        b"Path",
        b"PATH",
        b"pat",
        b"pathx",
        b"paths",
        b"xpath",
        b"path ",
        b" path",
        b"path\t",
        b"path\n",
        b"path\tpath",
        b"qath",
        b"patg",
        b"Help",
        b"hel",
        b"helpx",
        b"help ",
        b"gelp",
        b"-h",
        b"--help",
        b"--path",
        b"walk",
        b"listing",
        b"\n",
        b"a\nb\n\nc",
        b"%s%n%d",
        b"\x1b[2J\r",
        b"\xff\xfe\x80",
    ];
    let mut all: Vec<Vec<Vec<u8>>> = words.iter().map(|word| vec![word.to_vec()]).collect();
    for length in [63, 64, 65, 4_095, 4_096, 4_097, 32_833, 100_000] {
        all.push(vec![vec![b'p'; length]]);
        all.push(vec![[&b"path"[..], &vec![b'x'; length]].concat()]);
        all.push(vec![[&b"help"[..], &vec![b'\n'; length]].concat()]);
    }
    for words in [
        &["path", "path"][..],
        &["path", ""],
        &["path", "x"],
        &["path", "help"],
        &["help", "help"],
        &["help", ""],
        &["help", "path"],
        &["", "path"],
        &["", ""],
        &["x", "path"],
        &["pa", "th"],
        &["search"],
        &["search", "1", "2"],
        &["search", "1", ""],
        &["search", "", ""],
        &["search", "1", "search", "1"],
        &["search1"],
        &["search 1"],
        &["search\n1"],
        &["Search", "1"],
        &["searc", "1"],
        &["searchx", "1"],
        &["search ", "1"],
        &["search\n", "1"],
        &[" search", "1"],
        &["tearch", "1"],
        &["searci", "1"],
        &["1", "search"],
        &["path", "1"],
        &["help", "1"],
        &["", "1"],
        &["1"],
    ] {
        all.push(words.iter().map(|word| word.as_bytes().to_vec()).collect());
    }
    all.push(vec![b"path".to_vec(); 1_000]);
    all
}

fn with_arguments(command: &mut Command, arguments: &[Vec<u8>]) -> Output {
    ended(command.args(arguments.iter().map(|argument| OsStr::from_bytes(argument))), &[INPUT])
}

fn case(arguments: &[Vec<u8>]) -> String {
    let words = arguments.iter().map(|argument| shown(&argument[..argument.len().min(40)]));
    words.collect::<Vec<_>>().join(", ")
}

#[test]
fn other_arguments_are_told() {
    for arguments in other_arguments() {
        assert_one_line(&with_arguments(&mut command(), &arguments), &case(&arguments));
    }
}

/// With an input that cannot be read, or none.
#[test]
fn other_arguments_are_told_whatever_the_input() {
    for word in ["", "Path", "helpx"] {
        for input in [&b""[..], b"\0", &[b'x'; 60_000]] {
            assert_one_line(&ended(command().arg(word), &[input]), word);
        }
        let directory = File::open(env!("CARGO_MANIFEST_DIR")).expect("a directory can be opened");
        let running = command().arg(word).stdin(directory).spawn();
        assert_one_line(&said(running.expect("the program can be started")), word);
        let mut command = command();
        system::start_without(command.arg(word).stdin(Stdio::null()), 0);
        assert_one_line(&said(command.spawn().expect("the program can be started")), word);
    }
}

/// Its name is no argument, even one that looks like it.
#[test]
fn the_name_of_the_program_is_no_argument() {
    for name in ["path", "search", "help", "", "x"] {
        for (arguments, input) in COMMANDS {
            let ended = ended(command().arg0(name).args(arguments), &[input]);
            assert_eq!(shown(&ended.stdout), shown(&expected(arguments, input)), "{name}");
            assert_eq!(shown(&ended.stderr), "", "{name}");
        }
    }
}

/// Before anything is read: nothing is there to be read until the hint has come.
#[test]
fn a_terminal_is_given_a_hint() {
    for (arguments, input) in COMMANDS {
        let mut command = with_calls(&[("TERMINAL", 1)]);
        let mut running = command.args(arguments).spawn().expect("the program can be started");
        assert_says_first(&mut running);
        let mut stdin = running.stdin.take().expect("its input is piped");
        stdin.write_all(input).expect("it reads its input");
        drop(stdin);
        assert_hinted(&said(running), arguments, input);
    }
}

fn assert_says_first(running: &mut Child) {
    let stderr = running.stderr.as_ref().expect("it is piped");
    let stderr = stderr.as_fd().try_clone_to_owned().expect("the end can be shared");
    assert!(has_said(&stderr, running), "it ended without a hint");
}

fn assert_hinted(ended: &Output, arguments: &[&str], input: &[u8]) {
    assert_eq!(shown(&ended.stdout), shown(&expected(arguments, input)));
    let hint = std::str::from_utf8(&ended.stderr).expect("the hint is text");
    assert!(hint.ends_with('\n') && hint.trim().len() > 1, "{hint}");
}

/// As above with a real one, of which what is typed is read line by line up to a control-D.
#[test]
fn a_real_terminal_is_given_a_hint() {
    for (arguments, input) in COMMANDS {
        let (mut typing, reading) = system::terminal();
        let mut running =
            command().args(arguments).stdin(reading).spawn().expect("the program can be started");
        assert_says_first(&mut running);
        typing.write_all(&[input, b"\x04"].concat()).expect("the terminal takes it");
        assert_hinted(&said(running), arguments, input);
    }
}

/// What reads nothing has no hint to give.
#[test]
fn help_and_other_arguments_have_no_hint() {
    let terminal = || with_calls(&[("TERMINAL", 1)]);
    assert_helps(&ended(terminal().arg("help"), &[]));
    assert_one_line(&ended(terminal().arg("pathx"), &[]), "pathx");
    assert_one_line(&ended(terminal().args(["path", "x"]), &[]), "path x");
    assert_one_line(&ended(terminal().arg("search"), &[]), "search");
    assert_one_line(&ended(terminal().args(["search", "1", "2"]), &[]), "search 1 2");
}

/// Where nobody types there is no hint: `output` holds every other test to that, and so does a file.
#[test]
fn a_file_is_given_no_hint() {
    for (arguments, input) in COMMANDS {
        let path = Path::new(env!("CARGO_TARGET_TMPDIR")).join("alarm.in");
        std::fs::write(&path, input).expect("the input can be written");
        let file = File::open(&path).expect("the input can be opened");
        let running = command().args(arguments).stdin(file).spawn();
        let ended = said(running.expect("the program can be started"));
        assert_eq!(shown(&ended.stdout), shown(&expected(arguments, input)));
        assert_eq!(shown(&ended.stderr), "");
    }
}
