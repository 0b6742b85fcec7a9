//! The walk program where reading or writing fails: no answer for a part of an input, and one line
//! on standard error. `c/calls.c` stands in for a system whose calls are interrupted, move few
//! bytes or fail.

mod calls;

use std::fs::File;
use std::io::{self, Write};
use std::process::{Output, Stdio};
use std::thread;
use std::time::Duration;

use calls::with_calls;
use program::{command, ended, has_read, longest, said, system};
use reference::listing::Report;
use reference::program::{asked, chart_part, respond};

/// Safe as it stands; with `LAST_LINE` an alarm.
const FIRST_LINES: &[u8] = b"go\tjoin\tjoin\tnew\t16\t100\nL\ta\to\nL\tb\te\n";
const LAST_LINE: &[u8] = b"E\t0\t1\tskip\n";
/// The most interruptions in a row of which a call is made again.
const INTERRUPTIONS: u32 = 1_000_000;

fn whole() -> Vec<u8> {
    [FIRST_LINES, LAST_LINE].concat()
}

/// Arguments and an input for them; a search reads the chart alone.
fn commands() -> [(&'static [&'static str], Vec<u8>); 3] {
    [(&[], whole()), (&["path"], whole()), (&["search", "8"], chart_part(&whole()).to_vec())]
}

fn listed(input: &[u8]) -> Vec<u8> {
    respond(Report::Listing, input)
}

/// It printed this, and said this of the failure.
fn assert_said(ended: &Output, stdout: &[u8], stderr: &str) {
    assert_eq!(ended.stdout.escape_ascii().to_string(), stdout.escape_ascii().to_string());
    assert_eq!(
        ended.stderr.escape_ascii().to_string(),
        stderr.as_bytes().escape_ascii().to_string()
    );
}

/// Half of an input is there and the rest comes later: a program that takes a failed read for the
/// end says safe.
#[test]
fn a_read_that_would_wait_is_no_end_of_input() {
    assert!(String::from_utf8_lossy(&listed(FIRST_LINES)).contains("safe"));
    assert!(String::from_utf8_lossy(&listed(&whole())).contains("alarm"));
    let (reader, mut writer) = io::pipe().expect("a pipe");
    system::never_wait(&reader);
    writer.write_all(FIRST_LINES).expect("the pipe holds it");
    let mut running = command().stdin(reader).spawn().expect("the program can be started");
    has_read(&writer, &mut running);
    thread::sleep(Duration::from_millis(300));
    // The program has ended, or reads the rest.
    let _ = writer.write_all(LAST_LINE);
    drop(writer);
    assert_said(&said(running), b"", "walk: standard input: Resource temporarily unavailable\n");
}

#[test]
fn a_pipe_whose_end_is_there_is_read_without_waiting() {
    let (reader, mut writer) = io::pipe().expect("a pipe");
    system::never_wait(&reader);
    writer.write_all(&whole()).expect("the pipe holds it");
    drop(writer);
    let running = command().stdin(reader).spawn().expect("the program can be started");
    assert_said(&said(running), &listed(&whole()), "");
}

#[test]
fn a_closed_standard_input_is_no_empty_one() {
    let mut command = command();
    system::start_without(command.stdin(Stdio::null()), 0);
    let running = command.spawn().expect("the program can be started");
    assert_said(&said(running), b"", "walk: standard input: Bad file descriptor\n");
}

#[test]
fn a_directory_is_no_input() {
    let directory = File::open(env!("CARGO_MANIFEST_DIR")).expect("a directory can be opened");
    let running = command().stdin(directory).spawn().expect("the program can be started");
    assert_said(&said(running), b"", "walk: standard input: Is a directory\n");
}

#[test]
fn a_full_device_is_told() {
    let full = File::options().write(true).open("/dev/full").expect("/dev/full can be opened");
    let ended = ended(command().stdout(full), &[&whole()]);
    assert_said(&ended, b"", "walk: standard output: No space left on device\n");
}

#[test]
fn a_closed_standard_output_is_told() {
    let mut command = command();
    system::start_without(command.stdout(Stdio::null()), 1);
    let ended = ended(&mut command, &[&whole()]);
    assert_said(&ended, b"", "walk: standard output: Bad file descriptor\n");
}

/// The pipe takes its size, and the rest of the listing would have to wait.
#[test]
fn an_output_cut_short_is_told() {
    let (mut reader, writer) = io::pipe().expect("a pipe");
    let size = system::set_size(&writer, 4_096);
    system::never_wait(&writer);
    let ended = ended(command().stdout(writer), &[&longest()]);
    assert_said(&ended, b"", "walk: standard output: Resource temporarily unavailable\n");
    let mut printed = Vec::new();
    io::Read::read_to_end(&mut reader, &mut printed).expect("the pipe can be read");
    assert!(size < 20_000 && printed == listed(&longest())[..size]);
}

/// Some interruptions before each read and write, which then move a few bytes; and as many as are borne before whole ones.
#[test]
fn interrupted_calls_are_made_again() {
    let set =
        [("READ_INTERRUPTED", 3), ("READ_MOST", 1), ("WRITE_INTERRUPTED", 3), ("WRITE_MOST", 1)];
    assert_said(&ended(&mut with_calls(&set), &[&longest()]), &listed(&longest()), "");
    let set = [("READ_INTERRUPTED", INTERRUPTIONS), ("WRITE_INTERRUPTED", INTERRUPTIONS)];
    assert_said(&ended(&mut with_calls(&set), &[&whole()]), &listed(&whole()), "");
}

#[test]
fn one_interruption_more_is_a_failure() {
    let reads = ended(&mut with_calls(&[("READ_INTERRUPTED", INTERRUPTIONS + 1)]), &[&whole()]);
    assert_said(&reads, b"", "walk: standard input: Interrupted system call\n");
    let writes = ended(&mut with_calls(&[("WRITE_INTERRUPTED", INTERRUPTIONS + 1)]), &[&whole()]);
    assert_said(&writes, b"", "walk: standard output: Interrupted system call\n");
}

/// Wherever in the input a read fails, and whatever the failure is.
#[test]
fn a_failed_read_is_no_end_of_input() {
    const ERRORS: [(u32, &str); 3] = [
        (5, "Input/output error"),
        (11, "Resource temporarily unavailable"),
        (9, "Bad file descriptor"),
    ];
    for (arguments, input) in commands() {
        for sound in 0..=input.len() {
            for (errno, name) in ERRORS {
                let set = [("READ_SOUND", sound as u32), ("READ_ERRNO", errno)];
                let ended = ended(with_calls(&set).args(arguments), &[&input]);
                assert_said(&ended, b"", &format!("walk: standard input: {name}\n"));
            }
        }
    }
}

/// A buffer that is full ends the input: a read past it is not made, and so cannot fail.
#[test]
fn a_full_buffer_is_the_end_of_input() {
    const BUFFER: usize = 32_833;
    let mut input = whole();
    input.resize(BUFFER, b'\n');
    let full = [("READ_SOUND", BUFFER as u32), ("READ_MOST", 1_000)];
    assert_said(&ended(&mut with_calls(&full), &[&input]), &listed(&input), "");
    let short = [("READ_SOUND", BUFFER as u32 - 1), ("READ_MOST", 1_000)];
    assert_said(
        &ended(&mut with_calls(&short), &[&input]),
        b"",
        "walk: standard input: Input/output error\n",
    );
}

#[test]
fn a_failed_write_is_told() {
    for (arguments, input) in commands() {
        let expected = asked(arguments).expect("they ask for something").respond(&input);
        for sound in 0..expected.len() {
            for (errno, line) in [
                (5, "walk: standard output: Input/output error\n"),
                (0, "walk: standard output takes no more\n"),
            ] {
                let set = [("WRITE_SOUND", sound as u32), ("WRITE_ERRNO", errno)];
                let ended = ended(with_calls(&set).args(arguments), &[&input]);
                assert_said(&ended, &expected[..sound], line);
            }
        }
    }
}
