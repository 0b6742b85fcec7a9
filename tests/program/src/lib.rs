//! The built walk program, started with arguments on an input.

pub mod system;

use std::env;
use std::ffi::OsStr;
use std::io::{ErrorKind, Write};
use std::os::fd::AsFd;
use std::path::{Path, PathBuf};
use std::process::{Child, Command, Output, Stdio};
use std::thread;
use std::time::{Duration, Instant};

/// Between two looks at a pipe.
const PAUSE: Duration = Duration::from_micros(50);
/// No machine is so busy that the program reads nothing for so long.
const PATIENCE: Duration = Duration::from_secs(60);

/// `TARKNOTTER_WALK`, or what `rt ci` or `rt run` made of the crate `walk`; a test without a program must fail.
pub fn path() -> PathBuf {
    let built = Path::new(env!("CARGO_MANIFEST_DIR")).join("../../crates/walk/out/walk");
    let path = env::var_os("TARKNOTTER_WALK").map_or(built, PathBuf::from);
    assert!(path.is_file(), "{} is missing: `rt ci` builds it", path.display());
    path
}

/// The program with its three streams piped.
pub fn command() -> Command {
    let mut command = Command::new(path());
    command.stdin(Stdio::piped()).stdout(Stdio::piped()).stderr(Stdio::piped());
    command
}

/// What the program prints on an input that arrives whole.
pub fn output(arguments: &[impl AsRef<OsStr>], input: &[u8]) -> Vec<u8> {
    output_of_pieces(arguments, &[input])
}

/// What the program prints on an input that arrives piece by piece, each read before the next is
/// sent. It must end well and say nothing on standard error.
pub fn output_of_pieces(arguments: &[impl AsRef<OsStr>], pieces: &[&[u8]]) -> Vec<u8> {
    let ended = ended(command().args(arguments), pieces);
    assert!(ended.stderr.is_empty(), "it said {}", ended.stderr.escape_ascii());
    ended.stdout
}

/// What the program says, started so, on an input in pieces; its standard input must be piped.
pub fn ended(command: &mut Command, pieces: &[&[u8]]) -> Output {
    let mut running = command.spawn().expect("the program can be started");
    let mut stdin = running.stdin.take().expect("its input is piped");
    for (index, piece) in pieces.iter().enumerate() {
        if index > 0 && !has_read(&stdin, &mut running) {
            break;
        }
        match stdin.write_all(piece) {
            Ok(()) => {}
            // It need not read on once it knows that the input is too long.
            Err(error) if error.kind() == ErrorKind::BrokenPipe => break,
            Err(error) => panic!("the input cannot be written: {error}"),
        }
    }
    drop(stdin);
    said(running)
}

/// What the program says; it must end well.
pub fn said(running: Child) -> Output {
    let ended = running.wait_with_output().expect("the program ends");
    assert!(ended.status.success(), "the program ended with {}", ended.status);
    ended
}

/// Waits until the program has read all that was written to it; false where it ended before.
pub fn has_read(stdin: &impl AsFd, running: &mut Child) -> bool {
    is_seen(|| system::unread(stdin) == 0, running)
}

/// Waits until the program has said something on this stream, which nobody reads meanwhile; false
/// where it ended before.
pub fn has_said(stream: &impl AsFd, running: &mut Child) -> bool {
    is_seen(|| system::unread(stream) > 0, running)
}

fn is_seen(is_so: impl Fn() -> bool, running: &mut Child) -> bool {
    let began = Instant::now();
    while !is_so() {
        if running.try_wait().expect("the program can be looked at").is_some() {
            return is_so();
        }
        assert!(began.elapsed() < PATIENCE, "the program does not go on");
        thread::sleep(PAUSE);
    }
    true
}

/// An input with a listing of more than 20,000 bytes: 256 slots of 8 variables, every field as long
/// as it may be.
pub fn longest() -> Vec<u8> {
    let mut input = one_location(-32_768);
    for index in 0..8 {
        input.extend(format!("E\t0\t0\tsub\t${index}\t${index}\t1\n").bytes());
    }
    input
}

/// An input with a path through such slots, all 256 of them: the last of 256 edges counts down, and
/// overruns in the end.
pub fn longest_path() -> Vec<u8> {
    let mut input = one_location(-10_255);
    input.extend(b"E\t0\t0\tif\t$0\tgt\t0\n".repeat(255));
    input.extend(b"E\t0\t0\tsub\t$7\t$7\t1\n");
    input
}

/// With room for all slots, and variables that go down from -10,000.
fn one_location(low: i32) -> Vec<u8> {
    let mut input = b"go\tsep\tsep\told\t256\t60000\n".to_vec();
    for index in 0..8 {
        input.extend(format!("V\tv{index}\t{low}\t-10000\t-10000\n").bytes());
    }
    input.extend(b"L\tsixteen-letters1\to\n");
    input
}
