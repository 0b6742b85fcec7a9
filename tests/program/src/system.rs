//! What of Linux the standard library does not offer.

use std::ffi::{c_char, c_int, c_ulong, CStr, OsStr};
use std::fs::File;
use std::io;
use std::os::fd::{AsFd, AsRawFd};
use std::os::unix::ffi::OsStrExt;
use std::os::unix::fs::OpenOptionsExt;
use std::os::unix::process::CommandExt;
use std::process::Command;

extern "C" {
    fn close(fd: c_int) -> c_int;
    fn fcntl(fd: c_int, command: c_int, ...) -> c_int;
    fn ioctl(fd: c_int, request: c_ulong, ...) -> c_int;
    fn grantpt(terminal: c_int) -> c_int;
    fn unlockpt(terminal: c_int) -> c_int;
    fn ptsname_r(terminal: c_int, name: *mut c_char, length: usize) -> c_int;
}

const F_GETFL: c_int = 3;
const F_SETFL: c_int = 4;
const F_SETPIPE_SZ: c_int = 1031;
const O_NONBLOCK: c_int = 0o4000;
const O_NOCTTY: c_int = 0o400;
const FIONREAD: c_ulong = 0x541b;

/// The answer of a call, where it is no failure.
fn checked(answer: c_int) -> c_int {
    assert!(answer >= 0, "{}", io::Error::last_os_error());
    answer
}

/// How many bytes of a pipe, either end, nobody has read yet.
pub fn unread(pipe: &impl AsFd) -> usize {
    let mut count: c_int = 0;
    // SAFETY: the descriptor is open, and FIONREAD stores one int.
    checked(unsafe { ioctl(pipe.as_fd().as_raw_fd(), FIONREAD, &mut count as *mut c_int) });
    usize::try_from(count).expect("a count")
}

/// From now on a call on this end fails where it would wait.
pub fn never_wait(end: &impl AsFd) {
    let fd = end.as_fd().as_raw_fd();
    // SAFETY: the descriptor is open; both commands take and answer numbers.
    let flags = checked(unsafe { fcntl(fd, F_GETFL) });
    // SAFETY: as before.
    checked(unsafe { fcntl(fd, F_SETFL, flags | O_NONBLOCK) });
}

/// Lets a pipe hold so many bytes, or the next larger number that the system offers, which it answers.
pub fn set_size(pipe: &impl AsFd, size: c_int) -> usize {
    // SAFETY: the descriptor is open, and the command takes and answers a number.
    let size = checked(unsafe { fcntl(pipe.as_fd().as_raw_fd(), F_SETPIPE_SZ, size) });
    usize::try_from(size).expect("a size")
}

/// Has a program start with this descriptor closed.
pub fn start_without(command: &mut Command, fd: c_int) {
    // SAFETY: the closure makes one call, which may be made after a fork, on a number that nothing
    // but the program uses from there on.
    unsafe {
        command.pre_exec(move || match close(fd) {
            0 => Ok(()),
            _ => Err(io::Error::last_os_error()),
        })
    };
}

/// A terminal: the end that types, and the end that a program reads what is typed from.
pub fn terminal() -> (File, File) {
    let open = |path: &OsStr| {
        let mut options = File::options();
        options.read(true).write(true).custom_flags(O_NOCTTY);
        options.open(path).expect("a terminal can be opened")
    };
    let typing = open(OsStr::new("/dev/ptmx"));
    let fd = typing.as_raw_fd();
    let mut name: [c_char; 64] = [0; 64];
    // SAFETY: the descriptor is open, and the name is written into as many bytes as are told.
    unsafe {
        checked(grantpt(fd));
        checked(unlockpt(fd));
        assert_eq!(ptsname_r(fd, name.as_mut_ptr(), name.len()), 0);
    }
    // SAFETY: the call has ended the name within its bytes.
    let name = unsafe { CStr::from_ptr(name.as_ptr()) };
    let reading = open(OsStr::from_bytes(name.to_bytes()));
    (typing, reading)
}
