//! The program over calls of a system that answers as it is told to.

use std::path::{Path, PathBuf};
use std::process::Command;
use std::sync::OnceLock;

use program::command;

/// The program with the calls of `c/calls.c`, as these variables set them.
pub fn with_calls(set: &[(&str, u32)]) -> Command {
    static LIBRARY: OnceLock<PathBuf> = OnceLock::new();
    let library = LIBRARY.get_or_init(|| {
        let library = Path::new(env!("CARGO_TARGET_TMPDIR")).join("calls.so");
        let status = Command::new("cc")
            .args(["-std=c11", "-O2", "-Wall", "-Wextra", "-Werror", "-shared", "-fPIC"])
            .arg(Path::new(env!("CARGO_MANIFEST_DIR")).join("c/calls.c"))
            .arg("-o")
            .arg(&library)
            .status()
            .expect("cc runs, as it does to link Rust");
        assert!(status.success());
        library
    });
    let mut command = command();
    command.env("LD_PRELOAD", library);
    command.envs(set.iter().map(|(name, value)| (name, value.to_string())));
    command
}
