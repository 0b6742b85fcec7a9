//! The walk program over standard input and output: `reference`, `reference path` or `reference search K`.

use std::io::{Read, Write};
use std::os::unix::ffi::OsStringExt;

use reference::program::asked;

fn main() -> std::io::Result<()> {
    let arguments: Vec<Vec<u8>> = std::env::args_os().skip(1).map(OsStringExt::into_vec).collect();
    let Some(asked) = asked(&arguments) else {
        eprintln!("reference, reference path or reference search K");
        return Ok(());
    };
    let mut input = Vec::new();
    std::io::stdin().lock().read_to_end(&mut input)?;
    std::io::stdout().lock().write_all(&asked.respond(&input))
}
