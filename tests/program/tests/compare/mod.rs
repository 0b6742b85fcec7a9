//! What the program prints beside what it should print.

use std::fs;
use std::path::Path;
use std::thread;

/// Fails where the program does not print `expected`; the input is then left in a file.
pub fn assert_prints(name: &str, printed: &[u8], input: &[u8], expected: &[u8]) {
    if printed != expected {
        let kept = Path::new(env!("CARGO_TARGET_TMPDIR")).join(format!("{name}.in"));
        fs::write(&kept, input).expect("the input can be kept");
        panic!(
            "{name}: the program printed\n{}\nand not\n{}\nto {}",
            printed.escape_ascii(),
            expected.escape_ascii(),
            kept.display(),
        );
    }
}

/// Looks at each, with its place, on as many cores as there are.
pub fn each_at_once<T: Sync>(all: &[T], look: impl Fn(usize, &T) + Sync) {
    let threads = thread::available_parallelism().map_or(1, usize::from);
    thread::scope(|scope| {
        for part in 0..threads {
            let look = &look;
            scope.spawn(move || {
                let own = all.iter().enumerate().skip(part).step_by(threads);
                own.for_each(|(place, each)| look(place, each));
            });
        }
    });
}
