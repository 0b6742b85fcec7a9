//! Counts of instructions, by a valgrind that runs this program on one call.

use std::hint::black_box;
use std::process::Command;

use library::walker::WALKER;
use library::{Calls, LIBRARY};

use crate::subjects::{charts, growth, reads, runs, searches, Call, Lent, Subject, READ};
use crate::times::iterations;

pub fn print() {
    println!("| chart | call | library, instructions | walker, instructions | library / walker |");
    println!("|---|---|---|---|---|");
    for subject in charts().into_iter().chain(runs()).chain(searches()) {
        for call in subject.calls {
            print_row(&subject, call, 1.0);
        }
    }
    println!("\n| chart | call | library, instructions an iteration | walker, instructions an iteration | library / walker |");
    println!("|---|---|---|---|---|");
    for subject in growth() {
        for call in subject.calls {
            let mut lent = subject.lent();
            (call.make)(&mut lent, LIBRARY);
            print_row(&subject, call, iterations(&lent));
        }
    }
    println!("\n| file | call | library, instructions a byte | walker, instructions a byte | library / walker |");
    println!("|---|---|---|---|---|");
    for subject in reads() {
        print_row(&subject, &READ, subject.file.len() as f64);
    }
}

fn print_row(subject: &Subject, call: &Call, over: f64) {
    let [library, walker] =
        ["library", "walker"].map(|whose| count(&subject.name, call.name, whose) / over);
    let ratio = library / walker;
    let digits = if library < 100.0 { 1 } else { 0 };
    println!(
        "| {} | {} | {library:.digits$} | {walker:.digits$} | {ratio:.2} |",
        subject.name, call.name
    );
}

fn count(chart: &str, call: &str, whose: &str) -> f64 {
    let bench = std::env::current_exe().expect("the path of this program is known");
    let run = Command::new("valgrind")
        .args(["--tool=callgrind", "--callgrind-out-file=/dev/null"])
        .arg("--toggle-collect=bench::counts::counted")
        .arg(bench)
        .args(["once", chart, call, whose])
        .output()
        .expect("valgrind can be started");
    let said = String::from_utf8_lossy(&run.stderr);
    assert!(run.status.success(), "{said}");
    said.lines()
        .find_map(|line| line.split_once("Collected :"))
        .and_then(|(_, count)| count.trim().parse().ok())
        .unwrap_or_else(|| panic!("valgrind says no count: {said}"))
}

/// One call of one of the two, to be counted.
pub fn once(chart: &str, call: &str, whose: &str) {
    let calls = match whose {
        "library" => LIBRARY,
        "walker" => WALKER,
        _ => panic!("{whose}: library or walker"),
    };
    let all = charts().into_iter().chain(runs()).chain(searches()).chain(growth()).chain(reads());
    for subject in all.filter(|each| each.name == chart) {
        if let Some(call) = subject.calls.iter().find(|each| each.name == call) {
            return counted(&mut subject.lent(), call, calls);
        }
    }
    panic!("{chart} with {call} is not measured");
}

/// Where counting is switched on.
#[inline(never)]
fn counted(lent: &mut Lent, call: &Call, calls: Calls) {
    (call.make)(lent, calls);
    black_box(lent);
}
