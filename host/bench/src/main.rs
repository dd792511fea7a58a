//! Benchmarks by one command: a table on the screen, and the same as docs/BENCHMARKS.md.
//!
//! The words `count JOB SET` are for the runs that the program starts of itself, under callgrind.

mod counts;
mod jobs;
mod plain;
mod report;
mod sets;
mod stack;
mod times;

use std::process::ExitCode;

fn main() -> ExitCode {
    let words: Vec<String> = std::env::args().skip(1).collect();
    let words: Vec<&str> = words.iter().map(String::as_str).collect();
    match words[..] {
        [] => report::write(),
        ["count", job, set] => counts::run_once(job, set),
        _ => {
            eprintln!("usage: bench");
            return ExitCode::from(2);
        }
    }
    ExitCode::SUCCESS
}
