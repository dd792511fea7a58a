//! Instruction counts by callgrind, of the jobs alone.

use crate::jobs::{Areas, JOBS};
use crate::sets::{SETS, Set};
use std::hint::black_box;
use std::process::Command;

/// Texts of a set that are counted.
pub const TEXTS: u64 = 8;

/// Keeps the C library from clearing and copying by instructions that callgrind counts once for each byte.
const NO_STRING_INSTRUCTIONS: &str =
    "glibc.cpu.x86_rep_stosb_threshold=100000000:glibc.cpu.x86_rep_movsb_threshold=100000000";

/// Instructions that a job takes for a set's first texts, if valgrind is there.
pub fn instructions(job: &str, set: &Set) -> Option<u64> {
    let output = Command::new("valgrind")
        .args(["--tool=callgrind", "--callgrind-out-file=/dev/null"])
        .arg(format!("--toggle-collect=bench::jobs::{job}"))
        .arg(std::env::current_exe().ok()?)
        .args(["count", job, set.name])
        .env("GLIBC_TUNABLES", NO_STRING_INSTRUCTIONS)
        .output()
        .ok()?;
    let said = String::from_utf8_lossy(&output.stderr);
    let line = said.lines().find(|line| line.contains("Collected :"))?;
    line.split_whitespace().last()?.parse().ok()
}

/// Does a job once for each of a set's first texts, a check only where there is a sheet; callgrind watches.
pub fn run_once(job_name: &str, set: &str) {
    let named = JOBS.iter().find(|entry| entry.0 == job_name);
    let wanted = SETS.iter().find(|entry| entry.name == set);
    let (Some((_, job)), Some(set)) = (named, wanted) else {
        return;
    };
    let mut areas = Areas::new();
    for case in set.cases(TEXTS) {
        if !(job_name.ends_with("check") && case.sheet.is_empty()) {
            black_box(job(black_box(&case), &mut areas));
        }
    }
}
