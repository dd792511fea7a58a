//! The report: tables on the screen and in docs/BENCHMARKS.md.

use crate::counts::{self, instructions};
use crate::jobs::{Areas, JOBS, without_end};
use crate::plain::Plain;
use crate::sets::{Case, SETS, Set, trials};
use crate::stack;
use crate::times::{PASSES, best, best_each};
use second::walk::walk;
use std::fmt::Write;
use std::fs;
use std::path::Path;
use std::time::Duration;

/// Measures everything, prints it, and writes the document.
pub fn write() {
    let mut page = String::from(HEAD);
    sets_table(&mut page);
    times_table(&mut page);
    trials_table(&mut page);
    counts_table(&mut page);
    stack_lines(&mut page);
    print!("{page}");
    let path = Path::new(env!("CARGO_MANIFEST_DIR")).join("../../docs/BENCHMARKS.md");
    if let Err(error) = fs::write(&path, page) {
        eprintln!("{}: {error}", path.display());
    }
}

const HEAD: &str = "# Benchmarks

Written by `cargo run --release -p bench` in host/. The proved picker (Rattle, `rt lib` in crates/picker_c) and Rust (--release) do the same work on the same
texts in the same run: the second picker's reader and checker, and a pick by that reader and a plain walk that is written straightforwardly, over arrays
(host/bench/src/plain.rs). A ratio is the proved picker's figure over Rust's; the aim is 1.5 at most. The second picker's own pick stands beside them: its
walk first turns all needs into sets of bits, and then hardly looks at a need.

";

/// The columns of a table: for each job the proved picker's figure, Rust's and their ratio; and the second picker's pick with the ratio to it.
const COLUMNS: &str = "
| set | read: proved | Rust | ratio | pick: proved | plain walk | ratio | check: proved | Rust | ratio | pick: second picker | ratio |
|---|---|---|---|---|---|---|---|---|---|---|---|
";

fn sets_table(page: &mut String) {
    page.push_str("## Catalogues\n\n| set | what is in it | texts | with a sheet | trials of a text, on average |\n|---|---|---|---|---|\n");
    for set in &SETS {
        let cases = set.cases(u64::MAX);
        let all: u64 = cases.iter().filter_map(|case| trials(&case.text)).sum();
        let mean = all / cases.len() as u64;
        let sheets = cases.iter().filter(|case| !case.sheet.is_empty()).count();
        let _ = writeln!(
            page,
            "| {} | {} | {} | {sheets} | {mean} |",
            set.name,
            set.about,
            cases.len()
        );
    }
}

fn times_table(page: &mut String) {
    let _ = write!(
        page,
        "\n## Times

Microseconds for one text, the best of {PASSES} passes over the set, all jobs taking turns. A read is a pick on a text without its end frame, which is
refused when all else is read; a check is one of a sheet that the second picker finds. The areas are lent again from call to call. The rules ask that
the work area of 65,536 bytes is all zero after a call, so it is cleared in every call, in Rust too, though Rust allocates what it works with; this is in all
times, and takes {:.1} by itself.\n{COLUMNS}",
        clearing()
    );
    for set in &SETS {
        row(page, set.name, timed(&set.cases(u64::MAX)), 1);
    }
}

fn trials_table(page: &mut String) {
    let _ = write!(
        page,
        "\n## Trials

Nanoseconds for one trial, from the best of {PASSES} passes. The proved picker's figure is a pick with allowance 0, so that no line is noted, less a read; it
holds the writing of selections. The plain walk in Rust writes nothing, and its arrays are made beforehand. The second picker's walk has the making of
its sets of bits in it, which is most of its time where the trials are few. The ratio is to the plain walk.

| set | proved | plain walk | ratio | second's walk |\n|---|---|---|---|---|\n"
    );
    for set in &SETS {
        let cases = set.cases(u64::MAX);
        let catalogues: Vec<_> = cases
            .iter()
            .filter_map(|case| second::read(&case.text).ok())
            .collect();
        let walks: Vec<Plain> = catalogues.iter().map(Plain::of).collect();
        let trials: u64 = walks.iter().map(|one| one.walk().1).sum();
        let each = |time: Duration| time.as_secs_f64() * 1e9 / trials as f64;
        let plain = each(best_each(&walks, |one| one.walk().1));
        let second = each(best_each(&catalogues, |one| walk(one, None).trials));
        let proved = each(searched(&cases));
        let _ = writeln!(
            page,
            "| {} | {proved:.1} | {plain:.1} | {:.2} | {second:.1} |",
            set.name,
            proved / plain
        );
    }
}

/// Microseconds that clearing a work area takes.
fn clearing() -> f64 {
    let mut areas = Areas::new();
    let often = [(); 1_000];
    let time = best_each(&often, |_| {
        areas.clear();
        0
    });
    time.as_secs_f64() * 1e6 / often.len() as f64
}

/// The best time of the proved picker's searches over all cases: picks with allowance 0, less what reading takes.
fn searched(cases: &[Case]) -> Duration {
    let mut areas = Areas::new();
    let picks = best_each(cases, |case| areas.pick_with(&case.text, 0).line.into());
    let reads = best_each(cases, |case| {
        areas.pick_with(without_end(&case.text), 0).line.into()
    });
    picks.saturating_sub(reads)
}

/// Microseconds for one case; checks are timed where there is a sheet.
fn timed(cases: &[Case]) -> [f64; JOBS.len()] {
    let all: Vec<&Case> = cases.iter().collect();
    let sheets: Vec<&Case> = cases.iter().filter(|case| !case.sheet.is_empty()).collect();
    let each = |time: Duration, cases: &[&Case]| time.as_secs_f64() * 1e6 / cases.len() as f64;
    let [read, rust_read, pick, plain_pick, _, _, second_pick] =
        best(&all).map(|time| each(time, &all));
    let [.., check, rust_check, _] = best(&sheets).map(|time| each(time, &sheets));
    [
        read,
        rust_read,
        pick,
        plain_pick,
        check,
        rust_check,
        second_pick,
    ]
}

fn counts_table(page: &mut String) {
    let _ = write!(
        page,
        "\n## Instructions

Counted by valgrind's callgrind for the first {} texts of each set, in thousands for one text. The C library is told to clear and copy without the
string instructions, which callgrind counts once for each byte.\n{COLUMNS}",
        counts::TEXTS
    );
    for set in &SETS {
        match counted(set) {
            Some(each) => row(page, set.name, each, 0),
            None => page.push_str("| valgrind is missing |\n"),
        }
    }
}

/// Thousands of instructions for one case; checks are counted where there is a sheet.
fn counted(set: &Set) -> Option<[f64; JOBS.len()]> {
    let cases = set.cases(counts::TEXTS);
    let sheets = cases.iter().filter(|case| !case.sheet.is_empty()).count();
    let mut each = [0.0; JOBS.len()];
    for (slot, (job, _)) in each.iter_mut().zip(JOBS) {
        let count = if job.ends_with("check") {
            sheets
        } else {
            cases.len()
        };
        *slot = instructions(job, set)? as f64 / 1e3 / count as f64;
    }
    Some(each)
}

/// A row of figures: each pair with its ratio, and the second picker's pick with the ratio of the proved pick to it.
fn row(page: &mut String, name: &str, figures: [f64; JOBS.len()], places: usize) {
    let [
        read,
        rust_read,
        pick,
        plain_pick,
        check,
        rust_check,
        second_pick,
    ] = figures;
    let _ = write!(page, "| {name} |");
    for (proved, rust) in [(read, rust_read), (pick, plain_pick), (check, rust_check)] {
        let _ = if proved.is_finite() {
            let ratio = proved / rust;
            write!(page, " {proved:.places$} | {rust:.places$} | {ratio:.2} |")
        } else {
            write!(page, " none | none | |")
        };
    }
    let ratio = pick / second_pick;
    let _ = writeln!(page, " {second_pick:.places$} | {ratio:.2} |");
}

fn stack_lines(page: &mut String) {
    let _ = write!(
        page,
        "\n## Stack

Bytes: how far down the stack a proved call writes, seen by the paint that is gone of the bytes below its caller. The deepest searches go through 32 modules, each of which needs the next.

| calls | stack |\n|---|---|
| picks without a search: a root alone, refused texts, a text that is too long | {} |
| picks with the deepest searches, with and without a valid selection, and with two catalogues of each set | {} |
| checks of a sheet of 480 lines over the same catalogues | {} |\n",
        stack::most("flat"),
        stack::most("deep"),
        stack::most("check")
    );
}
