//! ./pick: the samples with their statuses, files that can't be read, and a reader that goes away.

mod common;

use common::{Sample, project, samples};
use std::process::{Command, Output, Stdio};

/// Runs ./pick with these words; the program must have been built, so nothing is built here.
fn pick(words: &[&str]) -> Output {
    common::program();
    let mut command = Command::new(project("pick"));
    command.args(words).current_dir(project("."));
    command
        .stdin(Stdio::null())
        .output()
        .expect("./pick starts")
}

/// The status for an answer: 0 a selection, 1 no valid selection, 2 a refusal.
fn status_of(answer: &[u8]) -> i32 {
    match answer {
        [b'1', b'1', ..] => 0,
        [b'2', b'0', ..] | [b'1', b'F', b'0', b'A', ..] => 1,
        _ => 2,
    }
}

#[test]
fn the_samples() {
    for Sample { name, answer, .. } in samples() {
        let output = pick(&[&format!("samples/{name}")]);
        assert_eq!(output.stdout, answer, "{name}");
        assert_eq!(output.status.code(), Some(status_of(&answer)), "{name}");
    }
}

#[test]
fn standard_input() {
    let output = pick(&[]);
    assert_eq!(output.stdout, b"1F050001DB\n");
    assert_eq!(output.status.code(), Some(2));
}

#[test]
fn files_that_cannot_be_read() {
    let cases: [(&[&str], &str); 3] = [
        (&["samples/none"], "pick: there is no file samples/none\n"),
        (&["samples"], "pick: samples is a folder\n"),
        (
            &["a", "b"],
            "pick: more than one file; ./pick --help says more\n",
        ),
    ];
    for (words, message) in cases {
        let output = pick(words);
        assert_eq!(output.status.code(), Some(3), "{words:?}");
        assert_eq!(String::from_utf8_lossy(&output.stderr), message);
        assert!(output.stdout.is_empty());
    }
}

#[test]
fn a_reader_that_goes_away() {
    let mut child = Command::new(project("pick"))
        .arg(project("samples/B4.catalogue"))
        .stdout(Stdio::piped())
        .spawn()
        .expect("./pick starts");
    drop(child.stdout.take());
    assert!(!child.wait().expect("./pick ends").success());
}
