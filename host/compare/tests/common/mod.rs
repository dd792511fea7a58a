//! Where the project's files stand, for tests that run what was built.
#![allow(dead_code)]

use std::fs;
use std::io::Write;
use std::path::{Path, PathBuf};
use std::process::{Command, Output, Stdio};

/// A path of the project.
pub fn project(path: &str) -> PathBuf {
    Path::new(env!("CARGO_MANIFEST_DIR"))
        .join("../..")
        .join(path)
}

/// A sample: its name, its catalogue text and the answer that a program must write.
pub struct Sample {
    pub name: String,
    pub catalogue: Vec<u8>,
    pub answer: Vec<u8>,
}

/// All samples, in the order in which the samples' program answers them.
pub fn samples() -> Vec<Sample> {
    let order =
        fs::read_to_string(project("crates/picker_samples/args")).expect("the list of samples");
    order.lines().map(sample).collect()
}

fn sample(file: &str) -> Sample {
    let path = project("samples").join(file);
    Sample {
        name: file.to_string(),
        catalogue: fs::read(&path).expect(file),
        answer: fs::read(path.with_extension("answer")).expect(file),
    }
}

/// The proved program, which must have been built.
pub fn program() -> Command {
    let path = project("crates/picker_cli/out/picker_cli");
    assert!(
        path.is_file(),
        "the program is missing: run `rt run </dev/null` in crates/picker_cli"
    );
    Command::new(path)
}

/// Runs a command with this text as its standard input.
pub fn answer_to(command: &mut Command, text: &[u8]) -> Output {
    let mut child = command
        .stdin(Stdio::piped())
        .stdout(Stdio::piped())
        .stderr(Stdio::piped())
        .spawn()
        .expect("the command starts");
    // A program that has read enough may close its end before all is written.
    let _ = child.stdin.take().expect("a pipe").write_all(text);
    child.wait_with_output().expect("the command ends")
}
