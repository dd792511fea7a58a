//! The C example, built by the system's compiler against the header and the archive, and run on the samples.

mod common;

use common::{answer_to, project, samples};
use std::path::PathBuf;
use std::process::Command;

/// Builds the example with every warning an error.
fn build() -> PathBuf {
    let example = PathBuf::from(env!("CARGO_TARGET_TMPDIR")).join("example");
    let built = Command::new("cc")
        .args(["-std=c99", "-Wall", "-Wextra", "-Werror", "-I"])
        .args([
            project("include"),
            project("host/c/example.c"),
            project("crates/picker_c/out/libpicker_c.a"),
        ])
        .arg("-o")
        .arg(&example)
        .output()
        .expect("a C compiler");
    assert!(
        built.status.success(),
        "{}",
        String::from_utf8_lossy(&built.stderr)
    );
    example
}

#[test]
fn it_answers_the_samples() {
    let example = build();
    for sample in samples() {
        let output = answer_to(&mut Command::new(&example), &sample.catalogue);
        let (words, rest) = output.stdout.split_at(
            output
                .stdout
                .iter()
                .position(|&byte| byte == b'\n')
                .unwrap()
                + 1,
        );
        let wanted: &[u8] = match &sample.answer[..2] {
            b"11" => b"the best selection:\n",
            b"20" => b"no selection is valid, as this sheet shows:\n",
            _ if sample.answer.starts_with(b"1F0A") => {
                b"no selection is valid, and no sheet is short enough\n"
            }
            _ => &refusal(&sample.answer),
        };
        assert_eq!(words, wanted, "{}", sample.name);
        assert!(rest.is_empty() || rest == sample.answer, "{}", sample.name);
    }
}

/// What the example says of a refusal's frame.
fn refusal(frame: &[u8]) -> Vec<u8> {
    let digits = |from: usize, to: usize| {
        let text = std::str::from_utf8(&frame[from..to]).unwrap();
        u16::from_str_radix(text, 16).unwrap()
    };
    format!("refused with {} at line {}\n", digits(2, 4), digits(4, 8)).into_bytes()
}
