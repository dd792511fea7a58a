//! The proved program: the samples, input in pieces, input without end, and input that can't be read.

mod common;

use common::{answer_to, program, project, samples};
use std::fs::File;
use std::io::Write;
use std::process::Stdio;
use std::thread;
use std::time::Duration;

/// The answer to a text over 32,768 bytes.
const TOO_LONG: &[u8] = b"1F010000E0\n";

#[test]
fn the_samples() {
    for sample in samples() {
        let output = answer_to(&mut program(), &sample.catalogue);
        assert_eq!(output.stdout, sample.answer, "{}", sample.name);
        assert!(
            output.stderr.is_empty() && output.status.success(),
            "{}",
            sample.name
        );
    }
}

#[test]
fn input_in_pieces() {
    let sample = &samples()[0];
    let mut child = program()
        .stdin(Stdio::piped())
        .stdout(Stdio::piped())
        .spawn()
        .unwrap();
    let mut pipe = child.stdin.take().unwrap();
    for piece in sample.catalogue.chunks(7) {
        pipe.write_all(piece).unwrap();
        pipe.flush().unwrap();
        thread::sleep(Duration::from_millis(2));
    }
    drop(pipe);
    assert_eq!(child.wait_with_output().unwrap().stdout, sample.answer);
}

#[test]
fn the_longest_text_and_longer_ones() {
    let shape = b"1F020001DE\n";
    assert_eq!(answer_to(&mut program(), &[b'\n'; 32_768]).stdout, shape);
    for length in [32_769, 32_770, 1 << 20] {
        assert_eq!(
            answer_to(&mut program(), &vec![b'\n'; length]).stdout,
            TOO_LONG
        );
    }
}

#[test]
fn input_without_end() {
    let endless = File::open("/dev/zero").unwrap();
    assert_eq!(program().stdin(endless).output().unwrap().stdout, TOO_LONG);
}

#[test]
fn input_that_cannot_be_read() {
    let folder = File::open(project(".")).unwrap();
    let output = program().stdin(folder).output().unwrap();
    assert!(output.stdout.is_empty());
    assert_eq!(output.stderr, b"standard input: Is a directory\n");
}

#[test]
fn output_that_cannot_be_written() {
    let full = File::options().write(true).open("/dev/full").unwrap();
    let output = program()
        .stdin(Stdio::null())
        .stdout(full)
        .stderr(Stdio::piped())
        .spawn()
        .unwrap();
    let said = output.wait_with_output().unwrap().stderr;
    assert_eq!(said, b"standard output: No space left on device\n");
}
