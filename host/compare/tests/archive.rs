//! What the archive for C asks of the C library of whoever links it.

mod common;

use common::project;
use std::process::Command;

/// The names that it may need from outside.
const ALLOWED: [&str; 2] = ["memcpy", "memset"];

#[test]
fn it_needs_no_more_than_two_names() {
    let output = Command::new("nm")
        .args(["-u", "-P"])
        .arg(project("crates/picker_c/out/libpicker_c.a"))
        .output()
        .expect("nm, which comes with a C compiler");
    assert!(output.status.success());
    let text = String::from_utf8(output.stdout).expect("names in ASCII");
    let needed: Vec<&str> = text
        .lines()
        .filter_map(|line| line.split_once(" U").map(|(name, _)| name))
        .collect();
    assert!(!needed.is_empty(), "{text}");
    for name in needed {
        assert!(ALLOWED.contains(&name), "{name}");
    }
}
