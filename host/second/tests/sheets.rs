//! Every number that a sheet text can be refused with, and which sheets refute.

mod common;

use common::{LINEAR_SHEET, NO_CONFLICTS, good, join, linear_error, text};
use second::sheets::facts;
use second::{ModuleNo, Place, SheetLine, States, judge_text, refutes};

/// The number and line told of a sheet for the linear error example.
fn told(sheet: &[u8]) -> (u8, u32) {
    match judge_text(&good(&linear_error()), sheet) {
        Ok(()) => (0, 0),
        Err(refusal) => (refusal.number, refusal.line),
    }
}

fn resolved(first: u16, second: u16, module: u8) -> SheetLine {
    SheetLine::Resolved {
        first,
        second,
        module: ModuleNo(module),
    }
}

/// What is told of a sheet that says it has two lines and whose second line is this frame.
fn second_line(frame: &[u8]) -> (u8, u32) {
    told(&text(&[&[0x20, 0, 2], &[0x21, 0, 0], frame, &[0x24]]))
}

#[test]
fn the_linear_sheet_is_accepted() {
    assert_eq!(told(LINEAR_SHEET), (0, 0));
}

#[test]
fn number_1_too_long() {
    let mut sheet = LINEAR_SHEET.to_vec();
    sheet.resize(32_769, b'0');
    assert_eq!(told(&sheet), (1, 0));
    sheet.pop();
    assert_eq!(told(&sheet), (2, 10));
}

#[test]
fn numbers_2_to_4() {
    assert_eq!(told(b"\n"), (2, 1));
    assert_eq!(told(&LINEAR_SHEET[..LINEAR_SHEET.len() - 1]), (2, 9));
    assert_eq!(told(b"200007D8\n"), (3, 1));
    for kind in (0..=255u8).filter(|kind| ![0x20, 0x21, 0x22, 0x24].contains(kind)) {
        assert_eq!(second_line(&[kind]), (4, 3));
        assert_eq!(second_line(&[kind, 0, 0]), (4, 3));
    }
    assert_eq!(told(NO_CONFLICTS), (4, 1));
    for (kind, right) in [(0x20, 3), (0x21, 3), (0x22, 6), (0x24, 1)] {
        for length in (1..10).filter(|&length| length != right) {
            let mut frame = vec![0; length];
            frame[0] = kind;
            assert_eq!(second_line(&frame), (4, 3), "{kind} {length}");
        }
    }
}

#[test]
fn number_5_order() {
    assert_eq!(told(b""), (5, 1));
    assert_eq!(told(&text(&[&[0x21, 255, 255]])), (5, 1));
    assert_eq!(told(&text(&[&[0x24]])), (5, 1));
    assert_eq!(second_line(&[0x20, 0, 2]), (5, 3), "a second head");
    assert_eq!(second_line(&[0x20, 9, 9]), (5, 3), "a second head");
    assert_eq!(second_line(&[0x24]), (5, 3), "too few");
    let no_lines = text(&[&[0x20, 0, 1], &[0x24]]);
    assert_eq!(told(&no_lines), (5, 2), "too few");
    for more in [&[0x21, 0, 0][..], &[0x21, 255, 255], &[0x22, 0, 9, 0, 9, 9]] {
        let sheet = text(&[&[0x20, 0, 1], &[0x21, 0, 0], more, &[0x24]]);
        assert_eq!(told(&sheet), (5, 3), "too many");
    }
    let no_end = text(&[&[0x20, 0, 1], &[0x21, 0, 0]]);
    assert_eq!(told(&no_end), (5, 3));
    let fewer_and_no_end = text(&[&[0x20, 0, 9], &[0x21, 0, 0]]);
    assert_eq!(told(&fewer_and_no_end), (5, 3));
}

#[test]
fn after_the_end() {
    for (line, number) in [
        ("24DC\n", 5),
        ("200001DF\n", 5),
        ("210000DF\n", 5),
        ("24DD\n", 3),
        ("04FC\n", 4),
        ("\n", 2),
        ("24DC", 2),
    ] {
        let sheet = join(&[LINEAR_SHEET, line.as_bytes()]);
        assert_eq!(told(&sheet), (number, 10), "{line:?}");
    }
}

#[test]
fn number_6_values() {
    for count in [0u16, 481, 482, 0xFFFF] {
        let [high, low] = count.to_be_bytes();
        assert_eq!(told(&text(&[&[0x20, high, low]])), (6, 1));
    }
    for count in [1u16, 480] {
        let [high, low] = count.to_be_bytes();
        assert_eq!(told(&text(&[&[0x20, high, low]])), (5, 2));
    }
    for frame in [
        &[0x21, 0, 4][..],
        &[0x21, 1, 0],
        &[0x22, 0, 1, 0, 0, 0],
        &[0x22, 0, 0, 0, 1, 0],
        &[0x22, 1, 0, 0, 0, 0],
        &[0x22, 0, 0, 0, 0, 4],
        &[0x22, 0, 0, 0, 0, 255],
    ] {
        assert_eq!(second_line(frame), (6, 3), "{frame:?}");
    }
    for frame in [&[0x21, 0, 3][..], &[0x22, 0, 0, 0, 0, 3]] {
        assert_eq!(second_line(frame), (13, 4), "{frame:?}");
    }
    let first_resolved = text(&[&[0x20, 0, 1], &[0x22, 0, 0, 0, 0, 0], &[0x24]]);
    assert_eq!(told(&first_resolved), (6, 2));
}

#[test]
fn number_13_tells_the_ends_line() {
    let sheet = text(&[&[0x20, 0, 1], &[0x21, 0, 0], &[0x24]]);
    assert_eq!(told(&sheet), (13, 3));
}

#[test]
fn longest_sheet() {
    let catalogue = good(&linear_error());
    let mut lines = second::read_sheet(&catalogue, LINEAR_SHEET).unwrap();
    while lines.len() < 480 {
        let last = lines.len() as u16 - 1;
        lines.push(resolved(last, last, 0));
    }
    let longest = second::sheet_text(&lines);
    assert_eq!(told(&longest), (0, 0));
    assert_eq!(longest.len(), 7_214 - 4 * 6);
}

#[test]
fn facts_of_the_linear_sheet() {
    let catalogue = good(&linear_error());
    let lines = second::read_sheet(&catalogue, LINEAR_SHEET).unwrap();
    let facts = facts(&catalogue, &lines).unwrap();
    let full = |module| States::full(&catalogue, ModuleNo(module));
    let only = |place| States::only(Place(place));
    let sets = |fact: usize| [0, 1, 2, 3].map(|module| facts[fact].states(ModuleNo(module)));
    assert_eq!(sets(0), [full(0), only(0), States::ABSENT, full(3)]);
    let not_baz_3 = States::ABSENT.or(only(0));
    assert_eq!(sets(1), [full(0), full(1), only(0), not_baz_3]);
    assert_eq!(sets(2), [full(0), only(0), full(2), not_baz_3]);
    let not_baz_1 = States::ABSENT.or(only(1));
    assert_eq!(sets(3), [only(0), full(1), full(2), not_baz_1]);
    assert_eq!(sets(4), [only(0), only(0), full(2), full(3)]);
    assert_eq!(sets(5), [only(0), States::ABSENT, full(2), full(3)]);
    assert_eq!(sets(6), [only(0), full(1), full(2), full(3)]);
}

#[test]
fn union_on_the_named_module_only() {
    let catalogue = good(&linear_error());
    let mut lines = second::read_sheet(&catalogue, LINEAR_SHEET).unwrap();
    for module in [0, 2, 3] {
        lines[6] = resolved(4, 5, module);
        assert!(!refutes(&catalogue, &lines), "{module}");
    }
    lines[6] = resolved(5, 4, 1);
    assert!(refutes(&catalogue, &lines));
}

#[test]
fn absence_is_among_the_states() {
    // Foo is needed by bar only, and bar by no one: a need line for it must not refute.
    let text = text(&[
        &[1, 3],
        &[2, 0, 1, 0, 0],
        &[2, 1, 1, 0, 0],
        &[2, 2, 1, 0, 0],
        &[5, 1, 2, 0, 0],
        &[4],
    ]);
    let catalogue = good(&text);
    assert!(!refutes(&catalogue, &[SheetLine::Need(0)]));
    let twice = [SheetLine::Need(0), resolved(0, 0, 2)];
    assert!(!refutes(&catalogue, &twice));
}

#[test]
fn root_may_be_absent_in_the_last_line_too() {
    // A need of the root that leaves out its version: the root's set is all of it.
    let text = text(&[
        &[1, 2],
        &[2, 0, 1, 0, 0],
        &[5, 1, 1, 0, 0],
        &[2, 1, 1, 0, 0],
        &[5, 0, 2, 0, 0],
        &[4],
    ]);
    let catalogue = good(&text);
    let lines = [SheetLine::Need(0), SheetLine::Need(1), resolved(0, 1, 1)];
    assert!(refutes(&catalogue, &lines));
    assert_eq!(second::refute(&catalogue, 3), Some(lines.to_vec()));
}

#[test]
fn lines_that_cannot_be_do_not_refute() {
    let catalogue = good(&linear_error());
    assert!(!refutes(&catalogue, &[]));
    assert!(!refutes(&catalogue, &[SheetLine::Need(4)]));
    assert!(!refutes(&catalogue, &[resolved(0, 0, 0)]));
    assert!(!refutes(
        &catalogue,
        &[SheetLine::Need(0), resolved(0, 0, 200)]
    ));
}
