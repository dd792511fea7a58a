//! The bench samples B1 to B13, with the values that the rules give for them.

mod common;

use common::{LINEAR_SHEET, NO_CONFLICTS, good, linear_error, picked, text};
use second::walk::Outcome;
use second::{
    SheetLine, answer_text, best_by_force, check, judge_text, read, refute, refutes, sheet_text,
    valid, walk,
};

/// The selected versions of a catalogue text, by module, and W.
fn selected(text: &[u8]) -> (Vec<(u8, [u8; 3])>, u64) {
    let catalogue = good(text);
    let walk = walk(&catalogue, None);
    let Outcome::Selected(selection) = walk.outcome else {
        panic!("nothing is valid");
    };
    assert!(valid(&catalogue, &selection));
    assert_eq!(best_by_force(&catalogue), Some(selection));
    let versions = selection
        .selected()
        .map(|(module, place)| (module.0, catalogue.version(module, place).unwrap().bytes()))
        .collect();
    (versions, walk.trials)
}

/// That a catalogue text gives 9 with a sheet that the checker accepts; W and the lines of the sheet.
fn refused(text: &[u8]) -> (u64, usize) {
    let catalogue = good(text);
    let walk = walk(&catalogue, None);
    assert_eq!(walk.outcome, Outcome::Nothing);
    assert_eq!(best_by_force(&catalogue), None);
    let (answer, sheet) = picked(text, 480);
    assert_eq!((answer.number, answer.line), (9, 0));
    assert_eq!(check(text, &sheet, 65_536).number, 0);
    let lines = second::read_sheet(&catalogue, &sheet).unwrap();
    assert_eq!(sheet_text(&lines), sheet);
    (walk.trials, lines.len())
}

const ROOT: (u8, [u8; 3]) = (0, [1, 0, 0]);

#[test]
fn b1_no_conflicts() {
    let whole = b"1103EC\n1200010000ED\n1201010000EC\n1202010000EB\n14EC\n";
    let (answer, written) = picked(NO_CONFLICTS, 480);
    assert_eq!((answer.number, answer.line, answer.length), (0, 0, 51));
    assert_eq!(written, whole);
    assert_eq!(answer_text(NO_CONFLICTS), whole);
    assert_eq!(selected(NO_CONFLICTS).1, 3);
}

#[test]
fn b2_avoiding_conflict() {
    let text = text(&[
        &[1, 3],
        &[2, 0, 1, 0, 0],
        &[5, 1, 1, 0, 0],
        &[5, 2, 1, 0, 0],
        &[2, 1, 1, 0, 0],
        &[2, 1, 1, 1, 0],
        &[5, 2, 2, 0, 0],
        &[2, 2, 1, 0, 0],
        &[2, 2, 1, 1, 0],
        &[2, 2, 2, 0, 0],
        &[4],
    ]);
    let versions = vec![ROOT, (1, [1, 0, 0]), (2, [1, 1, 0])];
    assert_eq!(selected(&text), (versions, 7));
}

#[test]
fn b3_conflict_resolution() {
    let text = text(&[
        &[1, 3],
        &[2, 0, 1, 0, 0],
        &[3, 1, 1, 0, 0, 255, 255, 255],
        &[2, 1, 1, 0, 0],
        &[2, 1, 2, 0, 0],
        &[5, 2, 1, 0, 0],
        &[2, 2, 1, 0, 0],
        &[5, 1, 1, 0, 0],
        &[4],
    ]);
    assert_eq!(selected(&text), (vec![ROOT, (1, [1, 0, 0])], 3));
}

#[test]
fn b4_linear_error() {
    let text = linear_error();
    assert_eq!(refused(&text), (4, 7));
    let verdict = check(&text, LINEAR_SHEET, 65_536);
    assert_eq!((verdict.number, verdict.line), (0, 0));
    let lines = second::read_sheet(&good(&text), LINEAR_SHEET).unwrap();
    assert_eq!(sheet_text(&lines), LINEAR_SHEET);
}

#[test]
fn b5_newest_foo_before_newest_bar() {
    let text = text(&[
        &[1, 3],
        &[2, 0, 1, 0, 0],
        &[3, 1, 0, 0, 0, 255, 255, 255],
        &[3, 2, 0, 0, 0, 255, 255, 255],
        &[2, 1, 1, 0, 0],
        &[2, 1, 2, 0, 0],
        &[5, 2, 1, 0, 0],
        &[2, 2, 1, 0, 0],
        &[2, 2, 2, 0, 0],
        &[4],
    ]);
    let versions = vec![ROOT, (1, [2, 0, 0]), (2, [1, 0, 0])];
    assert_eq!(selected(&text), (versions, 3));
}

#[test]
fn b6_root_without_needs() {
    let text = text(&[&[1, 1], &[2, 0, 1, 0, 0], &[4]]);
    assert_eq!(selected(&text), (vec![ROOT], 0));
}

#[test]
fn b7_module_without_versions() {
    let text = text(&[
        &[1, 2],
        &[2, 0, 1, 0, 0],
        &[3, 1, 0, 0, 0, 255, 255, 255],
        &[4],
    ]);
    assert_eq!(refused(&text), (0, 1));
    let one_line = [SheetLine::Need(0)];
    assert!(refutes(&good(&text), &one_line));
    assert_eq!(refute(&good(&text), 1), Some(one_line.to_vec()));
    assert_eq!(judge_text(&good(&text), &sheet_text(&one_line)), Ok(()));
}

fn pair(root_needs_foo: bool) -> Vec<u8> {
    let head: &[&[u8]] = &[&[1, 3], &[2, 0, 1, 0, 0]];
    let need: &[&[u8]] = &[&[5, 1, 1, 0, 0]];
    let rest: &[&[u8]] = &[
        &[2, 1, 1, 0, 0],
        &[5, 2, 1, 0, 0],
        &[2, 2, 1, 0, 0],
        &[5, 1, 1, 0, 0],
        &[4],
    ];
    let middle = if root_needs_foo { need } else { &[] };
    text(&[head, middle, rest].concat())
}

#[test]
fn b8_needing_each_other() {
    let versions = vec![ROOT, (1, [1, 0, 0]), (2, [1, 0, 0])];
    assert_eq!(selected(&pair(true)), (versions, 2));
}

#[test]
fn b9_needing_each_other_and_needed_by_none() {
    assert_eq!(selected(&pair(false)), (vec![ROOT], 0));
}

#[test]
fn b10_upper_end_is_left_out() {
    let text = text(&[
        &[1, 2],
        &[2, 0, 1, 0, 0],
        &[3, 1, 1, 0, 0, 2, 0, 0],
        &[2, 1, 1, 0, 0],
        &[2, 1, 2, 0, 0],
        &[4],
    ]);
    assert_eq!(selected(&text), (vec![ROOT, (1, [1, 0, 0])], 2));
}

fn with_need(need: &[u8]) -> Vec<u8> {
    text(&[&[1, 2], &[2, 0, 1, 0, 0], need, &[4]])
}

#[test]
fn b11_caret_at_the_top() {
    assert!(read(&with_need(&[5, 1, 254, 0, 0])).is_ok());
    let refusal = read(&with_need(&[5, 1, 255, 0, 0])).unwrap_err();
    assert_eq!((refusal.number, refusal.line), (6, 3));
}

#[test]
fn b12_low_and_upper_end() {
    let refusal = read(&with_need(&[3, 1, 1, 0, 0, 1, 0, 0])).unwrap_err();
    assert_eq!((refusal.number, refusal.line), (6, 3));
    assert!(read(&with_need(&[3, 1, 0, 0, 0, 0, 0, 1])).is_ok());
}

#[test]
fn b13_sixteen_versions() {
    let with_versions = |count: u8| {
        let versions: Vec<[u8; 5]> = (1..=count).map(|major| [2, 1, major, 0, 0]).collect();
        let mut frames: Vec<&[u8]> = vec![&[1, 2], &[2, 0, 1, 0, 0]];
        frames.extend(versions.iter().map(|frame| &frame[..]));
        frames.push(&[4]);
        text(&frames)
    };
    assert!(read(&with_versions(16)).is_ok());
    let refusal = read(&with_versions(17)).unwrap_err();
    assert_eq!((refusal.number, refusal.line), (7, 19));
}

#[test]
fn the_papers_other_examples() {
    let partial_satisfier = text(&[
        &[1, 6],
        &[2, 0, 1, 0, 0],
        &[5, 1, 1, 0, 0],
        &[5, 5, 2, 0, 0],
        &[2, 1, 1, 0, 0],
        &[2, 1, 1, 1, 0],
        &[5, 2, 1, 0, 0],
        &[5, 3, 1, 0, 0],
        &[2, 2, 1, 0, 0],
        &[3, 4, 1, 0, 0, 255, 255, 255],
        &[2, 3, 1, 0, 0],
        &[3, 4, 0, 0, 0, 2, 0, 0],
        &[2, 4, 1, 0, 0],
        &[5, 5, 1, 0, 0],
        &[2, 4, 2, 0, 0],
        &[2, 5, 1, 0, 0],
        &[2, 5, 2, 0, 0],
        &[4],
    ]);
    let versions = vec![ROOT, (1, [1, 0, 0]), (5, [2, 0, 0])];
    assert_eq!(selected(&partial_satisfier).0, versions);

    let branching = text(&[
        &[1, 6],
        &[2, 0, 1, 0, 0],
        &[5, 1, 1, 0, 0],
        &[2, 1, 1, 0, 0],
        &[5, 2, 1, 0, 0],
        &[5, 3, 1, 0, 0],
        &[2, 1, 1, 1, 0],
        &[5, 4, 1, 0, 0],
        &[5, 5, 1, 0, 0],
        &[2, 2, 1, 0, 0],
        &[5, 3, 2, 0, 0],
        &[2, 3, 1, 0, 0],
        &[2, 3, 2, 0, 0],
        &[2, 4, 1, 0, 0],
        &[5, 5, 2, 0, 0],
        &[2, 5, 1, 0, 0],
        &[2, 5, 2, 0, 0],
        &[4],
    ]);
    let (trials, lines) = refused(&branching);
    assert_eq!(trials, 8);
    assert!(lines as u64 <= 2 * trials + 1);
}
