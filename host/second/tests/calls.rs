//! What the two calls answer, and which bytes of the areas they change.

mod common;

use common::{LINEAR_SHEET, NO_CONFLICTS, linear_error, picked, text};
use second::{Answer, Areas, Fault, Verdict, check, pick, pick_within};

const LEAST: (usize, usize, usize) = (428, 7_214, 65_536);

/// The answer with areas of these lengths, and the areas afterwards.
fn with_areas(
    catalogue: &[u8],
    (selection, sheet, work): (usize, usize, usize),
    allowance: u32,
) -> (Answer, Vec<u8>, Vec<u8>) {
    let mut selection = vec![0x5A; selection];
    let mut sheet = vec![0xA5; sheet];
    let answer = pick(catalogue, &mut selection, &mut sheet, work, allowance);
    (answer, selection, sheet)
}

fn number(answer: &Answer) -> (u8, u32, usize) {
    (answer.number, answer.line, answer.length)
}

#[test]
fn number_11_comes_first_and_changes_nothing() {
    let (selection, sheet, work) = LEAST;
    for (lengths, allowance) in [
        ((selection - 1, sheet, work), 480),
        ((selection, sheet - 1, work), 480),
        ((selection, sheet, work - 1), 480),
        ((0, 0, 0), 0),
        (LEAST, 481),
        (LEAST, u32::MAX),
    ] {
        for catalogue in [NO_CONFLICTS, &linear_error(), b"", &[b'0'; 40_000]] {
            let (answer, selection, sheet) = with_areas(catalogue, lengths, allowance);
            assert_eq!(number(&answer), (11, 0, 0));
            assert!(selection.iter().all(|&byte| byte == 0x5A));
            assert!(sheet.iter().all(|&byte| byte == 0xA5));
        }
    }
}

#[test]
fn success_writes_the_selection_only() {
    for (more, allowance) in [(0, 0), (1, 480), (1_000, 7)] {
        let lengths = (LEAST.0 + more, LEAST.1 + more, LEAST.2 + more);
        let (answer, selection, sheet) = with_areas(NO_CONFLICTS, lengths, allowance);
        assert_eq!(number(&answer), (0, 0, 51));
        assert!(selection[..51].ends_with(b"14EC\n"));
        assert!(selection[51..].iter().all(|&byte| byte == 0x5A));
        assert!(sheet.iter().all(|&byte| byte == 0xA5));
    }
}

#[test]
fn nine_writes_the_sheet_only() {
    let (answer, selection, sheet) = with_areas(&linear_error(), LEAST, 480);
    assert_eq!((answer.number, answer.line), (9, 0));
    assert!(sheet[..answer.length].ends_with(b"24DC\n"));
    assert!(sheet[answer.length..].iter().all(|&byte| byte == 0xA5));
    assert!(selection.iter().all(|&byte| byte == 0x5A));
}

#[test]
fn the_allowance_bounds_the_sheet() {
    for allowance in 0..=20 {
        let (answer, sheet) = picked(&linear_error(), allowance);
        assert!([9, 10].contains(&answer.number));
        if allowance == 0 {
            assert_eq!(answer.number, 10);
        }
        // W is 4.
        if allowance >= 9 {
            assert_eq!(answer.number, 9);
        }
        if answer.number == 9 {
            let lines = sheet.iter().filter(|&&byte| byte == b'\n').count() - 2;
            assert!(lines <= allowance as usize);
            assert_eq!(check(&linear_error(), &sheet, 65_536).number, 0);
        }
    }
}

#[test]
fn other_numbers_change_nothing() {
    let refused = [&b""[..], b"\n", b"04FB\n", &[b'0'; 40_000]];
    for catalogue in refused {
        let (answer, selection, sheet) = with_areas(catalogue, LEAST, 480);
        assert!((1..=8).contains(&answer.number));
        assert_eq!(answer.length, 0);
        assert!(selection.iter().all(|&byte| byte == 0x5A));
        assert!(sheet.iter().all(|&byte| byte == 0xA5));
    }
    let (answer, selection, sheet) = with_areas(&linear_error(), LEAST, 0);
    assert_eq!(number(&answer), (10, 0, 0));
    assert!(selection.iter().all(|&byte| byte == 0x5A));
    assert!(sheet.iter().all(|&byte| byte == 0xA5));
}

#[test]
fn the_largest_selection_fills_its_area() {
    let mut frames: Vec<Vec<u8>> = vec![vec![1, 32]];
    for module in 0..32 {
        frames.push(vec![2, module, 1, 0, 0]);
        if module < 31 {
            frames.push(vec![5, module + 1, 1, 0, 0]);
        }
    }
    frames.push(vec![4]);
    let frames: Vec<&[u8]> = frames.iter().map(|frame| &frame[..]).collect();
    let (answer, selection) = picked(&text(&frames), 480);
    assert_eq!(number(&answer), (0, 0, 428));
    assert!(selection.starts_with(b"1120CF\n"));
}

#[test]
fn a_cap_stops_the_pick() {
    let (mut selection, mut sheet) = (vec![7; LEAST.0], vec![8; LEAST.1]);
    let mut areas = Areas {
        selection: &mut selection,
        sheet: &mut sheet,
        work_length: LEAST.2,
    };
    // W is 3.
    assert_eq!(pick_within(NO_CONFLICTS, &mut areas, 480, 2), None);
    assert!(areas.selection.iter().all(|&byte| byte == 7));
    let answer = pick_within(NO_CONFLICTS, &mut areas, 480, 3).unwrap();
    assert_eq!(number(&answer), (0, 0, 51));
    assert!(areas.sheet.iter().all(|&byte| byte == 8));
}

#[test]
fn the_checker_tells_which_text() {
    let verdict = |fault, number, line| Verdict {
        fault,
        number,
        line,
    };
    let catalogue = linear_error();
    let good = verdict(Fault::Neither, 0, 0);
    assert_eq!(check(&catalogue, LINEAR_SHEET, 65_536), good);
    let area = verdict(Fault::Neither, 11, 0);
    assert_eq!(check(&catalogue, LINEAR_SHEET, 65_535), area);
    assert_eq!(check(b"", b"", 0), area);
    let no_catalogue = verdict(Fault::Catalogue, 5, 1);
    assert_eq!(check(b"", b"", 65_536), no_catalogue);
    let long = vec![b'0'; 40_000];
    assert_eq!(check(b"", &long, 65_536), no_catalogue);
    let too_long = verdict(Fault::Catalogue, 1, 0);
    assert_eq!(check(&long, &long, 65_536), too_long);
    let rootless = text(&[&[1, 1], &[4]]);
    let no_root = verdict(Fault::Catalogue, 8, 2);
    assert_eq!(check(&rootless, LINEAR_SHEET, 65_536), no_root);
    let no_sheet = verdict(Fault::Sheet, 5, 1);
    assert_eq!(check(&catalogue, b"", 65_536), no_sheet);
    assert_eq!(
        check(&catalogue, &long, 65_536),
        verdict(Fault::Sheet, 1, 0)
    );
    // M is 3 here and 4 in the sheet's own catalogue; there are two needs.
    let foreign = verdict(Fault::Sheet, 6, 2);
    assert_eq!(check(NO_CONFLICTS, LINEAR_SHEET, 65_536), foreign);
    let one_need = text(&[&[0x20, 0, 1], &[0x21, 0, 0], &[0x24]]);
    let not_refuting = verdict(Fault::Sheet, 13, 3);
    assert_eq!(check(&catalogue, &one_need, 65_536), not_refuting);
}
