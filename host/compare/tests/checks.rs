//! Checks compared with the second checker: the gate's share of sheets, work areas near the least, and sheets that the proved picker writes.

mod common;

use common::samples;
use compare::cases::{Kind, catalogue, sheet};
use compare::{compare_check, proved, run};
use families::{Draft, DraftNeed, Rng};
use second::calls::{SELECTION_AREA, SHEET_AREA, WORK_AREA};
use second::{ModuleNo, SheetLine, Version, sheet_text};

/// So many cases, fewer where nothing is optimised.
fn cases(count: u64) -> u64 {
    if cfg!(debug_assertions) {
        count / 40
    } else {
        count
    }
}

/// That a check does not differ; the number.
fn same(text: &[u8], sheet: &[u8], work: usize) -> u8 {
    match compare_check(text, sheet, work, &mut Rng::new(7)) {
        Ok(number) => number,
        Err(difference) => panic!("{difference}"),
    }
}

#[test]
fn sheets_good_and_damaged() {
    let tally = match run(Kind::Sheets, 0..cases(200_000)) {
        Ok(tally) => tally,
        Err(difference) => panic!("{difference}"),
    };
    for number in [0, 1, 2, 3, 4, 5, 6, 7, 8, 11, 13] {
        assert!(tally.answers[number] > 0, "{number} never turned up");
    }
}

#[test]
fn work_areas_near_the_least() {
    for seed in 0..20 {
        let text = catalogue(seed);
        let sheet = sheet(&text, seed);
        for work in [0, 1, WORK_AREA - 1, WORK_AREA, WORK_AREA + 1, 2 * WORK_AREA] {
            assert_eq!(same(&text, &sheet, work) == 11, work < WORK_AREA);
        }
    }
}

#[test]
fn what_the_picker_writes_is_accepted() {
    let mut written = 0;
    for seed in 0..cases(4_000) {
        let text = catalogue(seed);
        let mut sheet = [0; SHEET_AREA];
        let mut work = vec![0; WORK_AREA];
        if seed % 100 == 98 {
            continue; // the longest walks
        }
        let answer = proved::pick(&text, &mut [0; SELECTION_AREA], &mut sheet, &mut work, 480);
        if answer.number == 9 {
            written += 1;
            assert_eq!(
                same(&text, &sheet[..answer.length.into()], WORK_AREA),
                0,
                "{seed}"
            );
        }
    }
    assert!(written > cases(400));
}

#[test]
fn the_samples_sheets() {
    for sample in samples() {
        let is_sheet = sample.answer.starts_with(b"20");
        let number = same(&sample.catalogue, &sample.answer, WORK_AREA);
        assert_eq!(number == 0, is_sheet, "{}", sample.name);
    }
}

/// Root and foo need each other: resolved at foo, every set but the root's is full, and the root's is empty. A valid selection exists.
#[test]
fn the_roots_own_version_is_asked_for() {
    let mut draft = Draft::with_root();
    draft.add([Version::new(1, 0, 0)]);
    draft.need(0, 0, DraftNeed::any(1));
    draft.need(1, 0, DraftNeed::any(0));
    let resolved = SheetLine::Resolved {
        first: 0,
        second: 1,
        module: ModuleNo(1),
    };
    let sheet = sheet_text(&[SheetLine::Need(0), SheetLine::Need(1), resolved]);
    assert_eq!(same(&draft.text(), &sheet, WORK_AREA), 13);
}
