//! The stack of a call: the deepest search, and a check over the largest catalogue, end on a thread with 64 KB and what a thread needs by itself.

use compare::proved;
use families::{Draft, DraftNeed, largest};
use second::calls::{SELECTION_AREA, SHEET_AREA, WORK_AREA};
use second::{SheetLine, Version, sheet_text};
use std::thread;

/// 64 KB for the call.
const CALL: usize = 64 * 1_024;
/// For the thread itself and the test's own frames.
const THREAD: usize = 8 * 1_024;

/// Each of 32 modules needs the next, so that the search goes through all of them.
fn chain() -> Vec<u8> {
    let mut draft = Draft::with_root();
    for module in 0..31 {
        draft.add([Version::new(1, 0, 0)]);
        draft.need(module, 0, DraftNeed::any(module + 1));
    }
    draft.text()
}

/// A stack that is too small ends the whole test program by a signal.
#[test]
fn a_call_needs_less_than_64_kb() {
    let texts = [chain(), largest(0)];
    let mut areas = [
        vec![0; SELECTION_AREA],
        vec![0; SHEET_AREA],
        vec![0; WORK_AREA],
    ];
    let calls = move || {
        let [selection, sheet, work] = &mut areas;
        let picked = proved::pick(&texts[0], selection, sheet, work, 480);
        (picked.number, proved::check(&texts[1], sheet, work).number)
    };
    let small = thread::Builder::new().stack_size(CALL + THREAD);
    let answers = small.spawn(calls).expect("a thread starts").join();
    assert_eq!(answers.expect("the calls end"), (0, 2));
}

/// A frame that is larger than the page below the stack could pass over it unseen, so how far down the calls write is looked at as well.
#[test]
fn a_call_writes_on_less_than_64_kb() {
    let texts = [chain(), largest(0)];
    let sheet = sheet_text(&[SheetLine::Need(0); 480]);
    let calls = move || {
        let mut areas = [
            vec![0; SELECTION_AREA],
            vec![0; SHEET_AREA],
            vec![0; WORK_AREA],
        ];
        let [selection, written, work] = &mut areas;
        texts.map(|text| {
            let picking = proved::depth(|| {
                proved::pick(&text, selection, written, work, 480);
            });
            let checking = proved::depth(|| {
                proved::check(&text, &sheet, work);
            });
            picking.max(checking)
        })
    };
    let large = thread::Builder::new().stack_size(16 * CALL);
    let depths = large.spawn(calls).expect("a thread starts").join();
    let [chained, largest] = depths.expect("the calls end");
    // The tables alone take 17,500 bytes.
    assert!((17_500..CALL).contains(&chained), "{chained}");
    assert!((17_500..CALL).contains(&largest), "{largest}");
}
