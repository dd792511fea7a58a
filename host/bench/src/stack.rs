//! The stack that a call takes: how far down it writes, over the deepest searches, the largest texts and the longest sheets.

use crate::jobs::{Areas, without_end};
use crate::sets::SETS;
use compare::proved::depth;
use families::{Draft, DraftNeed};
use second::{SheetLine, Version, sheet_text};
use std::thread;

/// Stack enough for every call and for what is painted below it.
const THREAD: usize = 1 << 20;

/// The most bytes of stack that a call of a kind writes on.
pub fn most(kind: &'static str) -> usize {
    let calls = move || {
        let mut areas = Areas::new();
        let (texts, sheet) = match kind {
            "flat" => (flat(), None),
            "deep" => (deep(), None),
            _ => (deep(), Some(sheet_text(&[SheetLine::Need(0); 480]))),
        };
        let depths = texts.iter().map(|text| {
            depth(|| {
                match &sheet {
                    Some(sheet) => areas.check(text, sheet),
                    None => areas.pick(text),
                };
            })
        });
        depths.max().unwrap_or(0)
    };
    let thread = thread::Builder::new().stack_size(THREAD).spawn(calls);
    let most = thread.expect("a thread starts").join();
    most.expect("the calls end")
}

/// Texts without a search: a root alone, a text that is too long, and two of each set without their end.
fn flat() -> Vec<Vec<u8>> {
    let mut texts = vec![Draft::with_root().text(), vec![b'0'; 32_769]];
    for set in SETS {
        texts.extend(
            set.cases(2)
                .iter()
                .map(|case| without_end(&case.text).to_vec()),
        );
    }
    texts
}

/// The deepest searches, one that ends well and one that doesn't, and two of each set.
fn deep() -> Vec<Vec<u8>> {
    let mut texts = vec![chain(true), chain(false)];
    for set in SETS {
        texts.extend(set.cases(2).into_iter().map(|case| case.text));
    }
    texts
}

/// Each of 32 modules needs the next, so that the search goes 31 choices deep; the last needs the root, in a good range or in a bad one.
fn chain(good: bool) -> Vec<u8> {
    let mut draft = Draft::with_root();
    for _ in 1..32 {
        draft.add([Version::new(1, 0, 0)]);
    }
    for module in 0..31 {
        draft.need(module, 0, DraftNeed::any(module + 1));
    }
    let last = if good {
        DraftNeed::any(0)
    } else {
        DraftNeed::unmet(0, 9)
    };
    draft.need(31, 0, last);
    draft.text()
}
