//! What is measured: reading, picking and checking, by the proved picker and in Rust.

use crate::plain::Plain;
use crate::sets::Case;
use compare::proved;
use second::calls::{SELECTION_AREA, SHEET_AREA, WORK_AREA};
use second::{refute, selection_text, sheet_text};
use std::hint::black_box;

/// Areas that are lent again and again. The rules ask that the work area is all zero after a call, so every job clears it; nothing else is cleared.
pub struct Areas {
    selection: Vec<u8>,
    sheet: Vec<u8>,
    work: Vec<u8>,
}

impl Areas {
    /// The least areas.
    pub fn new() -> Areas {
        Areas {
            selection: vec![0; SELECTION_AREA],
            sheet: vec![0; SHEET_AREA],
            work: vec![0; WORK_AREA],
        }
    }

    /// Picks with the proved picker and the largest allowance.
    pub fn pick(&mut self, text: &[u8]) -> proved::Answer {
        self.pick_with(text, 480)
    }

    /// Picks with the proved picker and an allowance.
    pub fn pick_with(&mut self, text: &[u8], allowance: u16) -> proved::Answer {
        let Areas {
            selection,
            sheet,
            work,
        } = self;
        proved::pick(text, selection, sheet, work, allowance)
    }

    /// Clears the work area.
    pub fn clear(&mut self) {
        black_box(&mut self.work).fill(0);
    }

    /// Checks with the proved checker.
    pub fn check(&mut self, text: &[u8], sheet: &[u8]) -> proved::Answer {
        proved::check(text, sheet, &mut self.work)
    }
}

/// One thing to measure on a case.
pub type Job = fn(&Case, &mut Areas) -> u32;

/// The jobs, by the names that callgrind is given: reading, picking and checking by the proved picker, each beside the same in Rust; and the second
/// picker's pick.
pub const JOBS: [(&str, Job); 7] = [
    ("proved_read", proved_read),
    ("rust_read", rust_read),
    ("proved_pick", proved_pick),
    ("plain_pick", plain_pick),
    ("proved_check", proved_check),
    ("rust_check", rust_check),
    ("second_pick", second_pick),
];

/// A text without its end frame, which is read whole and then refused.
pub fn without_end(text: &[u8]) -> &[u8] {
    &text[..text.len() - b"04FC\n".len()]
}

#[inline(never)]
fn proved_read(case: &Case, areas: &mut Areas) -> u32 {
    areas.pick(without_end(&case.text)).line.into()
}

#[inline(never)]
fn rust_read(case: &Case, areas: &mut Areas) -> u32 {
    let line = second::read(without_end(&case.text)).map_or_else(|refusal| refusal.line, |_| 0);
    areas.clear();
    line
}

#[inline(never)]
fn proved_pick(case: &Case, areas: &mut Areas) -> u32 {
    areas.pick(&case.text).length.into()
}

/// A pick by the plain walk: the text is read, walked, and answered by a selection's text or a sheet's.
#[inline(never)]
fn plain_pick(case: &Case, areas: &mut Areas) -> u32 {
    let Ok(catalogue) = second::read(&case.text) else {
        return 0;
    };
    let (text, area) = match Plain::of(&catalogue).walk().0 {
        Some(selection) => (selection_text(&catalogue, &selection), &mut areas.selection),
        None => {
            let lines = refute(&catalogue, 480);
            let text = lines.map_or_else(Vec::new, |lines| sheet_text(&lines));
            (text, &mut areas.sheet)
        }
    };
    area[..text.len()].copy_from_slice(&text);
    areas.clear();
    text.len() as u32
}

#[inline(never)]
fn proved_check(case: &Case, areas: &mut Areas) -> u32 {
    areas.check(&case.text, &case.sheet).line.into()
}

#[inline(never)]
fn rust_check(case: &Case, areas: &mut Areas) -> u32 {
    let line = second::check(&case.text, &case.sheet, WORK_AREA).line;
    areas.clear();
    line
}

#[inline(never)]
fn second_pick(case: &Case, areas: &mut Areas) -> u32 {
    let Areas {
        selection, sheet, ..
    } = areas;
    let length = second::pick(&case.text, selection, sheet, WORK_AREA, 480).length;
    areas.clear();
    length as u32
}
