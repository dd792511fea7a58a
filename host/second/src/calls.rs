//! The two calls, picking and checking, and the text that a program writes.

use crate::catalogue::Catalogue;
use crate::frames;
use crate::read::read;
use crate::refusal::{self, Refusal};
use crate::refute::refute;
use crate::selection::{Selection, selection_text};
use crate::sheets::{SHEET_LIMIT, judge_text, sheet_text};
use crate::walk::{Outcome, walk};

/// The selection area has at least 428 bytes.
pub const SELECTION_AREA: usize = 428;
/// The sheet area has at least 7,214 bytes.
pub const SHEET_AREA: usize = 7_214;
/// A work area has at least this many bytes, the most that a minimum may be.
pub const WORK_AREA: usize = 65_536;

/// What the picking call answers.
#[derive(Clone, Copy, Debug, PartialEq, Eq)]
pub struct Answer {
    /// The number: 0 or 1 to 11.
    pub number: u8,
    /// The line told with it.
    pub line: u32,
    /// How many bytes are written from the start of the selection area (0) or the sheet area (9).
    pub length: usize,
}

impl Answer {
    const fn without_text(number: u8, line: u32) -> Answer {
        Answer {
            number,
            line,
            length: 0,
        }
    }
}

/// The picking call.
///
/// 11 if the selection area is below 428 bytes, the sheet area below 7,214,
/// the work area below 65,536, or the allowance above 480. Then 1 to 8 as the
/// reader says. Then 0 with the text of the wanted selection at the start of
/// the selection area, or, where no selection is valid, 9 with the text of a
/// sheet within the allowance at the start of the sheet area, or else 10.
/// 10 is not given with an allowance of 2W+1 or more, and always with 0. All
/// other bytes of the areas stay.
pub fn pick(
    text: &[u8],
    selection_area: &mut [u8],
    sheet_area: &mut [u8],
    work_length: usize,
    allowance: u32,
) -> Answer {
    let mut areas = Areas {
        selection: selection_area,
        sheet: sheet_area,
        work_length,
    };
    match ready(text, &areas, allowance) {
        Ok(catalogue) => match walk(&catalogue, None).outcome {
            Outcome::Selected(selection) => selected(&catalogue, &selection, &mut areas),
            // Without a cap no walk is stopped.
            Outcome::Nothing | Outcome::Stopped => nothing(&catalogue, &mut areas, allowance),
        },
        Err(answer) => answer,
    }
}

/// The areas that are lent to the picking call; of the work area only its length matters here.
#[derive(Debug)]
pub struct Areas<'a> {
    /// Where a selection text is written.
    pub selection: &'a mut [u8],
    /// Where a sheet text is written.
    pub sheet: &'a mut [u8],
    /// How long the work area is.
    pub work_length: usize,
}

/// The picking call for a caller of little patience: none, and no byte changed, if W is above `cap`.
pub fn pick_within(text: &[u8], areas: &mut Areas, allowance: u32, cap: u64) -> Option<Answer> {
    match ready(text, areas, allowance) {
        Ok(catalogue) => match walk(&catalogue, Some(cap)).outcome {
            Outcome::Selected(selection) => Some(selected(&catalogue, &selection, areas)),
            Outcome::Nothing => Some(nothing(&catalogue, areas, allowance)),
            Outcome::Stopped => None,
        },
        Err(answer) => Some(answer),
    }
}

/// The catalogue, or the answer 11 or 1 to 8.
fn ready(text: &[u8], areas: &Areas, allowance: u32) -> Result<Catalogue, Answer> {
    if areas.selection.len() < SELECTION_AREA
        || areas.sheet.len() < SHEET_AREA
        || areas.work_length < WORK_AREA
        || allowance > SHEET_LIMIT as u32
    {
        return Err(Answer::without_text(refusal::AREA, 0));
    }
    read(text).map_err(|Refusal { number, line }| Answer::without_text(number, line))
}

/// 0 with the selection.
fn selected(catalogue: &Catalogue, selection: &Selection, areas: &mut Areas) -> Answer {
    let text = selection_text(catalogue, selection);
    hand_out(refusal::GOOD, &text, areas.selection)
}

/// 9 with a sheet if one is found within the allowance, else 10.
fn nothing(catalogue: &Catalogue, areas: &mut Areas, allowance: u32) -> Answer {
    match refute(catalogue, allowance as usize) {
        Some(sheet) => hand_out(refusal::SHEET, &sheet_text(&sheet), areas.sheet),
        None => Answer::without_text(refusal::NO_SHEET, 0),
    }
}

/// Writes a text from the start of an area that has room for it.
fn hand_out(number: u8, text: &[u8], area: &mut [u8]) -> Answer {
    for (slot, &byte) in area.iter_mut().zip(text) {
        *slot = byte;
    }
    Answer {
        number,
        line: 0,
        length: text.len(),
    }
}

/// Which of the checking call's two texts was at fault.
#[derive(Clone, Copy, Debug, PartialEq, Eq)]
pub enum Fault {
    /// Neither, with 0 and 11.
    Neither,
    /// The catalogue text, with 1 to 8.
    Catalogue,
    /// The sheet text, with 1 to 6 and 13.
    Sheet,
}

/// What the checking call answers.
#[derive(Clone, Copy, Debug, PartialEq, Eq)]
pub struct Verdict {
    /// Which text was at fault.
    pub fault: Fault,
    /// The number: 0 for an accepted sheet.
    pub number: u8,
    /// The line told with it, in the text at fault.
    pub line: u32,
}

impl Verdict {
    const fn new(fault: Fault, number: u8, line: u32) -> Verdict {
        Verdict {
            fault,
            number,
            line,
        }
    }

    const fn of(fault: Fault, refusal: Refusal) -> Verdict {
        Verdict::new(fault, refusal.number, refusal.line)
    }
}

/// The checking call.
///
/// 11 if the work area is below 65,536 bytes; the two texts have no minimum
/// length. Then the catalogue's 1 to 8, and only then the sheet's 1 to 6 and
/// 13. An accepted sheet gives number 0 and line 0.
pub fn check(text: &[u8], sheet: &[u8], work_length: usize) -> Verdict {
    if work_length < WORK_AREA {
        return Verdict::new(Fault::Neither, refusal::AREA, 0);
    }
    let catalogue = match read(text) {
        Ok(catalogue) => catalogue,
        Err(refusal) => return Verdict::of(Fault::Catalogue, refusal),
    };
    match judge_text(&catalogue, sheet) {
        Ok(()) => Verdict::new(Fault::Neither, refusal::GOOD, 0),
        Err(refusal) => Verdict::of(Fault::Sheet, refusal),
    }
}

/// What a program writes for a catalogue text, with allowance 480.
///
/// The selection, the sheet, or one frame: 1F, number, line (2), check.
pub fn answer_text(text: &[u8]) -> Vec<u8> {
    let mut selection_area = [0; SELECTION_AREA];
    let mut sheet_area = [0; SHEET_AREA];
    let allowance = SHEET_LIMIT as u32;
    let answer = pick(
        text,
        &mut selection_area,
        &mut sheet_area,
        WORK_AREA,
        allowance,
    );
    match answer.number {
        refusal::GOOD => selection_area[..answer.length].to_vec(),
        refusal::SHEET => sheet_area[..answer.length].to_vec(),
        number => answer_frame(number, answer.line),
    }
}

/// The line of the one frame that tells a number and a line.
pub fn answer_frame(number: u8, line: u32) -> Vec<u8> {
    let [high, low] = (line as u16).to_be_bytes();
    let mut out = Vec::new();
    frames::push_frame(&mut out, &[frames::ANSWER, number, high, low]);
    out
}
