//! One pick of the proved picker, held against the second picker's.

use crate::area::Area;
use crate::difference::{Difference, stands};
use crate::proved::{self, Answer};
use families::Rng;
use second::calls::{SELECTION_AREA, SHEET_AREA, WORK_AREA};
use second::refusal;
use second::{Areas, check, pick_within, read, walk};

/// What is lent to a call beside the text.
#[derive(Clone, Copy, Debug, PartialEq, Eq)]
pub struct Lent {
    /// The length of the selection area.
    pub selection: usize,
    /// The length of the sheet area.
    pub sheet: usize,
    /// The length of the work area.
    pub work: usize,
    /// The most lines that a sheet may have.
    pub allowance: u16,
}

impl Lent {
    /// The least areas, and an allowance.
    pub const fn least(allowance: u16) -> Lent {
        Lent {
            selection: SELECTION_AREA,
            sheet: SHEET_AREA,
            work: WORK_AREA,
            allowance,
        }
    }
}

/// The second picker walks no further than this.
const MOST_TRIALS: u64 = 100_000;

/// Picks with both, and compares number, line, length and every byte of every area.
///
/// Tells the number, or nothing, without a pick of the proved picker, where the plain walk has more than 100,000 trials.
pub fn compare_pick(text: &[u8], lent: Lent, rng: &mut Rng) -> Result<Option<u8>, Box<Difference>> {
    let Some(wanted) = Wanted::of(text, lent) else {
        return Ok(None);
    };
    let mut call = Call::make(text, lent, rng);
    let answer = proved::pick(
        call.text.lend(),
        call.selection.lend(),
        call.sheet.lend(),
        call.work.lend(),
        lent.allowance,
    );
    match call.judge(text, lent, answer, &wanted) {
        Ok(()) => Ok(Some(answer.number)),
        Err(what) => Err(Difference {
            text: text.to_vec(),
            sheet: None,
            lent: format!("{lent:?}"),
            what: format!("{what}; the proved picker answers {answer:?}"),
        }
        .kept()),
    }
}

/// What the second picker answers, and the selection that it writes.
struct Wanted {
    answer: second::Answer,
    selection: Vec<u8>,
}

impl Wanted {
    fn of(text: &[u8], lent: Lent) -> Option<Wanted> {
        let mut selection = vec![0; lent.selection];
        let mut areas = Areas {
            selection: &mut selection,
            sheet: &mut vec![0; lent.sheet],
            work_length: lent.work,
        };
        let answer = pick_within(text, &mut areas, lent.allowance.into(), MOST_TRIALS)?;
        selection.truncate(answer.length);
        Some(Wanted { answer, selection })
    }
}

/// The areas of one call.
struct Call {
    text: Area,
    selection: Area,
    sheet: Area,
    work: Area,
}

impl Call {
    fn make(text: &[u8], lent: Lent, rng: &mut Rng) -> Call {
        Call {
            text: Area::holding(text, rng),
            selection: Area::new(lent.selection, rng),
            sheet: Area::new(lent.sheet, rng),
            work: Area::new(lent.work, rng),
        }
    }

    /// Whether the proved answer and its areas are as the second picker says.
    fn judge(
        &self,
        text: &[u8],
        lent: Lent,
        answer: Answer,
        wanted: &Wanted,
    ) -> Result<(), String> {
        let Wanted {
            answer: told,
            selection,
        } = wanted;
        let cleared = if told.number == refusal::AREA {
            0
        } else {
            lent.work
        };
        stands("work", &self.work, &vec![0; cleared])?;
        stands("text", &self.text, &[])?;
        if matches!(told.number, refusal::SHEET | refusal::NO_SHEET) {
            stands("selection", &self.selection, &[])?;
            return self.judge_sheet(text, lent.allowance, answer);
        }
        let right = Answer {
            number: told.number,
            text: u8::from((1..=8).contains(&told.number)),
            line: told.line as u16,
            place: 0,
            length: told.length as u16,
        };
        if answer != right {
            return Err(format!("the second picker answers {right:?}"));
        }
        stands("selection", &self.selection, selection)?;
        stands("sheet", &self.sheet, &[])
    }

    /// Where no selection is valid: 9 with any sheet that the second checker accepts, within the allowance, or 10 below 2W + 1 lines.
    fn judge_sheet(&self, text: &[u8], allowance: u16, answer: Answer) -> Result<(), String> {
        let trials = read(text).map_or(0, |catalogue| walk(&catalogue, None).trials);
        let enough = u64::from(allowance) > 2 * trials;
        let told = |number, length| Answer {
            number,
            text: 0,
            line: 0,
            place: 0,
            length,
        };
        if answer == told(refusal::NO_SHEET, 0) && !enough {
            return stands("sheet", &self.sheet, &[]);
        }
        if answer != told(refusal::SHEET, answer.length) || allowance == 0 {
            return Err(format!("no selection is valid, W is {trials}"));
        }
        let sheet = self.sheet.start(answer.length.into());
        let verdict = check(text, sheet, WORK_AREA);
        let lines = sheet.iter().filter(|&&byte| byte == b'\n').count() - 2;
        if verdict.number != refusal::GOOD || lines > allowance.into() {
            return Err(format!(
                "the second checker says {verdict:?} to a sheet of {lines} lines"
            ));
        }
        stands("sheet", &self.sheet, sheet)
    }
}
