//! One check of a sheet by the proved checker, held against the second picker's.

use crate::area::Area;
use crate::difference::{Difference, stands};
use crate::proved::{self, Answer};
use families::Rng;
use second::{Fault, check, refusal};

/// Checks with both, and compares the number, the text at fault, the line and every byte of the work area; tells the number.
pub fn compare_check(
    text: &[u8],
    sheet: &[u8],
    work: usize,
    rng: &mut Rng,
) -> Result<u8, Box<Difference>> {
    let mut texts = [Area::holding(text, rng), Area::holding(sheet, rng)];
    let mut area = Area::new(work, rng);
    let [catalogue, lines] = &mut texts;
    let answer = proved::check(catalogue.lend(), lines.lend(), area.lend());
    let wanted = wanted(text, sheet, work);
    match judge(answer, wanted, &area, &texts) {
        Ok(()) => Ok(answer.number),
        Err(what) => Err(Difference {
            text: text.to_vec(),
            sheet: Some(sheet.to_vec()),
            lent: format!("a work area of {work} bytes"),
            what: format!("{what}; the proved checker answers {answer:?}"),
        }
        .kept()),
    }
}

/// What the second checker says, as the proved one packs it.
fn wanted(text: &[u8], sheet: &[u8], work: usize) -> Answer {
    let verdict = check(text, sheet, work);
    Answer {
        number: verdict.number,
        text: match verdict.fault {
            Fault::Neither => 0,
            Fault::Catalogue => 1,
            Fault::Sheet => 2,
        },
        line: verdict.line as u16,
        place: 0,
        length: 0,
    }
}

fn judge(answer: Answer, wanted: Answer, work: &Area, texts: &[Area; 2]) -> Result<(), String> {
    if answer != wanted {
        return Err(format!("the second checker answers {wanted:?}"));
    }
    let cleared = if answer.number == refusal::AREA {
        0
    } else {
        work.length()
    };
    stands("work", work, &vec![0; cleared])?;
    stands("catalogue text", &texts[0], &[])?;
    stands("sheet text", &texts[1], &[])
}
