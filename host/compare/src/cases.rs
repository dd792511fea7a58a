//! Texts, areas and allowances from seeds.

use crate::picks::Lent;
use families::{
    Rng, circles, damaged_catalogue, damaged_sheet, easy, knotted, largest, overfull_root, tight,
    tiny,
};
use second::{Catalogue, ModuleNo, SheetLine, read, refute, sheet_text};

/// What is compared.
#[derive(Clone, Copy, Debug, PartialEq, Eq)]
pub enum Kind {
    /// Picks on good catalogues.
    Good,
    /// Picks on damaged catalogues.
    Damaged,
    /// Checks of sheets, good ones and damaged ones.
    Sheets,
}

/// The catalogue of a seed: of a hundred, 64 easy or tight ones, 24 tiny ones or ones with circles, 11 knotted ones and one of the largest.
///
/// The plain walk needs at most 300 trials for a knotted one of the first ten, and at most 20,000 for the last.
pub fn catalogue(seed: u64) -> Vec<u8> {
    match seed % 100 {
        0..32 => easy(seed),
        32..64 => tight(seed),
        64..76 => tiny(seed),
        76..88 => circles(seed),
        88..98 => knotted(seed, 300),
        98 => knotted(seed, 20_000),
        _ if seed % 400 == 399 => overfull_root(seed),
        _ => largest(seed),
    }
}

/// The text of a seed.
pub fn text(kind: Kind, seed: u64) -> Vec<u8> {
    let text = catalogue(seed);
    match kind {
        Kind::Damaged => damaged_catalogue(&text, seed),
        Kind::Sheets if seed % 25 == 7 => damaged_catalogue(&text, seed),
        Kind::Good | Kind::Sheets => text,
    }
}

/// What is lent: mostly enough, and more than enough; the allowance is mostly the largest.
pub fn lent(rng: &mut Rng) -> Lent {
    let least = Lent::least(480);
    let length = |least: usize, rng: &mut Rng| match rng.below(200) {
        0 => least - 1 - rng.below(3),
        1 => rng.below(least),
        _ => least + rng.below(48),
    };
    Lent {
        selection: length(least.selection, rng),
        sheet: length(least.sheet, rng),
        work: length(least.work, rng),
        allowance: match rng.below(8) {
            0 => rng.below(40) as u16,
            1 => rng.below(483) as u16,
            _ => 480,
        },
    }
}

/// The sheet of a seed for a catalogue text: one that refutes where there is one, else one made up; in two of three it is damaged.
pub fn sheet(text: &[u8], seed: u64) -> Vec<u8> {
    let mut rng = Rng::new(seed);
    let lines = match read(text) {
        Ok(catalogue) if rng.chance(7, 8) => {
            refute(&catalogue, 480).unwrap_or_else(|| made_up(&catalogue, &mut rng))
        }
        Ok(catalogue) => made_up(&catalogue, &mut rng),
        Err(_) => vec![SheetLine::Need(0)],
    };
    match seed % 3 {
        0 => sheet_text(&lines),
        _ => damaged_sheet(&sheet_text(&lines), seed),
    }
}

/// Lines that fit a catalogue, up to 480 of them, most of them resolved from any two lines before.
fn made_up(catalogue: &Catalogue, rng: &mut Rng) -> Vec<SheetLine> {
    let most = if rng.chance(1, 50) { 480 } else { 12 };
    let mut lines = Vec::new();
    for at in 0..rng.between(1, most) {
        let line = if at == 0 || rng.chance(2, 5) {
            SheetLine::Need(rng.below(catalogue.needs().len()) as u16)
        } else {
            SheetLine::Resolved {
                first: rng.below(at) as u16,
                second: (at - 1) as u16,
                module: ModuleNo(rng.below(catalogue.module_count().into()) as u8),
            }
        };
        lines.push(line);
    }
    lines
}

/// The length of a work area that is lent to a check, mostly enough.
pub fn work(rng: &mut Rng) -> usize {
    lent(rng).work
}
