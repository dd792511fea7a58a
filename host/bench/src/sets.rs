//! The catalogues that are measured, always from the same seeds.

use families::{easy, knotted, largest, tight};
use second::walk::{Outcome, walk};

/// A set of catalogue texts.
pub struct Set {
    /// Its name.
    pub name: &'static str,
    /// What is in it.
    pub about: &'static str,
    make: fn(u64) -> Vec<u8>,
    seeds: u64,
}

/// Catalogues with more trials than this are left out.
const MOST_TRIALS: u64 = 100_000;

/// All sets.
pub const SETS: [Set; 4] = [
    Set {
        name: "easy",
        about: "2 to 16 modules, mostly with a valid selection (`families::easy`, seeds 0 to 399)",
        make: easy,
        seeds: 400,
    },
    Set {
        name: "tight",
        about: "4 to 9 modules, half without a valid selection (`families::tight`, seeds 0 to 399)",
        make: tight,
        seeds: 400,
    },
    Set {
        name: "knotted",
        about: "the walk goes back and forth, up to 20,000 trials (`families::knotted`, seeds 0 to 29)",
        make: |seed| knotted(seed, 20_000),
        seeds: 30,
    },
    Set {
        name: "largest",
        about: "25,929 bytes: 32 modules, 497 versions, 1,024 needs (`families::largest`, seeds 0 to 19)",
        make: largest,
        seeds: 20,
    },
];

/// A catalogue's text, and the sheet that the second picker finds for it, or nothing.
pub struct Case {
    /// The catalogue's text.
    pub text: Vec<u8>,
    /// The sheet's text.
    pub sheet: Vec<u8>,
}

impl Set {
    /// The cases of the set's first seeds, at most so many.
    pub fn cases(&self, most: u64) -> Vec<Case> {
        (0..self.seeds.min(most))
            .map(self.make)
            .filter(|text| trials(text).is_some())
            .map(|text| Case {
                sheet: sheet_of(&text),
                text,
            })
            .collect()
    }
}

/// A sheet's text for a catalogue text without a valid selection, if one of 480 lines is found.
fn sheet_of(text: &[u8]) -> Vec<u8> {
    let sheet = second::read(text)
        .ok()
        .and_then(|catalogue| second::refute(&catalogue, 480));
    sheet.map_or_else(Vec::new, |lines| second::sheet_text(&lines))
}

/// W of a good text, if it isn't above the most.
pub fn trials(text: &[u8]) -> Option<u64> {
    let walk = walk(&second::read(text).ok()?, Some(MOST_TRIALS));
    (walk.outcome != Outcome::Stopped).then_some(walk.trials)
}
