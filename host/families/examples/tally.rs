//! Prints, for each family, how large its catalogues are, how many have a valid selection, and how long the plain walk is.

use families::Family;
use second::walk::{Outcome, walk};

const SEEDS: u64 = 400;

fn main() {
    println!(
        "family     read  valid  none  stopped  W median  W most  bytes most  sheets  lines most"
    );
    for family in Family::ALL {
        tally(family);
    }
}

fn tally(family: Family) {
    let (mut valid, mut none, mut stopped, mut sheets) = (0, 0, 0, 0);
    let (mut longest, mut most_lines) = (0, 0);
    let mut trials = Vec::new();
    for seed in 0..SEEDS {
        let text = family.text(seed);
        longest = longest.max(text.len());
        let Ok(catalogue) = second::read(&text) else {
            continue;
        };
        let walk = walk(&catalogue, Some(10_000_000));
        trials.push(walk.trials);
        match walk.outcome {
            Outcome::Selected(_) => valid += 1,
            Outcome::Nothing => none += 1,
            Outcome::Stopped => stopped += 1,
        }
        if let Some(sheet) = second::refute(&catalogue, 480) {
            sheets += 1;
            most_lines = most_lines.max(sheet.len());
        }
    }
    trials.sort_unstable();
    println!(
        "{:9} {:5} {:6} {:5} {:8} {:9} {:7} {:11} {:7} {:11}",
        format!("{family:?}"),
        trials.len(),
        valid,
        none,
        stopped,
        trials.get(trials.len() / 2).unwrap_or(&0),
        trials.last().unwrap_or(&0),
        longest,
        sheets,
        most_lines
    );
}
