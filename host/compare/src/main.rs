//! The long comparison: as many good catalogues, damaged ones, and sheets, as the argument says (10,000,000 of each without one).

use compare::cases::Kind;
use compare::run;
use std::process::ExitCode;

/// Seeds between two lines of progress.
const STRETCH: u64 = 100_000;

fn main() -> ExitCode {
    let asked = std::env::args()
        .nth(1)
        .map_or(Ok(10_000_000), |word| word.parse());
    let Ok(count) = asked else {
        eprintln!("usage: compare [HOW MANY OF EACH KIND]");
        return ExitCode::from(2);
    };
    for kind in [Kind::Good, Kind::Damaged, Kind::Sheets] {
        for start in (0..count).step_by(STRETCH as usize) {
            let end = count.min(start + STRETCH);
            match run(kind, start..end) {
                Ok(tally) => println!("{kind:?} {start}..{end}: no difference; {tally:?}"),
                Err(difference) => {
                    println!("{difference}");
                    return ExitCode::FAILURE;
                }
            }
        }
    }
    ExitCode::SUCCESS
}
