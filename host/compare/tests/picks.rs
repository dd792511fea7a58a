//! Picks compared with the second picker: the gate's share of random texts, areas near the least, and allowances near 2W + 1.

use compare::cases::{Kind, catalogue};
use compare::{Lent, compare_pick, run};
use families::Rng;
use second::walk::Outcome;
use second::{read, walk};

/// So many cases, fewer where nothing is optimised.
fn cases(count: u64) -> u64 {
    if cfg!(debug_assertions) {
        count / 40
    } else {
        count
    }
}

/// That no pick differs; how often each number was answered.
fn no_difference(kind: Kind, count: u64) -> compare::Tally {
    match run(kind, 0..cases(count)) {
        Ok(tally) => {
            assert!(
                tally.skipped < cases(count) / 50,
                "{} skipped",
                tally.skipped
            );
            tally
        }
        Err(difference) => panic!("{difference}"),
    }
}

/// That a pick does not differ; the number.
fn same(text: &[u8], lent: Lent) -> u8 {
    match compare_pick(text, lent, &mut Rng::new(7)) {
        Ok(number) => number.expect("a short walk"),
        Err(difference) => panic!("{difference}"),
    }
}

#[test]
fn good_catalogues() {
    let tally = no_difference(Kind::Good, 200_000);
    for number in [0, 8, 9, 10, 11] {
        assert!(tally.answers[number] > 0, "{number} never turned up");
    }
}

#[test]
fn damaged_catalogues() {
    let tally = no_difference(Kind::Damaged, 200_000);
    for (number, &count) in tally.answers.iter().enumerate().take(12) {
        assert!(count > 0, "{number} never turned up");
    }
}

#[test]
fn areas_near_the_least() {
    let least = Lent::least(480);
    let lengths = |least: usize| [0, 1, least - 2, least - 1, least, least + 1, 2 * least];
    for text in [
        &b""[..],
        &catalogue(0),
        &catalogue(33),
        b"04FC\n",
        &[b'0'; 32_769],
    ] {
        for selection in lengths(least.selection) {
            for sheet in lengths(least.sheet) {
                for work in lengths(least.work) {
                    let number = same(
                        text,
                        Lent {
                            selection,
                            sheet,
                            work,
                            ..least
                        },
                    );
                    let fit =
                        selection >= least.selection && sheet >= least.sheet && work >= least.work;
                    assert_eq!(number != 11, fit);
                }
            }
        }
    }
}

#[test]
fn allowances_near_enough() {
    let mut refuted = 0;
    for seed in 0..cases(2_000) {
        let text = catalogue(seed);
        let Ok(good) = read(&text) else { continue };
        let whole = walk(&good, Some(300));
        if whole.outcome != Outcome::Nothing {
            continue;
        }
        refuted += 1;
        let enough = 2 * whole.trials as u16 + 1;
        let near = enough.saturating_sub(3)..enough + 3;
        for allowance in near.chain(0..3).chain(478..484).chain([u16::MAX]) {
            let number = same(&text, Lent::least(allowance));
            assert_eq!(number == 11, allowance > 480);
        }
    }
    assert!(refuted > cases(200));
}
