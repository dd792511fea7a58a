//! What the families promise of themselves: good texts, their sizes, and the same text for the same seed.

mod slow;

use families::{Family, easy, largest, overfull_root, tight, tiny};
use second::walk::{Outcome, walk};
use second::{Refusal, read};
use slow::cases;

#[test]
fn every_text_reads() {
    for family in Family::ALL {
        for seed in 0..cases(1_000).min(200) {
            let text = family.text(seed);
            assert!(read(&text).is_ok(), "{family:?} {seed}");
            assert_eq!(text, family.text(seed), "{family:?} {seed}");
        }
    }
}

#[test]
fn seeds_make_a_difference() {
    for family in Family::ALL {
        let mut texts: Vec<Vec<u8>> = (0..40).map(|seed| family.text(seed)).collect();
        texts.sort();
        texts.dedup();
        assert!(texts.len() > 30, "{family:?}");
    }
}

/// How many of a hundred catalogues have a valid selection.
fn valid_in_100(family: fn(u64) -> Vec<u8>) -> usize {
    (0..400)
        .filter(|&seed| {
            let catalogue = read(&family(seed)).expect("a good text");
            matches!(walk(&catalogue, None).outcome, Outcome::Selected(_))
        })
        .count()
        / 4
}

#[test]
fn easy_is_mostly_valid_and_tight_half() {
    assert!(valid_in_100(easy) > 85);
    assert!((35..65).contains(&valid_in_100(tight)));
}

#[test]
fn largest_reaches_the_limits() {
    for seed in 0..cases(400) {
        let text = largest(seed);
        assert_eq!(text.len(), 25_929);
        let catalogue = read(&text).expect("a good text");
        assert_eq!(catalogue.module_count(), 32);
        assert_eq!(catalogue.needs().len(), 1_024);
        let versions = |module| catalogue.versions_of(module).len();
        assert_eq!(catalogue.modules().map(versions).sum::<usize>(), 497);
        let walk = walk(&catalogue, Some(100_000));
        assert_ne!(walk.outcome, Outcome::Stopped, "seed {seed}");
    }
}

#[test]
fn overfull_root_is_8_at_the_end() {
    for seed in 0..cases(100) {
        let text = overfull_root(seed);
        assert_eq!(text.len(), 26_124);
        let lines = 1 + 512 + 1_024 + 1;
        assert_eq!(read(&text), Err(Refusal::new(8, lines)));
    }
}

#[test]
fn tiny_is_tiny() {
    for seed in 0..cases(4_000) {
        let catalogue = read(&tiny(seed)).expect("a good text");
        assert!(catalogue.module_count() <= 4);
        let small = |module| catalogue.versions_of(module).len() <= 3;
        assert!(catalogue.modules().all(small));
    }
}
