//! The walk, the force and the sheets held against each other on random catalogues.

mod slow;

use families::{Family, circles, knotted, tiny};
use second::sheets::facts;
use second::walk::Outcome;
use second::{
    Catalogue, Selection, States, all_valid, best_by_force, check, choice_order, judge_text, read,
    read_sheet, refute, refutes, sheet_text, valid, walk,
};
use slow::{SlowCatalogue, cases, slow_walk};

fn good(text: &[u8]) -> Catalogue {
    read(text).expect("families make good texts")
}

/// A selection as module numbers and version bytes, in module order.
fn versions(catalogue: &Catalogue, selection: &Selection) -> Vec<(u8, [u8; 3])> {
    selection
        .selected()
        .map(|(module, place)| (module.0, catalogue.version(module, place).unwrap().bytes()))
        .collect()
}

#[test]
fn walk_against_force_on_tiny_catalogues() {
    let (mut with, mut without) = (0, 0);
    for seed in 0..cases(60_000) {
        let catalogue = good(&tiny(seed));
        let all = all_valid(&catalogue);
        let best = best_by_force(&catalogue);
        assert_eq!(best.is_none(), all.is_empty(), "seed {seed}");
        match walk(&catalogue, None).outcome {
            Outcome::Selected(selection) => {
                assert_eq!(Some(selection), best, "seed {seed}");
                with += 1;
            }
            outcome => {
                assert_eq!(outcome, Outcome::Nothing, "seed {seed}");
                assert_eq!(None, best, "seed {seed}");
                without += 1;
            }
        }
    }
    assert!(with > without / 3 && without > with / 3, "{with} {without}");
}

#[test]
fn choice_orders_hold_every_selected_module_once() {
    for seed in 0..cases(10_000) {
        let catalogue = good(&tiny(seed));
        for selection in all_valid(&catalogue) {
            let mut order = choice_order(&catalogue, &selection).expect("a whole order");
            assert_eq!(order[0].0.0, 0);
            order.sort();
            assert!(order.into_iter().eq(selection.selected()), "seed {seed}");
        }
    }
}

#[test]
fn walk_against_the_slow_walk() {
    for family in Family::ALL {
        let count = match family {
            Family::Tiny => cases(20_000),
            Family::Knotted | Family::Largest => cases(100),
            _ => cases(4_000),
        };
        for seed in 0..count {
            let catalogue = good(&family.text(seed));
            let slow = SlowCatalogue::from_second(&catalogue);
            let cap = 3_000;
            let quick = walk(&catalogue, Some(cap));
            match slow_walk(&slow, cap) {
                None => {
                    assert_eq!(quick.outcome, Outcome::Stopped, "{family:?} {seed}");
                    assert_eq!(quick.trials, cap);
                }
                Some((success, slow)) => {
                    assert_eq!(quick.trials, slow.trials, "{family:?} {seed}");
                    let mut chosen = slow.chosen;
                    chosen.sort();
                    match quick.outcome {
                        Outcome::Selected(selection) => {
                            assert!(success);
                            assert!(valid(&catalogue, &selection), "{family:?} {seed}");
                            assert_eq!(versions(&catalogue, &selection), chosen);
                        }
                        outcome => assert_eq!((outcome, success), (Outcome::Nothing, false)),
                    }
                }
            }
        }
    }
}

#[test]
fn a_cap_of_w_lets_the_walk_end() {
    for seed in 0..cases(4_000) {
        let catalogue = good(&circles(seed));
        let whole = walk(&catalogue, None);
        assert_eq!(walk(&catalogue, Some(whole.trials)), whole);
        if let Some(less) = whole.trials.checked_sub(1) {
            let stopped = walk(&catalogue, Some(less));
            assert_eq!(stopped.outcome, Outcome::Stopped);
            assert_eq!(stopped.trials, less);
        }
    }
}

/// That a catalogue has a refuting sheet within 2W+1 lines just when nothing is valid.
fn refute_and_judge(text: &[u8], name: &str) -> Option<usize> {
    let catalogue = good(text);
    let walk = walk(&catalogue, Some(1_000_000));
    let sheet = refute(&catalogue, 480);
    match walk.outcome {
        Outcome::Selected(_) => {
            assert_eq!(sheet, None, "{name}");
            None
        }
        Outcome::Stopped => panic!("{name} takes too long"),
        Outcome::Nothing => {
            let bound = 2 * walk.trials + 1;
            let Some(sheet) = sheet else {
                assert!(bound > 480, "{name}");
                return None;
            };
            assert!(sheet.len() as u64 <= bound, "{name}");
            assert!(refutes(&catalogue, &sheet), "{name}");
            let written = sheet_text(&sheet);
            assert!(written.len() <= 7_214);
            assert_eq!(read_sheet(&catalogue, &written), Ok(sheet.clone()));
            assert_eq!(judge_text(&catalogue, &written), Ok(()));
            assert_eq!(check(text, &written, 65_536).number, 0, "{name}");
            let slow = SlowCatalogue::from_second(&catalogue);
            assert_eq!(slow::slow_judge(&slow, &written), Ok(()), "{name}");
            assert_eq!(refute(&catalogue, sheet.len()), Some(sheet.clone()));
            assert_eq!(refute(&catalogue, sheet.len() - 1), None, "{name}");
            Some(sheet.len())
        }
    }
}

#[test]
fn sheets_refute_within_the_bound() {
    for family in Family::ALL {
        let count = match family {
            Family::Tiny => cases(20_000),
            Family::Knotted | Family::Largest => cases(100).max(20),
            _ => cases(3_000),
        };
        let mut sheets = 0;
        for seed in 0..count {
            let name = format!("{family:?} {seed}");
            sheets += usize::from(refute_and_judge(&family.text(seed), &name).is_some());
        }
        assert!(sheets > 0, "{family:?} has no sheet");
    }
}

#[test]
fn every_fact_of_a_sheet_holds() {
    for seed in 0..cases(10_000) {
        let catalogue = good(&tiny(seed));
        let all = all_valid(&catalogue);
        let mut rng = families::Rng::new(seed);
        let sheet = random_sheet(&catalogue, &mut rng);
        let facts = facts(&catalogue, &sheet).expect("a well-formed sheet");
        for fact in &facts {
            for selection in &all {
                let inside = catalogue.modules().all(|module| {
                    let state = match selection.get(module) {
                        Some(place) => States::only(place),
                        None => States::ABSENT,
                    };
                    fact.states(module).holds(state)
                });
                assert!(!inside, "seed {seed}");
            }
        }
        if refutes(&catalogue, &sheet) {
            assert!(all.is_empty(), "seed {seed}");
        }
    }
}

/// A well-formed sheet of random lines, or an empty one where there are no needs.
fn random_sheet(catalogue: &Catalogue, rng: &mut families::Rng) -> Vec<second::SheetLine> {
    let mut sheet = Vec::new();
    let needs = catalogue.needs().len();
    if needs == 0 {
        return sheet;
    }
    for at in 0..rng.between(1, 40) {
        sheet.push(if at == 0 || rng.chance(1, 3) {
            second::SheetLine::Need(rng.below(needs) as u16)
        } else {
            second::SheetLine::Resolved {
                first: rng.below(at) as u16,
                second: rng.below(at) as u16,
                module: second::ModuleNo(rng.below(usize::from(catalogue.module_count())) as u8),
            }
        });
    }
    sheet
}

#[test]
fn knotted_catalogues_keep_to_their_trials() {
    let mut longest = 0;
    for seed in 0..cases(200).max(30) {
        for trials in [10, 1_000, 30_000] {
            let catalogue = good(&knotted(seed, trials));
            let walk = walk(&catalogue, Some(trials));
            assert_ne!(walk.outcome, Outcome::Stopped, "seed {seed}");
            longest = longest.max(walk.trials);
        }
    }
    assert!(longest > 10_000, "{longest}");
}
