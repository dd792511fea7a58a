//! Damaged texts: nothing panics, and every refusal is the one that the slow rules give.

mod slow;

use families::{Damage, Family, Rng, damaged_catalogue, damaged_sheet, knotted, largest};
use second::calls::{Areas, SELECTION_AREA, SHEET_AREA, WORK_AREA};
use second::{Fault, Refusal, all_valid, check, judge_text, pick_within, read, refute, sheet_text};
use slow::{SlowCatalogue, cases, slow_judge, slow_read};
use std::collections::BTreeMap;

/// That both readers say the same of a text; the number they give.
fn compare(text: &[u8], name: &str) -> u8 {
    let quick = read(text)
        .map(|catalogue| SlowCatalogue::from_second(&catalogue))
        .map_err(|Refusal { number, line }| (number, line));
    assert_eq!(quick, slow_read(text), "{name}");
    quick.err().map_or(0, |told| told.0)
}

/// That both judges say the same of a sheet; the number they give.
fn compare_sheets(catalogue: &second::Catalogue, sheet: &[u8], name: &str) -> u8 {
    let quick = judge_text(catalogue, sheet).map_err(|refusal| (refusal.number, refusal.line));
    let slow = slow_judge(&SlowCatalogue::from_second(catalogue), sheet);
    assert_eq!(quick, slow, "{name}");
    quick.err().map_or(0, |told| told.0)
}

/// Good texts of all families but the largest, not too long for the slow rules.
fn small_texts(count: u64) -> Vec<Vec<u8>> {
    let text = |family: Family, seed: u64| match family {
        Family::Largest => None,
        Family::Knotted => Some(knotted(seed, 100)),
        _ => Some(family.text(seed)),
    };
    Family::ALL
        .into_iter()
        .flat_map(|family| (0..count).filter_map(move |seed| text(family, seed)))
        .filter(|text| text.len() < 2_000)
        .collect()
}

#[test]
fn damaged_catalogues() {
    let texts = small_texts(40);
    let mut numbers = BTreeMap::new();
    for seed in 0..cases(150_000) {
        let text = &texts[(seed % texts.len() as u64) as usize];
        let damaged = damaged_catalogue(text, seed);
        *numbers
            .entry(compare(&damaged, &format!("seed {seed}")))
            .or_insert(0) += 1;
    }
    for number in 0..=8 {
        assert!(numbers.contains_key(&number), "{number} of {numbers:?}");
    }
}

#[test]
fn damaged_large_catalogues() {
    let mut numbers = BTreeMap::new();
    let texts: Vec<Vec<u8>> = (0..4).map(largest).collect();
    for seed in 0..cases(1_000) {
        let damaged = damaged_catalogue(&texts[(seed % 4) as usize], seed);
        *numbers
            .entry(compare(&damaged, &format!("seed {seed}")))
            .or_insert(0) += 1;
    }
    assert!(numbers.len() > 4, "{numbers:?}");
}

#[test]
fn random_bytes() {
    let mut rng = Rng::new(7);
    let likely = *b"0123456789ABCDEF0123456789ABCDEF\n\n\n\ra ";
    for case in 0..cases(100_000) {
        let text: Vec<u8> = (0..rng.below(60))
            .map(|_| match rng.chance(49, 50) {
                true => *rng.one_of(&likely).unwrap(),
                false => rng.byte(),
            })
            .collect();
        compare(&text, &format!("case {case}"));
    }
}

#[test]
fn random_frames() {
    let mut rng = Rng::new(11);
    let mut good = 0;
    for case in 0..cases(100_000) {
        let mut text = Vec::new();
        let modules = rng.between(1, 3) as u8;
        second::frames::push_frame(&mut text, &[1, modules]);
        for _ in 0..rng.below(8) {
            let small = |rng: &mut Rng| *rng.one_of(&[0, 0, 1, 1, 2, 3, 255]).unwrap();
            let kind = *rng.one_of(&[2, 2, 2, 3, 5, 4, 1]).unwrap();
            let length = match kind {
                1 => 1,
                3 => 7,
                4 => 0,
                _ => 4,
            };
            let mut frame = vec![kind];
            frame.extend((0..length).map(|_| small(&mut rng)));
            second::frames::push_frame(&mut text, &frame);
        }
        second::frames::push_frame(&mut text, &[4]);
        good += u32::from(compare(&text, &format!("case {case}")) == 0);
    }
    assert!(good > 0);
}

#[test]
fn each_damage_reaches_its_number() {
    use Damage::*;
    let expected: [(Damage, &[u8]); 25] = [
        (Cut, &[2, 5]),
        (CutLines, &[5]),
        (DoubledLine, &[5]),
        (WrongSum, &[3]),
        (MendedField, &[4, 5, 6]),
        (LowerCase, &[2]),
        (CarriageReturn, &[2]),
        (Blank, &[2]),
        (EmptyLine, &[2]),
        (OddDigits, &[2]),
        (StubLine, &[2]),
        (ShortLine, &[4]),
        (OverlongLine, &[4]),
        (LinesAfterEnd, &[5]),
        (FaultAfterEnd, &[2, 3, 4]),
        (BytesAfterEnd, &[2]),
        (OverLimit, &[1]),
        (StrangeKind, &[4]),
        (HeadValue, &[6]),
        (HighModule, &[6]),
        (HighVersion, &[6]),
        (TurnedRange, &[6]),
        (HighCaret, &[6]),
        (OwnNeed, &[6]),
        (RootVersions, &[8]),
    ];
    let texts = small_texts(60);
    for (damage, numbers) in expected {
        let mut rng = Rng::new(3);
        let found: Vec<u8> = texts
            .iter()
            .map(|text| compare(&damage.spoil(text, &mut rng), &format!("{damage:?}")))
            .collect();
        for number in numbers {
            assert!(found.contains(number), "{damage:?} never gives {number}");
        }
    }
    for damage in [ManyVersions, ManyNeeds] {
        let mut rng = Rng::new(5);
        let mut spoilt = (0..12).map(|seed| damage.spoil(&largest(seed), &mut rng));
        let name = format!("{damage:?}");
        assert!(spoilt.any(|text| compare(&text, &name) == 7), "{name}");
    }
}

#[test]
fn exact_lengths() {
    for (seed, text) in small_texts(20).iter().enumerate() {
        let mut rng = Rng::new(seed as u64);
        let at = Damage::AtLimit.spoil(text, &mut rng);
        assert_eq!(at.len(), 32_768);
        assert_ne!(compare(&at, "at the limit"), 1);
        let over = Damage::OverLimit.spoil(text, &mut rng);
        assert_eq!(over.len(), 32_769);
        assert_eq!(compare(&over, "over the limit"), 1);
    }
}

#[test]
fn the_1025th_need() {
    let mut draft = families::Draft::with_root();
    for _ in 0..5 {
        draft.add((1..=16).map(|major| second::Version::new(major, 0, 0)));
    }
    let text = draft.text();
    let mut found = Vec::new();
    for seed in 0..40 {
        let full = Damage::ManyNeedsInAll.spoil(&text, &mut Rng::new(seed));
        found.push(compare(&full, "many needs"));
    }
    found.sort();
    found.dedup();
    assert_eq!(found, [0, 7]);
}

/// Catalogues without a valid selection, with their sheets.
fn refuted(count: u64) -> Vec<(Vec<u8>, Vec<u8>)> {
    small_texts(count)
        .into_iter()
        .filter_map(|text| {
            let sheet = refute(&read(&text).ok()?, 60)?;
            Some((text, sheet_text(&sheet)))
        })
        .collect()
}

#[test]
fn damaged_sheets() {
    let pairs = refuted(60);
    let catalogues: Vec<second::Catalogue> = pairs
        .iter()
        .map(|(text, _)| read(text).expect("a good text"))
        .collect();
    let mut numbers = BTreeMap::new();
    for seed in 0..cases(100_000) {
        let at = (seed % pairs.len() as u64) as usize;
        let damaged = damaged_sheet(&pairs[at].1, seed);
        let number = compare_sheets(&catalogues[at], &damaged, &format!("seed {seed}"));
        *numbers.entry(number).or_insert(0) += 1;
    }
    for number in [0, 1, 2, 3, 4, 5, 6, 13] {
        assert!(numbers.contains_key(&number), "{number} of {numbers:?}");
    }
}

#[test]
fn sheets_against_other_catalogues() {
    // A sheet of one catalogue, damaged or not, must never be accepted where a selection is valid.
    let pairs = refuted(60);
    let mut accepted = 0;
    for seed in 0..cases(60_000) {
        let text = families::tiny(seed);
        let catalogue = read(&text).expect("a good text");
        let sheet = &pairs[(seed % pairs.len() as u64) as usize].1;
        for sheet in [sheet.clone(), damaged_sheet(sheet, seed)] {
            if compare_sheets(&catalogue, &sheet, &format!("seed {seed}")) == 0 {
                assert!(all_valid(&catalogue).is_empty(), "seed {seed}");
                accepted += 1;
            }
        }
    }
    assert!(accepted > 0);
}

#[test]
fn whole_calls_on_damaged_texts() {
    let texts = small_texts(30);
    let pairs = refuted(30);
    let mut selection = vec![1; SELECTION_AREA];
    let mut sheet = vec![2; SHEET_AREA];
    for seed in 0..cases(60_000) {
        let text = damaged_catalogue(&texts[(seed % texts.len() as u64) as usize], seed);
        let mut areas = Areas {
            selection: &mut selection,
            sheet: &mut sheet,
            work_length: WORK_AREA,
        };
        let allowance = (seed % 481) as u32;
        let Some(answer) = pick_within(&text, &mut areas, allowance, 20_000) else {
            continue;
        };
        match answer.number {
            0 => {
                assert!(selection[..answer.length].ends_with(b"14EC\n"));
                assert!(selection[answer.length..].iter().all(|&byte| byte == 1));
                selection.fill(1);
            }
            9 => {
                let written = &sheet[..answer.length];
                assert_eq!(check(&text, written, WORK_AREA).number, 0);
                assert!(sheet[answer.length..].iter().all(|&byte| byte == 2));
                sheet.fill(2);
            }
            10 => assert_eq!((answer.line, answer.length), (0, 0)),
            number => {
                assert!((1..=8).contains(&number));
                let (_, sheet) = &pairs[(seed % pairs.len() as u64) as usize];
                let verdict = check(&text, sheet, WORK_AREA);
                assert_eq!(verdict.fault, Fault::Catalogue);
                assert_eq!((verdict.number, verdict.line), (number, answer.line));
            }
        }
        assert!(selection.iter().all(|&byte| byte == 1));
        assert!(sheet.iter().all(|&byte| byte == 2));
    }
}
