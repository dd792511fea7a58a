//! Families of catalogue texts, each from a seed.

use crate::draft::{Draft, DraftNeed};
use crate::rng::Rng;
use second::catalogue::{ALL_NEEDS_LIMIT, MODULE_LIMIT, NEED_LIMIT, Range, VERSION_LIMIT, Version};
use second::walk::{Outcome, walk};

/// The families there are.
#[derive(Clone, Copy, Debug, PartialEq, Eq, Hash)]
pub enum Family {
    /// See [`easy`].
    Easy,
    /// See [`tight`].
    Tight,
    /// See [`knotted`], here with at most 20,000 trials.
    Knotted,
    /// See [`largest`].
    Largest,
    /// See [`tiny`].
    Tiny,
    /// See [`circles`].
    Circles,
}

impl Family {
    /// All families.
    pub const ALL: [Family; 6] = [
        Family::Easy,
        Family::Tight,
        Family::Knotted,
        Family::Largest,
        Family::Tiny,
        Family::Circles,
    ];

    /// The catalogue text of this family for a seed.
    pub fn text(self, seed: u64) -> Vec<u8> {
        match self {
            Family::Easy => easy(seed),
            Family::Tight => tight(seed),
            Family::Knotted => knotted(seed, 20_000),
            Family::Largest => largest(seed),
            Family::Tiny => tiny(seed),
            Family::Circles => circles(seed),
        }
    }
}

/// Easy catalogues, mostly with a valid selection.
///
/// 2 to 16 modules of 1 to 8 versions. The root has two to six needs, and a
/// version up to three, of modules of higher number. Most ranges are carets that
/// begin at or below a published version, or have no upper end.
pub fn easy(seed: u64) -> Vec<u8> {
    let mut rng = Rng::new(seed);
    let mut draft = Draft::with_root();
    for _ in 0..rng.between(1, 15) {
        let count = rng.between(1, 8);
        draft.add(published(&mut rng, count));
    }
    let modules = draft.modules.len();
    for _ in 0..rng.between(2, 6) {
        let need = wide_need(&mut rng, &draft, 1, modules);
        draft.need(0, 0, need);
    }
    for module in 1..modules {
        for place in 0..draft.modules[module].len() {
            for _ in 0..rng.below(4) {
                if module + 1 < modules {
                    let need = wide_need(&mut rng, &draft, module + 1, modules);
                    draft.need(module as u8, place, need);
                }
            }
        }
    }
    draft.text()
}

/// Tight catalogues, about half of them without a valid selection.
///
/// 4 to 9 modules of 2 to 6 versions. The root needs two to four modules; a
/// version has one to three needs, back as well as forth, in windows of one to
/// three published versions.
pub fn tight(seed: u64) -> Vec<u8> {
    let mut rng = Rng::new(seed);
    let mut draft = Draft::with_root();
    for _ in 0..rng.between(3, 8) {
        let count = rng.between(2, 6);
        draft.add(published(&mut rng, count));
    }
    let modules = draft.modules.len();
    for _ in 0..rng.between(2, 4) {
        let module = rng.between(1, modules - 1) as u8;
        let width = rng.between(2, 4);
        let need = some_window(&mut rng, &draft, module, width);
        draft.need(0, 0, need);
    }
    for module in 1..modules {
        for place in 0..draft.modules[module].len() {
            for _ in 0..rng.between(1, 3) {
                let needed = another(&mut rng, module, 1, modules);
                let width = rng.between(1, 3);
                let need = some_window(&mut rng, &draft, needed, width);
                draft.need(module as u8, place, need);
            }
        }
    }
    draft.text()
}

/// Knotted catalogues, in which the plain walk goes back and forth a great deal.
///
/// Of catalogues of one make and growing size, the last one is given on which
/// the plain walk still ends within `trials` trials. The makes are a far
/// quarrel, whose two parties stand at both ends of modules that have nothing
/// to do with it; a net of random windows between about half of all pairs of
/// modules; and a ladder, whose rungs each need the next and whose foot needs
/// the head.
pub fn knotted(seed: u64, trials: u64) -> Vec<u8> {
    let makes = [far_quarrel, net, ladder];
    let make = makes[(seed % makes.len() as u64) as usize];
    let mut last = Draft::with_root().text();
    for size in 1..=13 {
        let text = make(&mut Rng::new(seed), size).text();
        if !ends_within(&text, trials) {
            break;
        }
        last = text;
    }
    last
}

/// Whether the plain walk on a good text ends within so many trials.
fn ends_within(text: &[u8], trials: u64) -> bool {
    second::read(text)
        .is_ok_and(|catalogue| walk(&catalogue, Some(trials)).outcome != Outcome::Stopped)
}

/// Module 1 needs the last module in its older half, the last but one in its newer half; `size` modules stand between.
fn far_quarrel(rng: &mut Rng, size: usize) -> Draft {
    let mut draft = Draft::with_root();
    let first = draft.add(plain_versions(rng.between(1, 3)));
    for _ in 0..size {
        draft.add(plain_versions(rng.between(2, 4)));
    }
    let second = draft.add(plain_versions(rng.between(1, 3)));
    let object = draft.add(plain_versions(4));
    for module in first..=second {
        draft.need(0, 0, DraftNeed::any(module));
    }
    // Where peace is possible, it is so with the oldest version of module 1 only.
    let peace = usize::from(rng.chance(1, 2) && draft.count(first) > 1);
    for place in peace..draft.count(first) {
        let need = draft.window(object, 0, 2);
        draft.need(first, place, need);
    }
    for place in 0..draft.count(second) {
        let need = draft.window(object, 2, 2);
        draft.need(second, place, need);
    }
    draft
}

/// About half of all pairs of `size` + 2 modules are bound by windows of half the versions.
fn net(rng: &mut Rng, size: usize) -> Draft {
    let mut draft = Draft::with_root();
    let modules = size + 2;
    for _ in 0..modules {
        draft.add(plain_versions(rng.between(6, 9)));
    }
    let share = rng.between(5, 8);
    for module in 1..=modules {
        draft.need(0, 0, DraftNeed::any(module as u8));
        let bound: Vec<usize> = (module + 1..=modules)
            .filter(|_| rng.chance(share, 14))
            .collect();
        for place in 0..draft.modules[module].len() {
            for &needed in &bound {
                let width = draft.modules[needed].len() / 2;
                let need = some_window(rng, &draft, needed as u8, width);
                draft.need(module as u8, place, need);
            }
        }
    }
    draft
}

/// Each of `size` + 2 modules needs the next in a window, and the last needs the first at one version.
fn ladder(rng: &mut Rng, size: usize) -> Draft {
    let mut draft = Draft::with_root();
    let rungs = (size + 2) as u8;
    for _ in 0..rungs {
        draft.add(plain_versions(rng.between(3, 5)));
    }
    draft.need(0, 0, DraftNeed::any(1));
    for module in 1..rungs {
        for place in 0..draft.count(module) {
            let width = rng.between(2, 3);
            let need = some_window(rng, &draft, module + 1, width);
            draft.need(module, place, need);
        }
    }
    for place in 0..draft.count(rungs) {
        let wanted = if rng.chance(1, 4) {
            DraftNeed::unmet(1, 1)
        } else {
            draft.window(1, 0, 1)
        };
        draft.need(rungs, place, wanted);
    }
    draft
}

/// Catalogues as large as the limits allow: 25,929 bytes.
///
/// 32 modules, the root with its one version and each other with 16, and 1,024
/// needs, all of them frames with both ends. The narrower the windows, the
/// harder; they are made wider until the plain walk ends within 100,000 trials.
/// In one of four the root needs module 1 or 3 in a range that holds nothing.
pub fn largest(seed: u64) -> Vec<u8> {
    let narrowest = Rng::new(seed).between(4, VERSION_LIMIT);
    for width in narrowest..VERSION_LIMIT {
        let text = large(&mut Rng::new(seed), width, 1).text();
        if ends_within(&text, 100_000) {
            return text;
        }
    }
    large(&mut Rng::new(seed), VERSION_LIMIT, 1).text()
}

/// The longest texts whose lines are all good, 26,124 bytes: the root has 16 versions too, so number 8 is due.
pub fn overfull_root(seed: u64) -> Vec<u8> {
    let mut rng = Rng::new(seed);
    let width = rng.between(4, VERSION_LIMIT);
    large(&mut rng, width, VERSION_LIMIT).text()
}

/// All limits reached, with windows of `width` versions.
fn large(rng: &mut Rng, width: usize, root_versions: usize) -> Draft {
    let mut draft = Draft::default();
    draft.add(plain_versions(root_versions));
    for _ in 1..MODULE_LIMIT {
        draft.add(published(rng, VERSION_LIMIT));
    }
    let newest_root = root_versions - 1;
    for step in 0..NEED_LIMIT {
        let module = (2 * step + 1) as u8;
        let need = some_window(rng, &draft, module, width);
        draft.need(0, newest_root, need);
    }
    if rng.chance(1, 4) {
        let step = rng.below(2);
        draft.modules[0][newest_root].needs[step] = DraftNeed::unmet((2 * step + 1) as u8, 7);
    }
    let mut left = ALL_NEEDS_LIMIT - NEED_LIMIT;
    while left > 0 {
        let module = rng.between(1, MODULE_LIMIT - 1);
        let place = rng.below(VERSION_LIMIT);
        if draft.modules[module][place].needs.len() < NEED_LIMIT {
            let needed = another(rng, module, 1, MODULE_LIMIT);
            let need = some_window(rng, &draft, needed, width);
            draft.need(module as u8, place, need);
            left -= 1;
        }
    }
    draft
}

/// Tiny catalogues, for trying every selection: at most 4 modules of at most 3 versions.
///
/// Everything that a small catalogue may have turns up: modules without
/// versions, ranges that hold nothing, two needs of one module, circles, needs
/// of the root, carets and versions at the edges of what is allowed.
pub fn tiny(seed: u64) -> Vec<u8> {
    let mut rng = Rng::new(seed);
    let mut draft = Draft::default();
    draft.add([tiny_version(&mut rng)]);
    for _ in 0..rng.between(0, 3) {
        let mut versions: Vec<Version> =
            (0..rng.below(4)).map(|_| tiny_version(&mut rng)).collect();
        versions.sort_unstable();
        versions.dedup();
        draft.add(versions);
    }
    let modules = draft.modules.len();
    for module in 0..modules {
        for place in 0..draft.modules[module].len() {
            let most = if module == 0 { 3 } else { 2 };
            for _ in 0..rng.between(usize::from(module == 0), most) {
                if modules > 1 {
                    let lowest = usize::from(rng.chance(9, 10));
                    let needed = another(&mut rng, module, lowest, modules);
                    let need = tiny_need(&mut rng, &draft, needed);
                    draft.need(module as u8, place, need);
                }
            }
        }
    }
    draft.text()
}

/// Catalogues in which needs run in circles and name the root.
///
/// One to three circles of two to five modules. Each version needs the next
/// module of its circle, sometimes one of another circle, and sometimes the
/// root, now and then in a range without the root's version. The root may
/// leave a circle alone, which then must stay out of the selection.
pub fn circles(seed: u64) -> Vec<u8> {
    let mut rng = Rng::new(seed);
    let mut draft = Draft::with_root();
    let mut rings: Vec<Vec<u8>> = Vec::new();
    for _ in 0..rng.between(1, 3) {
        let mut ring = Vec::new();
        for _ in 0..rng.between(2, 5) {
            ring.push(draft.add(plain_versions(rng.between(1, 5))));
        }
        rings.push(ring);
    }
    let modules = draft.modules.len();
    for ring in &rings {
        if rng.chance(3, 4) {
            let entry = rng.one_of(ring).copied().unwrap_or(1);
            let width = rng.between(2, 5);
            let need = some_window(&mut rng, &draft, entry, width);
            draft.need(0, 0, need);
        }
        for (at, &module) in ring.iter().enumerate() {
            let next = ring[(at + 1) % ring.len()];
            for place in 0..draft.count(module) {
                let width = rng.between(1, 4);
                let need = some_window(&mut rng, &draft, next, width);
                draft.need(module, place, need);
                if rng.chance(1, 5) {
                    let need = root_need(&mut rng);
                    draft.need(module, place, need);
                }
                if rng.chance(1, 5) {
                    let needed = another(&mut rng, usize::from(module), 1, modules);
                    let need = some_window(&mut rng, &draft, needed, 3);
                    draft.need(module, place, need);
                }
            }
        }
    }
    draft.text()
}

/// A need of the root, which is at 1.0.0; in one of four the range leaves that out.
fn root_need(rng: &mut Rng) -> DraftNeed {
    let low = if rng.chance(1, 4) {
        Version::new(1, 0, 1)
    } else {
        Version::new(1, 0, 0)
    };
    DraftNeed::Caret { module: 0, low }
}

/// 1.0.0, 2.0.0, ..., so many of them.
fn plain_versions(count: usize) -> Vec<Version> {
    (1..=count)
        .map(|major| Version::new(major as u8, 0, 0))
        .collect()
}

/// So many different versions, oldest first, with majors that often repeat.
fn published(rng: &mut Rng, count: usize) -> Vec<Version> {
    let mut versions = Vec::new();
    let mut version = Version::new(rng.below(2) as u8, rng.below(3) as u8, rng.below(3) as u8);
    while versions.len() < count {
        versions.push(version);
        version = match rng.below(4) {
            0 => Version::new(version.major + 1, 0, 0),
            1 => Version::new(version.major + 1, rng.below(4) as u8, rng.below(4) as u8),
            2 => Version::new(version.major, version.minor + 1, rng.below(3) as u8),
            _ => Version::new(version.major, version.minor, version.patch + 1),
        };
    }
    versions
}

/// A version out of few, some of them at the edges.
fn tiny_version(rng: &mut Rng) -> Version {
    let bytes = [0, 0, 1, 1, 2, 3, 254];
    let mut byte = || rng.one_of(&bytes).copied().unwrap_or(0);
    let major = byte();
    match major {
        1 => Version::new(major, byte().min(2), byte().min(1)),
        _ => Version::new(major, 0, 0),
    }
}

/// A need as a tiny catalogue may have it.
fn tiny_need(rng: &mut Rng, draft: &Draft, module: u8) -> DraftNeed {
    let count = draft.count(module);
    let place = rng.below(count);
    match rng.below(8) {
        0 => DraftNeed::any(module),
        1 => DraftNeed::unmet(module, rng.below(3) as u8),
        2 | 3 => DraftNeed::Caret {
            module,
            low: match draft.modules[usize::from(module)].get(place) {
                Some(version) => version.version,
                None => tiny_version(rng),
            },
        },
        4 => {
            let (one, other) = (tiny_version(rng), tiny_version(rng));
            let (low, end) = (one.min(other), one.max(other));
            match Range::new(low, end) {
                Some(Range { low, end }) => DraftNeed::Range { module, low, end },
                None => DraftNeed::any(module),
            }
        }
        _ => draft.window(module, place, rng.between(1, 3)),
    }
}

/// A need with a wide range of one of the modules from `lowest` up to, not including, `end`.
fn wide_need(rng: &mut Rng, draft: &Draft, lowest: usize, end: usize) -> DraftNeed {
    let module = rng.between(lowest, end - 1) as u8;
    let count = draft.count(module);
    match rng.below(6) {
        0 => DraftNeed::any(module),
        1 => DraftNeed::Caret {
            module,
            low: draft.modules[usize::from(module)][rng.below(count)].version,
        },
        _ => {
            let first = rng.below(count.div_ceil(2));
            draft.window(module, first, count)
        }
    }
}

/// The need of a module in some window of `width` of its versions, or in all of them if it has no more.
fn some_window(rng: &mut Rng, draft: &Draft, module: u8, width: usize) -> DraftNeed {
    let count = draft.count(module);
    let first = rng.below((count + 1).saturating_sub(width));
    draft.window(module, first, width)
}

/// One of the modules from `lowest` up to, not including, `end` that is not `module`.
fn another(rng: &mut Rng, module: usize, lowest: usize, end: usize) -> u8 {
    let others: Vec<usize> = (lowest..end).filter(|&other| other != module).collect();
    match rng.one_of(&others) {
        Some(&other) => other as u8,
        None => usize::from(module == 0) as u8,
    }
}
