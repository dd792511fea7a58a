//! The rules once more, slowly and in another way, to hold the second picker against: lines are judged by lists of faults, walks recurse, and facts are sets of versions.
#![allow(dead_code)]

use std::collections::BTreeSet;

/// The three bytes of a version; arrays compare as versions do.
pub type Bytes = [u8; 3];

/// A need: its owner, and what is needed.
#[derive(Clone, Debug, PartialEq, Eq)]
pub struct SlowNeed {
    pub owner: (u8, Bytes),
    pub module: u8,
    pub low: Bytes,
    pub end: Bytes,
}

impl SlowNeed {
    fn allows(&self, version: Bytes) -> bool {
        version >= self.low && version < self.end
    }
}

/// A catalogue as two lists.
#[derive(Clone, Debug, Default, PartialEq, Eq)]
pub struct SlowCatalogue {
    pub modules: u8,
    pub versions: Vec<(u8, Bytes)>,
    pub needs: Vec<SlowNeed>,
}

impl SlowCatalogue {
    /// The same catalogue as the second picker holds it.
    pub fn from_second(catalogue: &second::Catalogue) -> SlowCatalogue {
        let mut versions = Vec::new();
        let mut needs = Vec::new();
        for module in catalogue.modules() {
            for place in catalogue.places_of(module) {
                let version = catalogue.version(module, place).unwrap().bytes();
                versions.push((module.0, version));
                for need in catalogue.needs_of(module, place) {
                    assert_eq!((need.by, need.at), (module, place));
                    needs.push(SlowNeed {
                        owner: (module.0, version),
                        module: need.module.0,
                        low: need.range.low.bytes(),
                        end: need.range.end.bytes(),
                    });
                }
            }
        }
        assert_eq!(needs.len(), catalogue.needs().len());
        SlowCatalogue {
            modules: catalogue.module_count(),
            versions,
            needs,
        }
    }

    fn versions_of(&self, module: u8) -> Vec<Bytes> {
        self.versions
            .iter()
            .filter(|version| version.0 == module)
            .map(|version| version.1)
            .collect()
    }

    fn needs_of(&self, owner: (u8, Bytes)) -> impl Iterator<Item = &SlowNeed> {
        self.needs.iter().filter(move |need| need.owner == owner)
    }
}

/// A refusal: number and line.
pub type Told = (u8, u32);

/// The bytes of a line, if its shape is right.
fn shaped(line: &[u8]) -> Option<Vec<u8>> {
    let text = std::str::from_utf8(line).ok()?;
    let good = |c: char| c.is_ascii_digit() || ('A'..='F').contains(&c);
    if text.len() < 4 || !text.len().is_multiple_of(2) || !text.chars().all(good) {
        return None;
    }
    (0..text.len())
        .step_by(2)
        .map(|at| u8::from_str_radix(&text[at..at + 2], 16).ok())
        .collect()
}

/// The faults 2, 3 and 4 of a line, and its bytes where it has none.
fn frame(line: &[u8], kinds: &[(u8, usize)]) -> Result<Vec<u8>, u8> {
    let bytes = shaped(line).ok_or(2)?;
    if bytes.iter().map(|&byte| u32::from(byte)).sum::<u32>() % 256 != 0 {
        return Err(3);
    }
    if !kinds.contains(&(bytes[0], bytes.len() * 2)) {
        return Err(4);
    }
    Ok(bytes)
}

/// The lines of a text and whether each has its LF.
fn lines_of(text: &[u8]) -> Vec<(Vec<u8>, bool)> {
    text.split_inclusive(|&byte| byte == b'\n')
        .map(|line| match line.strip_suffix(b"\n") {
            Some(line) => (line.to_vec(), true),
            None => (line.to_vec(), false),
        })
        .collect()
}

/// The good frames of a text in order, where `judge` tells 5 to 7 of a frame after the ones before it.
fn good_frames(
    text: &[u8],
    kinds: &[(u8, usize)],
    end: u8,
    judge: impl Fn(&[Vec<u8>], &[u8]) -> Option<u8>,
) -> Result<Vec<Vec<u8>>, Told> {
    if text.len() > 32_768 {
        return Err((1, 0));
    }
    let mut done: Vec<Vec<u8>> = Vec::new();
    for (line, ended) in lines_of(text) {
        let number = done.len() as u32 + 1;
        let bytes = match ended {
            true => frame(&line, kinds).map_err(|fault| (fault, number))?,
            false => return Err((2, number)),
        };
        if done.iter().any(|before| before[0] == end) {
            return Err((5, number));
        }
        if let Some(fault) = judge(&done, &bytes) {
            return Err((fault, number));
        }
        done.push(bytes);
    }
    match done.last() {
        Some(last) if last[0] == end => Ok(done),
        _ => Err((5, done.len() as u32 + 1)),
    }
}

fn three(bytes: &[u8]) -> Bytes {
    [bytes[0], bytes[1], bytes[2]]
}

fn is_need(frame: &[u8]) -> bool {
    frame[0] == 3 || frame[0] == 5
}

/// Which of 5, 6 and 7 a catalogue's frame has after those before it, the smallest first.
fn catalogue_fault(done: &[Vec<u8>], frame: &[u8]) -> Option<u8> {
    let Some(head) = done.first() else {
        return match frame {
            [1, modules, ..] if (1..=32).contains(modules) => None,
            [1, ..] => Some(6),
            _ => Some(5),
        };
    };
    let modules = head[1];
    let is_version = |before: &&Vec<u8>| before[0] == 2;
    let last = done.iter().rev().find(is_version);
    let same_module = || {
        let versions = done.iter().filter(is_version);
        versions.filter(|before| before[1] == frame[1]).count()
    };
    match frame[0] {
        1 => Some(5),
        2 if last.is_some_and(|last| last[1..5] >= frame[1..5]) => Some(5),
        2 if frame[1] >= modules || frame[2..5].contains(&255) => Some(6),
        2 if same_module() >= 16 => Some(7),
        3 | 5 => need_fault(done, frame, modules),
        _ => None,
    }
}

fn need_fault(done: &[Vec<u8>], frame: &[u8], modules: u8) -> Option<u8> {
    let Some(at) = done.iter().rposition(|frame| frame[0] == 2) else {
        return Some(5);
    };
    let bad_range = match frame[0] {
        3 => three(&frame[2..]) >= three(&frame[5..]),
        _ => frame[2] == 255,
    };
    if frame[1] >= modules || frame[1] == done[at][1] || bad_range {
        return Some(6);
    }
    let here = done[at..].iter().filter(|frame| is_need(frame)).count();
    let all = done.iter().filter(|frame| is_need(frame)).count();
    (here >= 16 || all >= 1_024).then_some(7)
}

/// Reads a catalogue.
pub fn slow_read(text: &[u8]) -> Result<SlowCatalogue, Told> {
    let kinds = [(1, 6), (2, 12), (3, 18), (5, 12), (4, 4)];
    let frames = good_frames(text, &kinds, 4, catalogue_fault)?;
    let mut catalogue = SlowCatalogue {
        modules: frames[0][1],
        ..SlowCatalogue::default()
    };
    for frame in &frames {
        match frame[0] {
            2 => catalogue.versions.push((frame[1], three(&frame[2..]))),
            3 | 5 => catalogue.needs.push(SlowNeed {
                owner: *catalogue.versions.last().unwrap(),
                module: frame[1],
                low: three(&frame[2..]),
                end: match frame[0] {
                    3 => three(&frame[5..]),
                    _ => [frame[2] + 1, 0, 0],
                },
            }),
            _ => {}
        }
    }
    match catalogue.versions_of(0).len() {
        1 => Ok(catalogue),
        _ => Err((8, frames.len() as u32)),
    }
}

/// The plain walk as it is told: places and trials that call each other.
pub struct SlowWalk<'c> {
    catalogue: &'c SlowCatalogue,
    pub chosen: Vec<(u8, Bytes)>,
    pub trials: u64,
}

/// Whether the plain walk succeeds, with its choices and its trials; none above the cap.
pub fn slow_walk(catalogue: &SlowCatalogue, cap: u64) -> Option<(bool, SlowWalk<'_>)> {
    let root = catalogue.versions_of(0)[0];
    let mut walk = SlowWalk {
        catalogue,
        chosen: vec![(0, root)],
        trials: 0,
    };
    let success = walk.place(cap)?;
    Some((success, walk))
}

impl SlowWalk<'_> {
    /// From a place to its trials.
    fn place(&mut self, cap: u64) -> Option<bool> {
        let next = self
            .chosen
            .iter()
            .flat_map(|&owner| self.catalogue.needs_of(owner))
            .map(|need| need.module)
            .filter(|module| self.chosen.iter().all(|chosen| chosen.0 != *module))
            .min();
        let Some(module) = next else {
            return Some(true);
        };
        let mut versions = self.catalogue.versions_of(module);
        versions.sort();
        versions.reverse();
        for version in versions {
            if self.trial((module, version), cap)? {
                return Some(true);
            }
        }
        Some(false)
    }

    /// From a trial to the next place.
    fn trial(&mut self, version: (u8, Bytes), cap: u64) -> Option<bool> {
        if self.trials == cap {
            return None;
        }
        self.trials += 1;
        let outside = self
            .chosen
            .iter()
            .flat_map(|&owner| self.catalogue.needs_of(owner))
            .any(|need| need.module == version.0 && !need.allows(version.1));
        let leaves_out = self.catalogue.needs_of(version).any(|need| {
            self.chosen
                .iter()
                .any(|chosen| chosen.0 == need.module && !need.allows(chosen.1))
        });
        if outside || leaves_out {
            return Some(false);
        }
        self.chosen.push(version);
        let success = self.place(cap)?;
        if !success {
            self.chosen.pop();
        }
        Some(success)
    }
}

/// A fact as a set of states for each module; absent is none.
pub type SlowFact = Vec<BTreeSet<Option<Bytes>>>;

fn full(catalogue: &SlowCatalogue, module: u8) -> BTreeSet<Option<Bytes>> {
    let mut states: BTreeSet<Option<Bytes>> = catalogue
        .versions_of(module)
        .into_iter()
        .map(Some)
        .collect();
    states.insert(None);
    states
}

/// The facts of a sheet's good lines, given as their frames.
pub fn slow_facts(catalogue: &SlowCatalogue, lines: &[Vec<u8>]) -> Vec<SlowFact> {
    let mut facts: Vec<SlowFact> = Vec::new();
    for line in lines {
        let word = |at: usize| usize::from(line[at]) * 256 + usize::from(line[at + 1]);
        let fact = if line[0] == 0x21 {
            let need = &catalogue.needs[word(1)];
            let mut fact: SlowFact = (0..catalogue.modules)
                .map(|module| full(catalogue, module))
                .collect();
            fact[usize::from(need.module)]
                .retain(|state| !state.is_some_and(|version| need.allows(version)));
            fact[usize::from(need.owner.0)].retain(|state| *state == Some(need.owner.1));
            fact
        } else {
            let (first, second) = (&facts[word(1)], &facts[word(3)]);
            let named = usize::from(line[5]);
            (0..first.len())
                .map(|module| match module == named {
                    true => first[module].union(&second[module]).copied().collect(),
                    false => first[module]
                        .intersection(&second[module])
                        .copied()
                        .collect(),
                })
                .collect()
        };
        facts.push(fact);
    }
    facts
}

fn sheet_fault(catalogue: &SlowCatalogue, done: &[Vec<u8>], frame: &[u8]) -> Option<u8> {
    let word = |frame: &[u8], at: usize| usize::from(frame[at]) * 256 + usize::from(frame[at + 1]);
    let Some(head) = done.first() else {
        return match frame[0] {
            0x20 if (1..=480).contains(&word(frame, 1)) => None,
            0x20 => Some(6),
            _ => Some(5),
        };
    };
    let here = done.len() - 1;
    let all = word(head, 1);
    let due = if here == all {
        frame[0] == 0x24
    } else {
        frame[0] == 0x21 || frame[0] == 0x22
    };
    if !due {
        return Some(5);
    }
    let bad = match frame[0] {
        0x21 => word(frame, 1) >= catalogue.needs.len(),
        0x22 => word(frame, 1) >= here || word(frame, 3) >= here || frame[5] >= catalogue.modules,
        _ => false,
    };
    bad.then_some(6)
}

/// Reads a sheet: its lines as frames.
pub fn slow_sheet(catalogue: &SlowCatalogue, text: &[u8]) -> Result<Vec<Vec<u8>>, Told> {
    let kinds = [(0x20, 8), (0x21, 8), (0x22, 14), (0x24, 4)];
    let judge = |done: &[Vec<u8>], frame: &[u8]| sheet_fault(catalogue, done, frame);
    let frames = good_frames(text, &kinds, 0x24, judge)?;
    Ok(frames[1..frames.len() - 1].to_vec())
}

/// Reads and judges a sheet.
pub fn slow_judge(catalogue: &SlowCatalogue, text: &[u8]) -> Result<(), Told> {
    let lines = slow_sheet(catalogue, text)?;
    let facts = slow_facts(catalogue, &lines);
    let last = &facts[facts.len() - 1];
    let root = catalogue.versions_of(0)[0];
    let refutes = last[0].contains(&Some(root))
        && (1..catalogue.modules)
            .all(|module| last[usize::from(module)] == full(catalogue, module));
    match refutes {
        true => Ok(()),
        false => Err((13, lines.len() as u32 + 2)),
    }
}

/// How many cases to try: fewer in a build that is not optimised.
pub fn cases(optimised: u64) -> u64 {
    if cfg!(debug_assertions) {
        optimised / 20
    } else {
        optimised
    }
}
