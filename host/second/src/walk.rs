//! The plain walk, which finds the wanted selection and whose count of trials is W.

use crate::catalogue::{Catalogue, MODULE_LIMIT, ModuleNo, Place, VERSION_LIMIT};
use crate::selection::Selection;

/// How a walk came out.
#[derive(Clone, Copy, Debug, PartialEq, Eq)]
pub enum Outcome {
    /// No next module: the chosen versions are the wanted selection.
    Selected(Selection),
    /// Nothing is left: no selection is valid.
    Nothing,
    /// The cap was reached before the walk ended.
    Stopped,
}

/// A walk: how it came out, and how many trials it made.
#[derive(Clone, Copy, Debug, PartialEq, Eq)]
pub struct Walk {
    /// How the walk came out.
    pub outcome: Outcome,
    /// W, the trials made until success or until nothing was left; the cap if the walk was stopped.
    pub trials: u64,
}

/// The plain walk.
///
/// Start with the root chosen. The next module is the lowest-numbered one that
/// a chosen version needs and that is not chosen. Try all its versions, newest
/// first; each is one trial. A trial fails at once if the version lies outside
/// a need of a chosen version, or if one of its own needs leaves out a chosen
/// version. When all fail, or there is none, the choice before is taken back.
/// The root is never taken back. With a cap, a walk that would need more
/// trials than that is stopped.
pub fn walk(catalogue: &Catalogue, cap: Option<u64>) -> Walk {
    let rules = Rules::of(catalogue);
    let mut record = Record::with_root(&rules);
    let cap = cap.unwrap_or(u64::MAX);
    let mut trials = 0;
    loop {
        let Some(module) = record.next_module() else {
            let outcome = Outcome::Selected(record.selection());
            return Walk { outcome, trials };
        };
        let mut spot = Spot {
            module,
            untried: rules.counts[module],
        };
        loop {
            while spot.untried == 0 {
                match record.take_back() {
                    Some(before) => spot = before,
                    None => {
                        let outcome = Outcome::Nothing;
                        return Walk { outcome, trials };
                    }
                }
            }
            if trials == cap {
                let outcome = Outcome::Stopped;
                return Walk { outcome, trials };
            }
            trials += 1;
            spot.untried -= 1;
            if record.fits(&rules, spot) {
                record.choose(&rules, spot);
                break;
            }
        }
    }
}

/// What a version asks of one other module: the places that all its needs of it allow.
#[derive(Clone, Copy)]
struct Demand {
    module: u8,
    places: u16,
}

/// The catalogue made ready for walking: for each version its demands, at most one for a module.
struct Rules {
    /// How many versions each module has.
    counts: [usize; MODULE_LIMIT],
    /// For each version the modules it needs, as bits.
    needed: [[u32; VERSION_LIMIT]; MODULE_LIMIT],
    /// For each version where its demands begin and end.
    spans: [[(u16, u16); VERSION_LIMIT]; MODULE_LIMIT],
    demands: Vec<Demand>,
}

impl Rules {
    fn of(catalogue: &Catalogue) -> Rules {
        let mut rules = Rules {
            counts: [0; MODULE_LIMIT],
            needed: [[0; VERSION_LIMIT]; MODULE_LIMIT],
            spans: [[(0, 0); VERSION_LIMIT]; MODULE_LIMIT],
            demands: Vec::with_capacity(catalogue.needs().len()),
        };
        for module in catalogue.modules() {
            rules.counts[module.index()] = catalogue.versions_of(module).len();
            for place in catalogue.places_of(module) {
                rules.add(catalogue, module, place);
            }
        }
        rules
    }

    fn add(&mut self, catalogue: &Catalogue, module: ModuleNo, place: Place) {
        let first = self.demands.len();
        for need in catalogue.needs_of(module, place) {
            let places = catalogue.places_in(need.module, need.range);
            self.needed[module.index()][place.index()] |= 1 << need.module.0;
            let same = |demand: &&mut Demand| demand.module == need.module.0;
            match self.demands[first..].iter_mut().find(same) {
                Some(demand) => demand.places &= places,
                None => self.demands.push(Demand {
                    module: need.module.0,
                    places,
                }),
            }
        }
        self.spans[module.index()][place.index()] = (first as u16, self.demands.len() as u16);
    }

    fn demands_of(&self, module: usize, place: usize) -> &[Demand] {
        let (first, end) = self.spans[module][place];
        &self.demands[usize::from(first)..usize::from(end)]
    }
}

/// A spot of the walk: a module and how many of its versions are untried; the newest of those is tried next.
#[derive(Clone, Copy)]
struct Spot {
    module: usize,
    untried: usize,
}

/// What the chosen versions ask for after so many choices.
#[derive(Clone, Copy)]
struct Asked {
    /// The modules that a chosen version needs, as bits.
    needed: u32,
    /// For each module the places that lie in every need of a chosen version.
    allowed: [u16; MODULE_LIMIT],
}

/// The record of choices.
struct Record {
    /// The choices after the root; the version chosen at a spot is the one at place `untried`.
    spots: [Spot; MODULE_LIMIT],
    depth: usize,
    /// What is asked for after 0, 1, 2, ... of these choices.
    asked: [Asked; MODULE_LIMIT],
    /// The chosen modules, as bits.
    settled: u32,
    /// For each module the bit of its chosen place, or 0.
    chosen: [u16; MODULE_LIMIT],
}

impl Record {
    /// The record with the root chosen and nothing else.
    fn with_root(rules: &Rules) -> Record {
        let spot = Spot {
            module: 0,
            untried: 0,
        };
        let nothing = Asked {
            needed: 0,
            allowed: [u16::MAX; MODULE_LIMIT],
        };
        let mut record = Record {
            spots: [spot; MODULE_LIMIT],
            depth: 0,
            asked: [nothing; MODULE_LIMIT],
            settled: 1,
            chosen: [0; MODULE_LIMIT],
        };
        record.chosen[0] = 1;
        record.asked[0].add(rules, spot);
        record
    }

    /// The lowest-numbered module that a chosen version needs and that is not chosen.
    fn next_module(&self) -> Option<usize> {
        let open = self.asked[self.depth].needed & !self.settled;
        (open != 0).then(|| open.trailing_zeros() as usize)
    }

    /// Whether the version at place `untried` fits with all chosen versions.
    fn fits(&self, rules: &Rules, spot: Spot) -> bool {
        let allowed = self.asked[self.depth].allowed[spot.module];
        allowed >> spot.untried & 1 == 1
            && rules
                .demands_of(spot.module, spot.untried)
                .iter()
                .all(|demand| {
                    let chosen = self.chosen[usize::from(demand.module)];
                    chosen == 0 || chosen & demand.places != 0
                })
    }

    /// Chooses the version at place `untried` of the spot.
    fn choose(&mut self, rules: &Rules, spot: Spot) {
        self.settled |= 1 << spot.module;
        self.chosen[spot.module] = 1 << spot.untried;
        self.spots[self.depth] = spot;
        self.asked[self.depth + 1] = self.asked[self.depth];
        self.depth += 1;
        self.asked[self.depth].add(rules, spot);
    }

    /// Takes the last choice back and tells its spot; none if only the root is chosen.
    fn take_back(&mut self) -> Option<Spot> {
        self.depth = self.depth.checked_sub(1)?;
        let spot = self.spots[self.depth];
        self.settled &= !(1 << spot.module);
        self.chosen[spot.module] = 0;
        Some(spot)
    }

    fn selection(&self) -> Selection {
        let mut selection = Selection::empty();
        selection.set(ModuleNo::ROOT, Some(Place(0)));
        for spot in &self.spots[..self.depth] {
            selection.set(ModuleNo(spot.module as u8), Some(Place(spot.untried as u8)));
        }
        selection
    }
}

impl Asked {
    fn add(&mut self, rules: &Rules, spot: Spot) {
        self.needed |= rules.needed[spot.module][spot.untried];
        for demand in rules.demands_of(spot.module, spot.untried) {
            self.allowed[usize::from(demand.module)] &= demand.places;
        }
    }
}
