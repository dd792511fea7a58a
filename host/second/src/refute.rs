//! The maker of sheets: follows a walk that finds nothing and writes down why each version is given up.

use crate::catalogue::{Catalogue, ModuleNo, Place};
use crate::selection::{Choice, Selection};
use crate::sheets::{Fact, SHEET_LIMIT, SheetLine, States};

/// A sheet that refutes, for a catalogue without a valid selection.
///
/// None is given if a selection is valid, or if the sheet would have more than
/// `limit` lines or more than 480. A sheet of at most 2W+1 lines is always
/// found within a limit of 2W+1.
///
/// Each module that comes next starts from the need that asked for it. Then,
/// for each of its versions that the fact so far leaves out, newest first,
/// there is a fact for giving it up: the need it quarrels with, or what its
/// being chosen led to. That fact is resolved with the one so far at this
/// module. So each trial adds at most two lines (a fact's first line and the
/// resolved line), and the first start one more.
pub fn refute(catalogue: &Catalogue, limit: usize) -> Option<Vec<SheetLine>> {
    let mut maker = Maker {
        catalogue,
        limit: limit.min(SHEET_LIMIT),
        sheet: Vec::new(),
        line_of_need: vec![None; catalogue.needs().len()],
        order: vec![(ModuleNo::ROOT, Place(0))],
        chosen: Selection::empty(),
    };
    maker.chosen.set(ModuleNo::ROOT, Some(Place(0)));
    maker.next_module()?;
    Some(maker.sheet)
}

/// A line of the sheet together with its fact.
#[derive(Clone, Copy)]
struct Known {
    line: u16,
    fact: Fact,
}

struct Maker<'c> {
    catalogue: &'c Catalogue,
    limit: usize,
    sheet: Vec<SheetLine>,
    /// Where a need already stands in the sheet.
    line_of_need: Vec<Option<u16>>,
    /// The chosen versions in the order of their choice.
    order: Vec<Choice>,
    chosen: Selection,
}

impl Maker<'_> {
    /// Makes a fact in which every chosen version is in its module's set and all other sets are full.
    ///
    /// None if there is no next module, or no room in the sheet.
    fn next_module(&mut self) -> Option<Known> {
        let (module, asking) = self.asking_need()?;
        let mut known = self.need_line(asking)?;
        for place in self.catalogue.places_of(module).rev() {
            if !known.fact.states(module).holds(States::only(place)) {
                let reason = self.give_up(module, place)?;
                known = self.resolve(known, reason, module)?;
            }
        }
        Some(known)
    }

    /// Makes a fact in which this version and every chosen one are in their modules' sets.
    ///
    /// The set of a module that is neither this one nor chosen is full.
    fn give_up(&mut self, module: ModuleNo, place: Place) -> Option<Known> {
        if let Some(need) = self.quarrel(module, place) {
            return self.need_line(need);
        }
        self.order.push((module, place));
        self.chosen.set(module, Some(place));
        let known = self.next_module()?;
        self.chosen.set(module, None);
        self.order.pop();
        Some(known)
    }

    /// The next module of the walk and the number of a need that asked for it.
    fn asking_need(&self) -> Option<(ModuleNo, usize)> {
        self.numbered_needs_of_chosen()
            .filter(|&(_, needed)| self.chosen.get(needed).is_none())
            .min_by_key(|&(_, needed)| needed)
            .map(|(number, needed)| (needed, number))
    }

    /// The number of a need because of which the trial of this version fails at once.
    fn quarrel(&self, module: ModuleNo, place: Place) -> Option<usize> {
        let version = self.catalogue.version(module, place)?;
        self.numbered_needs_of_chosen()
            .filter(|&(_, needed)| needed == module)
            .map(|(number, _)| number)
            .find(|&number| !self.catalogue.needs()[number].range.contains(version))
            .or_else(|| self.own_quarrel(module, place))
    }

    /// The number of a need of this version that leaves out a chosen version.
    fn own_quarrel(&self, module: ModuleNo, place: Place) -> Option<usize> {
        let (first, needs) = self.catalogue.numbered_needs_of(module, place);
        let left_out = needs.iter().position(|need| {
            self.chosen
                .get(need.module)
                .and_then(|chosen| self.catalogue.version(need.module, chosen))
                .is_some_and(|version| !need.range.contains(version))
        });
        left_out.map(|at| first + at)
    }

    /// The needs of the chosen versions: their numbers and the modules they need.
    fn numbered_needs_of_chosen(&self) -> impl Iterator<Item = (usize, ModuleNo)> + '_ {
        self.order.iter().flat_map(|&(module, place)| {
            let (first, needs) = self.catalogue.numbered_needs_of(module, place);
            (first..).zip(needs.iter().map(|need| need.module))
        })
    }

    /// The need line of a need, written only once.
    fn need_line(&mut self, number: usize) -> Option<Known> {
        let fact = Fact::of_need(self.catalogue, &self.catalogue.needs()[number]);
        let line = match self.line_of_need[number] {
            Some(line) => line,
            None => self.push(SheetLine::Need(number as u16))?,
        };
        self.line_of_need[number] = Some(line);
        Some(Known { line, fact })
    }

    fn resolve(&mut self, known: Known, reason: Known, module: ModuleNo) -> Option<Known> {
        let line = self.push(SheetLine::Resolved {
            first: known.line,
            second: reason.line,
            module,
        })?;
        let fact = known.fact.resolve(&reason.fact, module);
        Some(Known { line, fact })
    }

    /// Adds a line and tells its number; none if the sheet has no room for it.
    fn push(&mut self, line: SheetLine) -> Option<u16> {
        let number = self.sheet.len();
        if number >= self.limit {
            return None;
        }
        self.sheet.push(line);
        Some(number as u16)
    }
}
