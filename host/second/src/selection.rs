//! Selections: which are valid, which one is wanted, and how it is written.

use crate::catalogue::{Catalogue, MODULE_LIMIT, ModuleNo, Place};
use crate::frames;

/// A selection puts each module at one of its versions or leaves it absent.
#[derive(Clone, Copy, Debug, Default, PartialEq, Eq, Hash)]
pub struct Selection {
    places: [Option<Place>; MODULE_LIMIT],
}

impl Selection {
    /// The selection in which every module is absent.
    pub fn empty() -> Selection {
        Selection::default()
    }

    /// The place of a module's version, or none where the module is absent.
    pub fn get(&self, module: ModuleNo) -> Option<Place> {
        self.places.get(module.index()).copied().flatten()
    }

    /// Puts a module at a place or makes it absent; a number above 31 names no module.
    pub fn set(&mut self, module: ModuleNo, place: Option<Place>) {
        if let Some(slot) = self.places.get_mut(module.index()) {
            *slot = place;
        }
    }

    /// The selected modules and their places, in module order.
    pub fn selected(&self) -> impl Iterator<Item = Choice> + '_ {
        self.places
            .iter()
            .zip(0..)
            .filter_map(|(place, number)| place.map(|place| (ModuleNo(number), place)))
    }
}

/// One choice: a module at a place.
pub type Choice = (ModuleNo, Place);

/// Whether a selection is valid.
///
/// The root is at its version, every need of every selected version is met by
/// a selected version in the range, and every selected module can be reached
/// from the root by needs of selected versions. A selection that names a
/// version which the catalogue has not is no selection and not valid.
pub fn valid(catalogue: &Catalogue, selection: &Selection) -> bool {
    every_version_exists(catalogue, selection)
        && selection.get(ModuleNo::ROOT).is_some()
        && every_need_is_met(catalogue, selection)
        && every_module_is_reached(catalogue, selection)
}

fn every_version_exists(catalogue: &Catalogue, selection: &Selection) -> bool {
    selection
        .selected()
        .all(|(module, place)| catalogue.version(module, place).is_some())
}

fn every_need_is_met(catalogue: &Catalogue, selection: &Selection) -> bool {
    selection
        .selected()
        .flat_map(|(module, place)| catalogue.needs_of(module, place))
        .all(|need| {
            selection
                .get(need.module)
                .and_then(|place| catalogue.version(need.module, place))
                .is_some_and(|version| need.range.contains(version))
        })
}

fn every_module_is_reached(catalogue: &Catalogue, selection: &Selection) -> bool {
    let mut reached = [false; MODULE_LIMIT];
    let mut open = vec![ModuleNo::ROOT];
    while let Some(module) = open.pop() {
        if reached[module.index()] {
            continue;
        }
        reached[module.index()] = true;
        if let Some(place) = selection.get(module) {
            open.extend(catalogue.needs_of(module, place).iter().map(|n| n.module));
        }
    }
    selection
        .selected()
        .all(|(module, _)| reached[module.index()])
}

/// The choice order of a valid selection; none if the selection lacks a module that the order comes to.
///
/// The root is chosen first. The next choice is the lowest-numbered module
/// that a chosen version needs and that is not settled yet, at its version in
/// the selection. Without such a module the order ends.
pub fn choice_order(catalogue: &Catalogue, selection: &Selection) -> Option<Vec<Choice>> {
    let mut order = Vec::new();
    let mut next = Some(ModuleNo::ROOT);
    while let Some(module) = next {
        order.push((module, selection.get(module)?));
        next = order
            .iter()
            .flat_map(|&(module, place)| catalogue.needs_of(module, place))
            .map(|need| need.module)
            .filter(|&needed| order.iter().all(|&(settled, _)| settled != needed))
            .min();
    }
    Some(order)
}

/// Whether the first choice order is ahead of the second.
///
/// It is if, at the first choice where they differ, the first has the newer
/// version of the same module.
pub fn ahead(first: &[Choice], second: &[Choice]) -> bool {
    first
        .iter()
        .zip(second)
        .find(|(ours, theirs)| ours != theirs)
        .is_some_and(|(ours, theirs)| ours.0 == theirs.0 && ours.1 > theirs.1)
}

/// All valid selections of a tiny catalogue, by trying every selection there is.
pub fn all_valid(catalogue: &Catalogue) -> Vec<Selection> {
    let mut found = Vec::new();
    let mut selection = Selection::empty();
    loop {
        if valid(catalogue, &selection) {
            found.push(selection);
        }
        if !step(catalogue, &mut selection) {
            return found;
        }
    }
}

/// Goes on to the next selection in counting order; false after the last.
fn step(catalogue: &Catalogue, selection: &mut Selection) -> bool {
    for module in catalogue.modules() {
        let next = match selection.get(module) {
            None => Place(0),
            Some(place) => Place(place.0 + 1),
        };
        if catalogue.version(module, next).is_some() {
            selection.set(module, Some(next));
            return true;
        }
        selection.set(module, None);
    }
    false
}

/// The wanted selection of a tiny catalogue straight from its definition, or none if none is valid.
///
/// It is the valid selection that, against any other valid one, has the newer
/// version of the same module at the first choice where the other differs.
pub fn best_by_force(catalogue: &Catalogue) -> Option<Selection> {
    let ordered: Vec<(Selection, Vec<Choice>)> = all_valid(catalogue)
        .into_iter()
        .filter_map(|selection| Some((selection, choice_order(catalogue, &selection)?)))
        .collect();
    ordered
        .iter()
        .find(|(selection, order)| {
            ordered
                .iter()
                .all(|(other, theirs)| other == selection || ahead(order, theirs))
        })
        .map(|(selection, _)| *selection)
}

/// The text of a selection: 11 with the count of selected versions, one 12 for each in module order, 14.
pub fn selection_text(catalogue: &Catalogue, selection: &Selection) -> Vec<u8> {
    let mut out = Vec::new();
    let count = selection.selected().count() as u8;
    frames::push_frame(&mut out, &[frames::SELECTION_HEAD, count]);
    for (module, place) in selection.selected() {
        if let Some(version) = catalogue.version(module, place) {
            let [major, minor, patch] = version.bytes();
            frames::push_frame(&mut out, &[frames::SELECTED, module.0, major, minor, patch]);
        }
    }
    frames::push_frame(&mut out, &[frames::SELECTION_END]);
    out
}
