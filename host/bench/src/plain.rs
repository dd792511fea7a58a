//! The plain walk written straightforwardly, over plain arrays, as the rules tell it: every trial holds the needs of all chosen versions against the version tried, and
//! its own needs against what is chosen. It keeps no sets of bits, unlike the second picker's walk.

use second::{Catalogue, ModuleNo, Place, Selection, Version};

/// A need of a version: a module, and the range as two numbers.
struct Need {
    target: usize,
    low: u32,
    end: u32,
}

/// A catalogue as arrays: of modules where their versions begin and how many there are, of versions their number and where their needs begin and end.
pub struct Plain {
    firsts: Vec<usize>,
    counts: Vec<usize>,
    values: Vec<u32>,
    spans: Vec<(usize, usize)>,
    needs: Vec<Need>,
}

/// For each module one more than the place of its chosen version, or 0.
type Chosen = [usize; 32];

fn number(version: Version) -> u32 {
    u32::from_be_bytes([0, version.major, version.minor, version.patch])
}

impl Need {
    fn allows(&self, value: u32) -> bool {
        self.low <= value && value < self.end
    }
}

impl Plain {
    /// The arrays of a catalogue.
    pub fn of(catalogue: &Catalogue) -> Plain {
        let mut plain = Plain {
            firsts: Vec::new(),
            counts: Vec::new(),
            values: Vec::new(),
            spans: Vec::new(),
            needs: Vec::new(),
        };
        for module in catalogue.modules() {
            plain.firsts.push(plain.values.len());
            plain.counts.push(catalogue.versions_of(module).len());
            for place in catalogue.places_of(module) {
                let first = plain.needs.len();
                for need in catalogue.needs_of(module, place) {
                    plain.needs.push(Need {
                        target: need.module.index(),
                        low: number(need.range.low),
                        end: number(need.range.end),
                    });
                }
                plain
                    .values
                    .extend(catalogue.version(module, place).map(number));
                plain.spans.push((first, plain.needs.len()));
            }
        }
        plain
    }

    /// The wanted selection, if there is a valid one, and the trials made.
    pub fn walk(&self) -> (Option<Selection>, u64) {
        let mut chosen = [0; 32];
        chosen[0] = self.firsts[0] + 1;
        let mut trials = 0;
        let found = self.place(&mut chosen, &mut trials);
        (found.then(|| self.selection(&chosen)), trials)
    }

    fn selection(&self, chosen: &Chosen) -> Selection {
        let mut selection = Selection::empty();
        for (module, (&state, &first)) in chosen.iter().zip(&self.firsts).enumerate() {
            let place = (state != 0).then(|| Place((state - 1 - first) as u8));
            selection.set(ModuleNo(module as u8), place);
        }
        selection
    }

    fn needs_of(&self, place: usize) -> &[Need] {
        let (first, end) = self.spans[place];
        &self.needs[first..end]
    }

    fn place(&self, chosen: &mut Chosen, trials: &mut u64) -> bool {
        let Some(module) = self.next_module(chosen) else {
            return true;
        };
        let first = self.firsts[module];
        (first..first + self.counts[module])
            .rev()
            .any(|place| self.trial(chosen, module, place, trials))
    }

    fn trial(&self, chosen: &mut Chosen, module: usize, place: usize, trials: &mut u64) -> bool {
        *trials += 1;
        if self.is_barred(chosen, module, place) {
            return false;
        }
        chosen[module] = place + 1;
        let found = self.place(chosen, trials);
        if !found {
            chosen[module] = 0;
        }
        found
    }

    fn next_module(&self, chosen: &Chosen) -> Option<usize> {
        let asked = self.held(chosen).flat_map(|place| self.needs_of(place));
        asked
            .map(|need| need.target)
            .filter(|&target| chosen[target] == 0)
            .min()
    }

    fn is_barred(&self, chosen: &Chosen, module: usize, place: usize) -> bool {
        let value = self.values[place];
        self.held(chosen).any(|other| {
            let needs = self.needs_of(other).iter();
            needs
                .filter(|need| need.target == module)
                .any(|need| !need.allows(value))
        }) || self.needs_of(place).iter().any(|need| {
            let state = chosen[need.target];
            state != 0 && !need.allows(self.values[state - 1])
        })
    }

    /// The places of the chosen versions.
    fn held(&self, chosen: &Chosen) -> impl Iterator<Item = usize> {
        let states = chosen[..self.firsts.len()].iter();
        states.filter(|&&state| state != 0).map(|state| state - 1)
    }
}

#[cfg(test)]
mod tests {
    use super::Plain;
    use crate::sets::SETS;
    use second::walk::{Outcome, walk};

    #[test]
    fn walks_as_the_second_picker_does() {
        for set in &SETS {
            for case in set.cases(20) {
                let catalogue = second::read(&case.text).expect("a good text");
                let other = walk(&catalogue, None);
                let found = match other.outcome {
                    Outcome::Selected(selection) => Some(selection),
                    Outcome::Nothing | Outcome::Stopped => None,
                };
                assert_eq!(Plain::of(&catalogue).walk(), (found, other.trials));
            }
        }
    }
}
