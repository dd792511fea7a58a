//! Derivation sheets: their facts, their texts, and whether they refute.

use crate::catalogue::{Catalogue, MODULE_LIMIT, ModuleNo, Need, Place, VERSION_LIMIT};
use crate::frames::{self, Frame, Lines, Text};
use crate::refusal::{self, Refusal};

/// A sheet has 1 to 480 lines.
pub const SHEET_LIMIT: usize = 480;

/// A set of states of one module, where a state is one of its versions or absent.
#[derive(Clone, Copy, Debug, PartialEq, Eq, Hash)]
pub struct States(u32);

impl States {
    /// The set that holds no state.
    pub const NONE: States = States(0);
    /// The set that holds absence alone.
    pub const ABSENT: States = States(1 << VERSION_LIMIT);

    /// The set that holds one version alone.
    pub fn only(place: Place) -> States {
        States(1 << place.0)
    }

    /// The full set of a module: absent and every one of its versions.
    pub fn full(catalogue: &Catalogue, module: ModuleNo) -> States {
        catalogue
            .places_of(module)
            .fold(States::ABSENT, |set, place| set.or(States::only(place)))
    }

    /// The states that are in either set.
    pub fn or(self, other: States) -> States {
        States(self.0 | other.0)
    }

    /// The states that are in both sets.
    pub fn and(self, other: States) -> States {
        States(self.0 & other.0)
    }

    /// Whether every state of the other set is in this one.
    pub fn holds(self, other: States) -> bool {
        self.and(other) == other
    }
}

/// A fact: no valid selection has every module inside its set.
///
/// Every module has a set here; one that a line does not name has its full set.
#[derive(Clone, Copy, Debug, PartialEq, Eq, Hash)]
pub struct Fact {
    sets: [States; MODULE_LIMIT],
}

impl Fact {
    /// The fact of a need line.
    ///
    /// The needing module's set is that one version; the needed module's set
    /// is absent and every version outside the range; all others are full.
    pub fn of_need(catalogue: &Catalogue, need: &Need) -> Fact {
        let mut sets = [States::NONE; MODULE_LIMIT];
        for module in catalogue.modules() {
            sets[module.index()] = States::full(catalogue, module);
        }
        let inside = States(u32::from(catalogue.places_in(need.module, need.range)));
        let needed = &mut sets[need.module.index()];
        *needed = needed.and(States(!inside.0));
        sets[need.by.index()] = States::only(need.at);
        Fact { sets }
    }

    /// The fact of a resolved line.
    ///
    /// The set of the named module is the union of the two, every other is the intersection.
    pub fn resolve(&self, other: &Fact, module: ModuleNo) -> Fact {
        let mut sets = self.sets;
        for (number, (set, theirs)) in sets.iter_mut().zip(&other.sets).enumerate() {
            *set = if number == module.index() {
                set.or(*theirs)
            } else {
                set.and(*theirs)
            };
        }
        Fact { sets }
    }

    /// The set of a module.
    pub fn states(&self, module: ModuleNo) -> States {
        self.sets
            .get(module.index())
            .copied()
            .unwrap_or(States::NONE)
    }

    /// Whether this fact alone says that no selection is valid.
    ///
    /// The root's set contains the root's version and every other set is full.
    pub fn refutes(&self, catalogue: &Catalogue) -> bool {
        catalogue.modules().all(|module| {
            let set = self.states(module);
            if module == ModuleNo::ROOT {
                set.holds(States::only(Place(0)))
            } else {
                set.holds(States::full(catalogue, module))
            }
        })
    }
}

/// One line of a sheet; lines are cited by numbers from 0, the head not counted.
#[derive(Clone, Copy, Debug, PartialEq, Eq, Hash)]
pub enum SheetLine {
    /// A need line with the number of the need.
    Need(u16),
    /// A resolved line, from two earlier lines and one module.
    Resolved {
        /// The first cited line.
        first: u16,
        /// The second cited line, which may be the same one.
        second: u16,
        /// The module whose sets are united.
        module: ModuleNo,
    },
}

/// Reads a sheet text for a catalogue that has been read, or refuses it with 1 to 6.
///
/// The checks are those of a catalogue text, with M already known. There are
/// as many lines as the head says, 1 to 480; the first line out of place is 5,
/// which with too few lines is the end frame. 6 means a count outside 1 to
/// 480, a need number that does not exist, a cited line that is not earlier,
/// or a module not below M.
pub fn read_sheet(catalogue: &Catalogue, text: &[u8]) -> Result<Vec<SheetLine>, Refusal> {
    let mut lines = Lines::open(Text::Sheet, text)?;
    let mut reading = Reading {
        catalogue,
        count: None,
        sheet: Vec::new(),
        ended: false,
    };
    while let Some(frame) = lines.next_frame()? {
        reading
            .take(&frame)
            .map_err(|number| Refusal::new(number, frame.line))?;
    }
    if reading.ended {
        Ok(reading.sheet)
    } else {
        Err(Refusal::new(refusal::ORDER, lines.next_line()))
    }
}

/// What has been read of a sheet so far, all of it good.
struct Reading<'c> {
    catalogue: &'c Catalogue,
    /// The count in the head, once it is read.
    count: Option<usize>,
    sheet: Vec<SheetLine>,
    ended: bool,
}

impl Reading<'_> {
    /// Takes a frame in, or says which of 5 and 6 its line is refused with.
    fn take(&mut self, frame: &Frame) -> Result<(), u8> {
        let Some(count) = self.count else {
            return self.head(frame);
        };
        let missing = count - self.sheet.len();
        match frame.kind() {
            frames::NEED_LINE if missing > 0 => self.need_line(frame.word(1)),
            frames::RESOLVED_LINE if missing > 0 => {
                self.resolved_line(frame.word(1), frame.word(3), ModuleNo(frame.byte(5)))
            }
            frames::SHEET_END if missing == 0 && !self.ended => {
                self.ended = true;
                Ok(())
            }
            _ => Err(refusal::ORDER),
        }
    }

    fn head(&mut self, frame: &Frame) -> Result<(), u8> {
        if frame.kind() != frames::SHEET_HEAD {
            return Err(refusal::ORDER);
        }
        let count = usize::from(frame.word(1));
        if !(1..=SHEET_LIMIT).contains(&count) {
            return Err(refusal::VALUE);
        }
        self.count = Some(count);
        Ok(())
    }

    fn need_line(&mut self, number: u16) -> Result<(), u8> {
        if usize::from(number) >= self.catalogue.needs().len() {
            return Err(refusal::VALUE);
        }
        self.sheet.push(SheetLine::Need(number));
        Ok(())
    }

    fn resolved_line(&mut self, first: u16, second: u16, module: ModuleNo) -> Result<(), u8> {
        let here = self.sheet.len();
        let earlier = usize::from(first) < here && usize::from(second) < here;
        if !earlier || module.0 >= self.catalogue.module_count() {
            return Err(refusal::VALUE);
        }
        self.sheet.push(SheetLine::Resolved {
            first,
            second,
            module,
        });
        Ok(())
    }
}

/// The facts of a sheet's lines, or none if a line names a need, an earlier line or a module that there is not.
pub fn facts(catalogue: &Catalogue, sheet: &[SheetLine]) -> Option<Vec<Fact>> {
    let mut facts: Vec<Fact> = Vec::with_capacity(sheet.len());
    for line in sheet {
        let fact = match *line {
            SheetLine::Need(number) => {
                Fact::of_need(catalogue, catalogue.needs().get(usize::from(number))?)
            }
            SheetLine::Resolved {
                first,
                second,
                module,
            } if module.0 < catalogue.module_count() => {
                let second = facts.get(usize::from(second))?;
                facts.get(usize::from(first))?.resolve(second, module)
            }
            SheetLine::Resolved { .. } => return None,
        };
        facts.push(fact);
    }
    Some(facts)
}

/// Whether a sheet refutes.
///
/// In its last line the root's set contains the root's version and every other
/// set is full. Lines that the last does not rest on are allowed.
pub fn refutes(catalogue: &Catalogue, sheet: &[SheetLine]) -> bool {
    facts(catalogue, sheet)
        .and_then(|facts| facts.last().copied())
        .is_some_and(|last| last.refutes(catalogue))
}

/// Reads and judges a sheet text: 1 to 6 where it is not well formed, 13 at its end's line where it does not refute.
pub fn judge_text(catalogue: &Catalogue, text: &[u8]) -> Result<(), Refusal> {
    let sheet = read_sheet(catalogue, text)?;
    if refutes(catalogue, &sheet) {
        Ok(())
    } else {
        let end_line = sheet.len() as u32 + 2;
        Err(Refusal::new(refusal::NOT_REFUTING, end_line))
    }
}

/// The text of a sheet: 20 with the count of lines, one 21 or 22 for each, 24.
pub fn sheet_text(sheet: &[SheetLine]) -> Vec<u8> {
    let mut out = Vec::new();
    let [high, low] = (sheet.len() as u16).to_be_bytes();
    frames::push_frame(&mut out, &[frames::SHEET_HEAD, high, low]);
    for line in sheet {
        push_line(&mut out, line);
    }
    frames::push_frame(&mut out, &[frames::SHEET_END]);
    out
}

fn push_line(out: &mut Vec<u8>, line: &SheetLine) {
    match *line {
        SheetLine::Need(number) => {
            let [high, low] = number.to_be_bytes();
            frames::push_frame(out, &[frames::NEED_LINE, high, low]);
        }
        SheetLine::Resolved {
            first,
            second,
            module,
        } => {
            let [a, b] = first.to_be_bytes();
            let [c, d] = second.to_be_bytes();
            frames::push_frame(out, &[frames::RESOLVED_LINE, a, b, c, d, module.0]);
        }
    }
}
