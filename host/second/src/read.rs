//! The reader of catalogue texts, by the table of refusals and its order of checks.

use crate::catalogue::{
    ALL_NEEDS_LIMIT, Catalogue, MODULE_LIMIT, ModuleNo, NEED_LIMIT, Need, Place, Range,
    VERSION_LIMIT, Version,
};
use crate::frames::{self, Frame, Lines, Text};
use crate::refusal::{self, Refusal};

/// Reads a catalogue text.
///
/// The table's order is the order of checks: 1 for the whole text, then the
/// first faulty line and in it the smallest number of 2 to 7, then 8. Reading
/// goes no further than the first bad character or the first faulty line. A
/// line after the end frame has its own number 2, 3 or 4, or else 5.
pub fn read(text: &[u8]) -> Result<Catalogue, Refusal> {
    let mut lines = Lines::open(Text::Catalogue, text)?;
    let mut reading = Reading::default();
    while let Some(frame) = lines.next_frame()? {
        reading
            .take(&frame)
            .map_err(|number| Refusal::new(number, frame.line))?;
    }
    reading.finish(lines.next_line())
}

/// Where in a catalogue text the reader stands.
#[derive(Default)]
enum Stage {
    /// Before the head.
    #[default]
    Start,
    /// After the head.
    Body,
    /// After the end frame on this line.
    Ended(u32),
}

/// What has been read so far, all of it good.
#[derive(Default)]
struct Reading {
    stage: Stage,
    modules: u8,
    versions: Vec<(ModuleNo, Version)>,
    /// How many versions the module of the last version frame has so far.
    versions_here: usize,
    /// For each version the number of its first need.
    need_starts: Vec<u16>,
    needs: Vec<Need>,
}

impl Reading {
    /// Takes a frame in, or says which of 5, 6 and 7 its line is refused with.
    fn take(&mut self, frame: &Frame) -> Result<(), u8> {
        match (&self.stage, frame.kind()) {
            (Stage::Start, frames::HEAD) => self.head(frame.byte(1)),
            (Stage::Body, frames::VERSION) => {
                self.version(ModuleNo(frame.byte(1)), frame.version(2))
            }
            (Stage::Body, frames::NEED) => self.need(
                ModuleNo(frame.byte(1)),
                Range::new(frame.version(2), frame.version(5)),
            ),
            (Stage::Body, frames::CARET) => {
                self.need(ModuleNo(frame.byte(1)), Range::caret(frame.version(2)))
            }
            (Stage::Body, frames::END) => {
                self.stage = Stage::Ended(frame.line);
                Ok(())
            }
            _ => Err(refusal::ORDER),
        }
    }

    /// The head comes first and once; M is 1 to 32.
    fn head(&mut self, modules: u8) -> Result<(), u8> {
        if !(1..=MODULE_LIMIT).contains(&usize::from(modules)) {
            return Err(refusal::VALUE);
        }
        self.modules = modules;
        self.stage = Stage::Body;
        Ok(())
    }

    /// Version frames rise strictly by module, then version; a module has at most 16.
    fn version(&mut self, module: ModuleNo, version: Version) -> Result<(), u8> {
        let last = self.versions.last().copied();
        if last.is_some_and(|last| last >= (module, version)) {
            return Err(refusal::ORDER);
        }
        if module.0 >= self.modules || !version.publishable() {
            return Err(refusal::VALUE);
        }
        if last.is_none_or(|last| last.0 != module) {
            self.versions_here = 0;
        }
        if self.versions_here == VERSION_LIMIT {
            return Err(refusal::ROOM);
        }
        self.versions_here += 1;
        self.versions.push((module, version));
        self.need_starts.push(self.needs.len() as u16);
        Ok(())
    }

    /// A need belongs to the version frame last read; a range that cannot be is none.
    fn need(&mut self, module: ModuleNo, range: Option<Range>) -> Result<(), u8> {
        let (Some(&(by, _)), Some(&first)) = (self.versions.last(), self.need_starts.last()) else {
            return Err(refusal::ORDER);
        };
        let range = range.ok_or(refusal::VALUE)?;
        if module.0 >= self.modules || module == by {
            return Err(refusal::VALUE);
        }
        let needs_here = self.needs.len() - usize::from(first);
        if needs_here == NEED_LIMIT || self.needs.len() == ALL_NEEDS_LIMIT {
            return Err(refusal::ROOM);
        }
        self.needs.push(Need {
            by,
            at: Place(self.versions_here as u8 - 1),
            module,
            range,
        });
        Ok(())
    }

    /// At the end of the text: 5 without an end frame, 8 unless the root has one version.
    fn finish(self, next_line: u32) -> Result<Catalogue, Refusal> {
        let Stage::Ended(end_line) = self.stage else {
            return Err(Refusal::new(refusal::ORDER, next_line));
        };
        let is_root = |entry: &&(ModuleNo, Version)| entry.0 == ModuleNo::ROOT;
        if self.versions.iter().filter(is_root).count() != 1 {
            return Err(Refusal::new(refusal::ROOT, end_line));
        }
        Ok(Catalogue::assemble(
            self.modules,
            &self.versions,
            self.need_starts,
            self.needs,
        ))
    }
}
