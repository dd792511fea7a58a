//! What a catalogue says: modules, their versions, and the needs of those versions.

/// There are at most 32 modules.
pub const MODULE_LIMIT: usize = 32;
/// A module has at most 16 versions.
pub const VERSION_LIMIT: usize = 16;
/// A version has at most 16 needs.
pub const NEED_LIMIT: usize = 16;
/// A catalogue has at most 1,024 needs.
pub const ALL_NEEDS_LIMIT: usize = 1_024;

/// The number of a module, counted from 0; module 0 is the root.
#[derive(Clone, Copy, Debug, PartialEq, Eq, PartialOrd, Ord, Hash)]
pub struct ModuleNo(pub u8);

impl ModuleNo {
    /// The root is module 0.
    pub const ROOT: ModuleNo = ModuleNo(0);

    /// The number as an index.
    pub fn index(self) -> usize {
        usize::from(self.0)
    }
}

/// The place of a version in its module, counted from 0 at the oldest; of two places the higher is the newer version.
#[derive(Clone, Copy, Debug, PartialEq, Eq, PartialOrd, Ord, Hash)]
pub struct Place(pub u8);

impl Place {
    /// The place as an index.
    pub fn index(self) -> usize {
        usize::from(self.0)
    }
}

/// A version: three bytes, compared major first, then minor, then patch.
#[derive(Clone, Copy, Debug, PartialEq, Eq, PartialOrd, Ord, Hash)]
pub struct Version {
    /// Compared first.
    pub major: u8,
    /// Compared second.
    pub minor: u8,
    /// Compared last.
    pub patch: u8,
}

impl Version {
    /// The lowest version, 0.0.0.
    pub const LOWEST: Version = Version::new(0, 0, 0);
    /// The upper end that leaves out nothing: no module's own version has a byte 255.
    pub const NO_END: Version = Version::new(255, 255, 255);

    /// The version major.minor.patch.
    pub const fn new(major: u8, minor: u8, patch: u8) -> Version {
        Version {
            major,
            minor,
            patch,
        }
    }

    /// The three bytes as they stand in a frame.
    pub const fn bytes(self) -> [u8; 3] {
        [self.major, self.minor, self.patch]
    }

    /// Whether this may be a module's own version: none of its bytes is 255.
    pub fn publishable(self) -> bool {
        !self.bytes().contains(&255)
    }
}

/// A range of versions: the lowest is included, the upper end is not.
#[derive(Clone, Copy, Debug, PartialEq, Eq, Hash)]
pub struct Range {
    /// The lowest version of the range.
    pub low: Version,
    /// The first version above the range.
    pub end: Version,
}

impl Range {
    /// The range from `low` up to, not including, `end`; none unless `low` lies below `end`.
    pub fn new(low: Version, end: Version) -> Option<Range> {
        (low < end).then_some(Range { low, end })
    }

    /// The caret range ^a.b.c, from a.b.c up to, not including, (a+1).0.0; none if a is 255.
    pub fn caret(low: Version) -> Option<Range> {
        let next = low.major.checked_add(1)?;
        Range::new(low, Version::new(next, 0, 0))
    }

    /// Whether the version lies in the range.
    pub fn contains(self, version: Version) -> bool {
        self.low <= version && version < self.end
    }
}

/// A need: one version of one module asks for another module in a range.
#[derive(Clone, Copy, Debug, PartialEq, Eq, Hash)]
pub struct Need {
    /// The module whose version has the need.
    pub by: ModuleNo,
    /// The place of the version that has the need.
    pub at: Place,
    /// The module that is needed, never the needing one.
    pub module: ModuleNo,
    /// The range in which it is needed; it may hold no published version.
    pub range: Range,
}

/// A catalogue that has been read: 1 to 32 modules, the root with exactly one version.
#[derive(Clone, Debug, PartialEq, Eq)]
pub struct Catalogue {
    /// Where each module's versions begin in `versions`, and one entry more for the end.
    module_starts: Vec<u16>,
    versions: Vec<Version>,
    /// Where each version's needs begin in `needs`, and one entry more for the end.
    need_starts: Vec<u16>,
    needs: Vec<Need>,
}

impl Catalogue {
    /// Puts together what the reader has found; the versions rise by module, then version.
    pub(crate) fn assemble(
        modules: u8,
        rising: &[(ModuleNo, Version)],
        mut need_starts: Vec<u16>,
        needs: Vec<Need>,
    ) -> Catalogue {
        let module_starts = (0..=modules)
            .map(|module| rising.partition_point(|entry| entry.0.0 < module) as u16)
            .collect();
        need_starts.push(needs.len() as u16);
        Catalogue {
            module_starts,
            versions: rising.iter().map(|entry| entry.1).collect(),
            need_starts,
            needs,
        }
    }

    /// M, the number of modules.
    pub fn module_count(&self) -> u8 {
        (self.module_starts.len() - 1) as u8
    }

    /// All modules, by number.
    pub fn modules(&self) -> impl DoubleEndedIterator<Item = ModuleNo> + use<> {
        (0..self.module_count()).map(ModuleNo)
    }

    /// The versions of a module, oldest first; a module that is not below M has none.
    pub fn versions_of(&self, module: ModuleNo) -> &[Version] {
        match self.span_of(module) {
            Some(span) => &self.versions[span],
            None => &[],
        }
    }

    /// All places of a module, oldest first.
    pub fn places_of(&self, module: ModuleNo) -> impl DoubleEndedIterator<Item = Place> + use<> {
        (0..self.versions_of(module).len() as u8).map(Place)
    }

    /// The version at a place of a module, if there is one.
    pub fn version(&self, module: ModuleNo, place: Place) -> Option<Version> {
        self.versions_of(module).get(place.index()).copied()
    }

    /// All needs; the number of a need is its index here, in reading order.
    pub fn needs(&self) -> &[Need] {
        &self.needs
    }

    /// The needs of one version in reading order, together with the number of the first.
    pub fn numbered_needs_of(&self, module: ModuleNo, place: Place) -> (usize, &[Need]) {
        match self.span_of(module) {
            Some(span) if place.index() < span.len() => {
                let at = span.start + place.index();
                let first = usize::from(self.need_starts[at]);
                let end = usize::from(self.need_starts[at + 1]);
                (first, &self.needs[first..end])
            }
            _ => (0, &[]),
        }
    }

    /// The needs of one version in reading order.
    pub fn needs_of(&self, module: ModuleNo, place: Place) -> &[Need] {
        self.numbered_needs_of(module, place).1
    }

    /// The places of a module whose versions lie in a range, as bits.
    pub fn places_in(&self, module: ModuleNo, range: Range) -> u16 {
        self.versions_of(module)
            .iter()
            .enumerate()
            .filter(|(_, version)| range.contains(**version))
            .fold(0, |bits, (place, _)| bits | 1 << place)
    }

    fn span_of(&self, module: ModuleNo) -> Option<std::ops::Range<usize>> {
        let start = *self.module_starts.get(module.index())?;
        let end = *self.module_starts.get(module.index() + 1)?;
        Some(usize::from(start)..usize::from(end))
    }
}
