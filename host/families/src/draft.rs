//! Drafts: catalogues being made, which are then written as texts.

use second::catalogue::Version;
use second::frames;

/// A need of a draft, in either of its two kinds.
#[derive(Clone, Copy, Debug, PartialEq, Eq)]
pub enum DraftNeed {
    /// A need with both ends of its range.
    Range {
        /// The needed module.
        module: u8,
        /// The lowest version of the range.
        low: Version,
        /// The first version above the range.
        end: Version,
    },
    /// A caret need.
    Caret {
        /// The needed module.
        module: u8,
        /// The lowest version of the range.
        low: Version,
    },
}

impl DraftNeed {
    /// The need of a module in any version.
    pub fn any(module: u8) -> DraftNeed {
        DraftNeed::Range {
            module,
            low: Version::LOWEST,
            end: Version::NO_END,
        }
    }

    /// The need of a module in a range that holds no published version: none has a minor of 255.
    pub fn unmet(module: u8, major: u8) -> DraftNeed {
        DraftNeed::Range {
            module,
            low: Version::new(major, 255, 0),
            end: Version::new(major, 255, 255),
        }
    }

    fn push(&self, out: &mut Vec<u8>) {
        match *self {
            DraftNeed::Range { module, low, end } => {
                let ([a, b, c], [d, e, f]) = (low.bytes(), end.bytes());
                frames::push_frame(out, &[frames::NEED, module, a, b, c, d, e, f]);
            }
            DraftNeed::Caret { module, low } => {
                let [a, b, c] = low.bytes();
                frames::push_frame(out, &[frames::CARET, module, a, b, c]);
            }
        }
    }
}

/// A version of a draft with its needs in reading order.
#[derive(Clone, Debug, PartialEq, Eq)]
pub struct DraftVersion {
    /// The version.
    pub version: Version,
    /// Its needs.
    pub needs: Vec<DraftNeed>,
}

/// A catalogue being made; nothing keeps it within the limits but its maker.
#[derive(Clone, Debug, Default, PartialEq, Eq)]
pub struct Draft {
    /// The versions of each module, oldest first.
    pub modules: Vec<Vec<DraftVersion>>,
}

impl Draft {
    /// The draft that has the root at 1.0.0, without needs, and no other module.
    pub fn with_root() -> Draft {
        let mut draft = Draft::default();
        draft.add([Version::new(1, 0, 0)]);
        draft
    }

    /// Adds a module with these versions, oldest first, and tells its number.
    pub fn add(&mut self, versions: impl IntoIterator<Item = Version>) -> u8 {
        let without_needs = |version| DraftVersion {
            version,
            needs: Vec::new(),
        };
        self.modules
            .push(versions.into_iter().map(without_needs).collect());
        (self.modules.len() - 1) as u8
    }

    /// Adds a need to the version at a place of a module; nothing happens if there is no such version.
    pub fn need(&mut self, module: u8, place: usize, need: DraftNeed) {
        let versions = self.modules.get_mut(usize::from(module));
        if let Some(version) = versions.and_then(|versions| versions.get_mut(place)) {
            version.needs.push(need);
        }
    }

    /// How many versions a module has.
    pub fn count(&self, module: u8) -> usize {
        self.modules.get(usize::from(module)).map_or(0, Vec::len)
    }

    /// The need of a module in `width` published versions, at least one, from place `first` on.
    ///
    /// Past the newest version the range has no upper end.
    pub fn window(&self, module: u8, first: usize, width: usize) -> DraftNeed {
        let versions = self.modules.get(usize::from(module));
        let at = |place: usize| {
            versions
                .and_then(|versions| versions.get(place))
                .map(|draft| draft.version)
        };
        DraftNeed::Range {
            module,
            low: at(first).unwrap_or(Version::LOWEST),
            end: at(first + width.max(1)).unwrap_or(Version::NO_END),
        }
    }

    /// The catalogue text of this draft.
    pub fn text(&self) -> Vec<u8> {
        let mut out = Vec::new();
        frames::push_frame(&mut out, &[frames::HEAD, self.modules.len() as u8]);
        for (number, versions) in self.modules.iter().enumerate() {
            for draft in versions {
                let [a, b, c] = draft.version.bytes();
                frames::push_frame(&mut out, &[frames::VERSION, number as u8, a, b, c]);
                for need in &draft.needs {
                    need.push(&mut out);
                }
            }
        }
        frames::push_frame(&mut out, &[frames::END]);
        out
    }
}
