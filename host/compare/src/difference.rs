//! Where the proved calls and the second picker differ, told by texts that show it.

use crate::area::Area;
use std::fmt;
use std::fs;
use std::path::Path;

/// A difference between the two.
#[derive(Clone, Debug)]
pub struct Difference {
    /// The catalogue text on which they differ.
    pub text: Vec<u8>,
    /// The sheet text, if a sheet was checked.
    pub sheet: Option<Vec<u8>>,
    /// What was lent.
    pub lent: String,
    /// What differs.
    pub what: String,
}

/// Where the catalogue text of a difference is kept, byte for byte, seen from the project's root.
const KEPT: &str = "host/target/difference.catalogue";

impl Difference {
    /// Keeps the catalogue text as a file too, since its bytes need not be printable.
    pub fn kept(self) -> Box<Difference> {
        let path = Path::new(env!("CARGO_MANIFEST_DIR"))
            .join("../..")
            .join(KEPT);
        if let Err(error) = fs::write(&path, &self.text) {
            eprintln!("{}: {error}", path.display());
        }
        Box::new(self)
    }
}

impl fmt::Display for Difference {
    fn fmt(&self, f: &mut fmt::Formatter<'_>) -> fmt::Result {
        writeln!(f, "{} (lent: {})", self.what, self.lent)?;
        if let Some(sheet) = &self.sheet {
            writeln!(f, "The sheet, of {} bytes:", sheet.len())?;
            writeln!(f, "{}", String::from_utf8_lossy(sheet))?;
        }
        writeln!(
            f,
            "The catalogue, of {} bytes, shows it by ./pick {KEPT}:",
            self.text.len()
        )?;
        f.write_str(&String::from_utf8_lossy(&self.text))
    }
}

/// Whether an area holds `start` from its start on, and else what it held before.
pub fn stands(name: &str, area: &Area, start: &[u8]) -> Result<(), String> {
    match area.first_wrong(start) {
        Some(at) => Err(format!(
            "byte {at} of the {name} area, counted from its start, is wrong"
        )),
        None => Ok(()),
    }
}
