//! The numbers with which a text, an area or a catalogue is turned down.

/// Number 0: success, or an accepted sheet. The line is 0.
pub const GOOD: u8 = 0;
/// Number 1: the text has more than 32,768 bytes. The line is 0.
pub const TOO_LONG: u8 = 1;
/// Number 2: the line's shape is wrong, or there are bytes after the last LF.
pub const SHAPE: u8 = 2;
/// Number 3: the bytes of the frame do not add up to 0 modulo 256.
pub const SUM: u8 = 3;
/// Number 4: this text has no such kind, or the kind has another number of digits.
pub const KIND: u8 = 4;
/// Number 5: a frame out of its order, anything after the end, or no end (told at one past the last line).
pub const ORDER: u8 = 5;
/// Number 6: a value outside what its field may hold.
pub const VALUE: u8 = 6;
/// Number 7: the 17th version of a module, the 17th need of a version, or the 1,025th need.
pub const ROOM: u8 = 7;
/// Number 8: the root has not exactly one version. The line is that of the end frame.
pub const ROOT: u8 = 8;
/// Number 9: no selection is valid, and a sheet is written. The line is 0.
pub const SHEET: u8 = 9;
/// Number 10: no selection is valid, and no sheet is written. The line is 0.
pub const NO_SHEET: u8 = 10;
/// Number 11: a lent area is below its minimum, or the allowance is above 480. The line is 0.
pub const AREA: u8 = 11;
/// Number 13: the sheet is well formed and does not refute. The line is that of its end frame.
pub const NOT_REFUTING: u8 = 13;

/// Why a text is refused: a number of the table and the line told with it.
///
/// Text lines count from 1. Line 0 says that no line is at fault.
#[derive(Clone, Copy, Debug, PartialEq, Eq, Hash)]
pub struct Refusal {
    /// The number of the table.
    pub number: u8,
    /// The line told.
    pub line: u32,
}

impl Refusal {
    /// The refusal with this number at this line.
    pub const fn new(number: u8, line: u32) -> Refusal {
        Refusal { number, line }
    }
}
