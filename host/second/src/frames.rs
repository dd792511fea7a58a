//! Frames: the one table of kinds, the reader of hexadecimal lines and the writer of them.

use crate::catalogue::Version;
use crate::refusal::{self, Refusal};

/// A text has at most 32,768 bytes.
pub const TEXT_LIMIT: usize = 32_768;

/// The longest frame of the table, a need, has this many bytes with its kind and check.
pub const LONGEST_FRAME: usize = 9;

/// The head of a catalogue: M.
pub const HEAD: u8 = 0x01;
/// A version frame: module and version.
pub const VERSION: u8 = 0x02;
/// A need frame: module, low, upper end.
pub const NEED: u8 = 0x03;
/// The end of a catalogue.
pub const END: u8 = 0x04;
/// A caret need frame: module and low.
pub const CARET: u8 = 0x05;
/// The head of a selection: how many versions are selected.
pub const SELECTION_HEAD: u8 = 0x11;
/// One selected version: module and version.
pub const SELECTED: u8 = 0x12;
/// The end of a selection.
pub const SELECTION_END: u8 = 0x14;
/// The one frame that a program writes when it has neither selection nor sheet: number and line.
pub const ANSWER: u8 = 0x1F;
/// The head of a sheet: the count of its lines.
pub const SHEET_HEAD: u8 = 0x20;
/// A need line of a sheet: the number of the need.
pub const NEED_LINE: u8 = 0x21;
/// A resolved line of a sheet: first line, second line, module.
pub const RESOLVED_LINE: u8 = 0x22;
/// The end of a sheet.
pub const SHEET_END: u8 = 0x24;

/// The texts there are; a kind of one text is unknown in another.
#[derive(Clone, Copy, Debug, PartialEq, Eq, Hash)]
pub enum Text {
    /// A catalogue.
    Catalogue,
    /// A selection.
    Selection,
    /// A derivation sheet.
    Sheet,
    /// The one frame that tells a number and a line.
    Answer,
}

/// One row of the table of kinds.
#[derive(Clone, Copy, Debug, PartialEq, Eq, Hash)]
pub struct Kind {
    /// The first byte of the frame.
    pub code: u8,
    /// The text in which this kind is known.
    pub text: Text,
    /// How many digits a line of this kind has, the LF not counted.
    pub digits: usize,
}

const fn kind(code: u8, text: Text, digits: usize) -> Kind {
    Kind { code, text, digits }
}

/// The length of each kind stands in this one table.
pub const KINDS: [Kind; 13] = [
    kind(HEAD, Text::Catalogue, 6),
    kind(VERSION, Text::Catalogue, 12),
    kind(NEED, Text::Catalogue, 18),
    kind(CARET, Text::Catalogue, 12),
    kind(END, Text::Catalogue, 4),
    kind(SELECTION_HEAD, Text::Selection, 6),
    kind(SELECTED, Text::Selection, 12),
    kind(SELECTION_END, Text::Selection, 4),
    kind(SHEET_HEAD, Text::Sheet, 8),
    kind(NEED_LINE, Text::Sheet, 8),
    kind(RESOLVED_LINE, Text::Sheet, 14),
    kind(SHEET_END, Text::Sheet, 4),
    kind(ANSWER, Text::Answer, 10),
];

/// How many digits a kind has in a text, or none if the text does not have the kind.
pub fn digits_of(text: Text, code: u8) -> Option<usize> {
    KINDS
        .iter()
        .find(|row| row.text == text && row.code == code)
        .map(|row| row.digits)
}

/// A frame whose line has passed the checks 2, 3 and 4.
#[derive(Clone, Copy, Debug, PartialEq, Eq)]
pub struct Frame {
    /// The line it stands on, counted from 1.
    pub line: u32,
    bytes: [u8; LONGEST_FRAME],
}

impl Frame {
    /// The kind, which is the frame's first byte.
    pub fn kind(&self) -> u8 {
        self.bytes[0]
    }

    /// The byte at `at`; the kind is at 0.
    pub fn byte(&self, at: usize) -> u8 {
        self.bytes[at]
    }

    /// The two-byte number at `at`, high byte first.
    pub fn word(&self, at: usize) -> u16 {
        u16::from_be_bytes([self.bytes[at], self.bytes[at + 1]])
    }

    /// The version whose three bytes begin at `at`.
    pub fn version(&self, at: usize) -> Version {
        Version::new(self.bytes[at], self.bytes[at + 1], self.bytes[at + 2])
    }
}

/// A text being read line by line, no further than the first bad character or faulty line.
#[derive(Clone, Debug)]
pub struct Lines<'t> {
    text: Text,
    rest: &'t [u8],
    line: u32,
}

impl<'t> Lines<'t> {
    /// Begins a text; more than 32,768 bytes are refused with 1 and line 0.
    pub fn open(text: Text, bytes: &'t [u8]) -> Result<Lines<'t>, Refusal> {
        if bytes.len() > TEXT_LIMIT {
            return Err(Refusal::new(refusal::TOO_LONG, 0));
        }
        Ok(Lines {
            text,
            rest: bytes,
            line: 0,
        })
    }

    /// The line after the last one read.
    pub fn next_line(&self) -> u32 {
        self.line + 1
    }

    /// The next frame, none when the text is at its end, or why its line is refused with 2, 3 or 4.
    ///
    /// The smallest number that holds of the line is given: shape, then sum, then kind and length.
    pub fn next_frame(&mut self) -> Result<Option<Frame>, Refusal> {
        if self.rest.is_empty() {
            return Ok(None);
        }
        self.line += 1;
        self.frame()
            .map(Some)
            .map_err(|number| Refusal::new(number, self.line))
    }

    fn frame(&mut self) -> Result<Frame, u8> {
        let mut bytes = [0; LONGEST_FRAME];
        let mut sum = 0u8;
        let mut high = 0u8;
        let mut digits = 0;
        loop {
            let (&character, rest) = self.rest.split_first().ok_or(refusal::SHAPE)?;
            self.rest = rest;
            if character == b'\n' {
                break;
            }
            let value = digit_value(character).ok_or(refusal::SHAPE)?;
            if digits % 2 == 0 {
                high = value;
            } else {
                let byte = high << 4 | value;
                sum = sum.wrapping_add(byte);
                if let Some(slot) = bytes.get_mut(digits / 2) {
                    *slot = byte;
                }
            }
            digits += 1;
        }
        if digits < 4 || digits % 2 != 0 {
            return Err(refusal::SHAPE);
        }
        if sum != 0 {
            return Err(refusal::SUM);
        }
        if digits_of(self.text, bytes[0]) != Some(digits) {
            return Err(refusal::KIND);
        }
        Ok(Frame {
            line: self.line,
            bytes,
        })
    }
}

/// The value of a digit 0-9 or A-F; lower case is no digit.
fn digit_value(character: u8) -> Option<u8> {
    match character {
        b'0'..=b'9' => Some(character - b'0'),
        b'A'..=b'F' => Some(character - b'A' + 10),
        _ => None,
    }
}

/// The byte that makes a frame's bytes add up to 0 modulo 256.
pub fn check_byte(bytes: &[u8]) -> u8 {
    bytes
        .iter()
        .fold(0u8, |sum, &byte| sum.wrapping_add(byte))
        .wrapping_neg()
}

/// Writes the line of a frame: the given bytes, then the check, then LF.
pub fn push_frame(out: &mut Vec<u8>, bytes: &[u8]) {
    for &byte in bytes {
        push_byte(out, byte);
    }
    push_byte(out, check_byte(bytes));
    out.push(b'\n');
}

fn push_byte(out: &mut Vec<u8>, byte: u8) {
    const DIGITS: &[u8; 16] = b"0123456789ABCDEF";
    out.push(DIGITS[usize::from(byte >> 4)]);
    out.push(DIGITS[usize::from(byte & 15)]);
}
