//! Pages: texts taken apart into lines, so that lines and frames can be changed.

use crate::rng::Rng;
use second::frames;

/// A text as its lines without their LFs, and what follows the last LF.
pub(crate) struct Page {
    pub(crate) lines: Vec<Vec<u8>>,
    pub(crate) tail: Vec<u8>,
}

impl Page {
    pub(crate) fn of(text: &[u8]) -> Page {
        let mut lines: Vec<Vec<u8>> = text.split(|&byte| byte == b'\n').map(Vec::from).collect();
        let tail = lines.pop().unwrap_or_default();
        Page { lines, tail }
    }

    pub(crate) fn text(&self) -> Vec<u8> {
        let mut text = Vec::new();
        for line in &self.lines {
            text.extend_from_slice(line);
            text.push(b'\n');
        }
        text.extend_from_slice(&self.tail);
        text
    }

    pub(crate) fn length(&self) -> usize {
        self.lines.iter().map(|line| line.len() + 1).sum::<usize>() + self.tail.len()
    }

    pub(crate) fn double(&mut self, rng: &mut Rng) {
        let at = rng.below(self.lines.len());
        if let Some(line) = self.lines.get(at).cloned() {
            self.lines.insert(at, line);
        }
    }

    pub(crate) fn swap(&mut self, rng: &mut Rng) {
        let (one, other) = (rng.below(self.lines.len()), rng.below(self.lines.len()));
        if one < self.lines.len() && other < self.lines.len() {
            self.lines.swap(one, other);
        }
    }

    pub(crate) fn take(&mut self, rng: &mut Rng) -> Option<Vec<u8>> {
        let at = rng.below(self.lines.len());
        (at < self.lines.len()).then(|| self.lines.remove(at))
    }

    pub(crate) fn insert(&mut self, rng: &mut Rng, line: Vec<u8>) {
        self.lines.insert(rng.below(self.lines.len() + 1), line);
    }

    pub(crate) fn shift(&mut self, rng: &mut Rng) {
        if let Some(line) = self.take(rng) {
            self.insert(rng, line);
        }
    }

    /// Changes some line as text.
    pub(crate) fn edit_line(&mut self, rng: &mut Rng, edit: impl FnOnce(&mut Vec<u8>, &mut Rng)) {
        let at = rng.below(self.lines.len());
        if let Some(line) = self.lines.get_mut(at) {
            edit(line, rng);
        }
    }

    /// Changes the frame of some line, given without its check, and mends the check.
    pub(crate) fn edit_frame(&mut self, rng: &mut Rng, edit: impl FnOnce(&mut Vec<u8>, &mut Rng)) {
        let at = rng.below(self.lines.len());
        self.edit_at(at, rng, edit);
    }

    /// Changes some frame of one kind that has that kind's length.
    pub(crate) fn edit_kind(
        &mut self,
        rng: &mut Rng,
        kind: u8,
        edit: impl FnOnce(&mut [u8], &mut Rng),
    ) {
        let found = self.lines_of_kind(kind);
        if let Some(&at) = rng.one_of(&found) {
            self.edit_at(at, rng, |frame, rng| edit(frame, rng));
        }
    }

    pub(crate) fn edit_at(
        &mut self,
        at: usize,
        rng: &mut Rng,
        edit: impl FnOnce(&mut Vec<u8>, &mut Rng),
    ) {
        if let Some(mut frame) = self.frame(at) {
            edit(&mut frame, rng);
            self.lines[at] = line_of(&frame);
        }
    }

    /// The frame of a line without its check, if the line holds at least a kind and a check.
    pub(crate) fn frame(&self, at: usize) -> Option<Vec<u8>> {
        let mut bytes = bytes_of(self.lines.get(at)?)?;
        bytes.pop();
        (!bytes.is_empty()).then_some(bytes)
    }

    /// The lines that hold frames of one kind in its length.
    pub(crate) fn lines_of_kind(&self, kind: u8) -> Vec<usize> {
        let digits = frames::KINDS
            .iter()
            .find(|row| row.code == kind)
            .map(|row| row.digits);
        (0..self.lines.len())
            .filter(|&at| {
                Some(self.lines[at].len()) == digits
                    && self.frame(at).is_some_and(|frame| frame[0] == kind)
            })
            .collect()
    }
}

pub(crate) fn word(frame: &[u8], at: usize) -> u16 {
    u16::from_be_bytes([frame[at], frame[at + 1]])
}

pub(crate) fn set_word(frame: &mut [u8], at: usize, word: u16) {
    frame[at..at + 2].copy_from_slice(&word.to_be_bytes());
}

/// The line of a frame that is given without its check; the LF is left off.
pub(crate) fn line_of(frame: &[u8]) -> Vec<u8> {
    let mut line = Vec::new();
    frames::push_frame(&mut line, frame);
    line.pop();
    line
}

pub(crate) fn hex_byte(byte: u8) -> [u8; 2] {
    const DIGITS: &[u8; 16] = b"0123456789ABCDEF";
    [
        DIGITS[usize::from(byte >> 4)],
        DIGITS[usize::from(byte & 15)],
    ]
}

/// The bytes that a line of digits stands for, if it is one.
fn bytes_of(line: &[u8]) -> Option<Vec<u8>> {
    let digit = |&byte: &u8| (byte as char).to_digit(16);
    line.chunks(2)
        .map(|pair| match pair {
            [high, low] => Some((digit(high)? * 16 + digit(low)?) as u8),
            _ => None,
        })
        .collect()
}
