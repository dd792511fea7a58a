//! Areas to lend, filled with a pattern and with guard bytes on both sides.

use families::Rng;

/// Guard bytes on each side.
const GUARD: usize = 64;

/// An area between guard bytes.
#[derive(Clone, Debug)]
pub struct Area {
    bytes: Vec<u8>,
    before: Vec<u8>,
}

impl Area {
    /// An area of this length; it and its guards hold a pattern of the source's.
    pub fn new(length: usize, rng: &mut Rng) -> Area {
        let first = rng.number();
        let step = rng.number() | 1;
        let pattern = |at: usize| (first.wrapping_add(step.wrapping_mul(at as u64)) >> 32) as u8;
        let bytes: Vec<u8> = (0..length + 2 * GUARD).map(pattern).collect();
        Area {
            before: bytes.clone(),
            bytes,
        }
    }

    /// An area that holds these bytes.
    pub fn holding(bytes: &[u8], rng: &mut Rng) -> Area {
        let mut area = Area::new(bytes.len(), rng);
        area.lend().copy_from_slice(bytes);
        area.before = area.bytes.clone();
        area
    }

    /// The area without its guards.
    pub fn lend(&mut self) -> &mut [u8] {
        let end = self.bytes.len() - GUARD;
        &mut self.bytes[GUARD..end]
    }

    /// The area's length.
    pub fn length(&self) -> usize {
        self.bytes.len() - 2 * GUARD
    }

    /// The first byte that isn't as it should be, guards included, if `start` was written from the area's start and all else stayed.
    pub fn first_wrong(&self, start: &[u8]) -> Option<isize> {
        let mut wanted = self.before.clone();
        wanted[GUARD..GUARD + start.len()].copy_from_slice(start);
        let wrong = (0..wanted.len()).find(|&at| wanted[at] != self.bytes[at])?;
        Some(wrong as isize - GUARD as isize)
    }

    /// The bytes from the area's start on.
    pub fn start(&self, length: usize) -> &[u8] {
        &self.bytes[GUARD..GUARD + length.min(self.length())]
    }
}
