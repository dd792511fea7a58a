//! The archive's calls, as include/towerbasin.h declares them, and the stack that a call takes.
#![allow(unsafe_code)]

use std::hint::black_box;

unsafe extern "C" {
    fn towerbasin_pick(
        text: *const u8,
        text_length: usize,
        selection: *mut u8,
        selection_length: usize,
        sheet: *mut u8,
        sheet_length: usize,
        work: *mut u8,
        work_length: usize,
        allowance: u16,
    ) -> u64;

    fn towerbasin_check(
        text: *const u8,
        text_length: usize,
        sheet: *const u8,
        sheet_length: usize,
        work: *mut u8,
        work_length: usize,
    ) -> u64;
}

/// An answer taken apart.
#[derive(Clone, Copy, Debug, PartialEq, Eq)]
pub struct Answer {
    /// The number: 0, or why not.
    pub number: u8,
    /// The text at fault: 0 neither, 1 the catalogue, 2 the sheet.
    pub text: u8,
    /// The line told.
    pub line: u16,
    /// Always 0.
    pub place: u16,
    /// The length of the text that was written.
    pub length: u16,
}

impl Answer {
    /// The parts of a packed answer, from its highest byte.
    pub fn unpack(packed: u64) -> Answer {
        let [number, text, a, b, c, d, e, f] = packed.to_be_bytes();
        Answer {
            number,
            text,
            line: u16::from_be_bytes([a, b]),
            place: u16::from_be_bytes([c, d]),
            length: u16::from_be_bytes([e, f]),
        }
    }
}

/// The picking call.
pub fn pick(
    text: &[u8],
    selection: &mut [u8],
    sheet: &mut [u8],
    work: &mut [u8],
    allowance: u16,
) -> Answer {
    // SAFETY: each pointer comes with the length of the slice it is taken from, and the slices don't overlap.
    let packed = unsafe {
        towerbasin_pick(
            text.as_ptr(),
            text.len(),
            selection.as_mut_ptr(),
            selection.len(),
            sheet.as_mut_ptr(),
            sheet.len(),
            work.as_mut_ptr(),
            work.len(),
            allowance,
        )
    };
    Answer::unpack(packed)
}

/// The checking call.
pub fn check(text: &[u8], sheet: &[u8], work: &mut [u8]) -> Answer {
    // SAFETY: each pointer comes with the length of the slice it is taken from, and the work area overlaps neither text.
    let packed = unsafe {
        towerbasin_check(
            text.as_ptr(),
            text.len(),
            sheet.as_ptr(),
            sheet.len(),
            work.as_mut_ptr(),
            work.len(),
        )
    };
    Answer::unpack(packed)
}

/// Bytes of stack that are painted before a call.
const PAINTED: usize = 256 * 1_024;
/// What an untouched byte holds.
const PAINT: u8 = 0xA5;
/// Bytes next to the painting function's own frame, which stay as they are.
const NEAR: usize = 512;

/// How many bytes of stack a call writes on, counted from its caller's frame; no more than 256 KB are looked at. The thread has 1 MiB of stack at least.
#[inline(never)]
pub fn depth(call: impl FnOnce()) -> usize {
    let here = black_box(0_u8);
    let top = (&raw const here) as usize;
    for below in NEAR..PAINTED {
        // SAFETY: the stack reaches further down than this, and below this frame nothing of it is in use.
        unsafe { ((top - below) as *mut u8).write_volatile(PAINT) };
    }
    call();
    let touched = |below: &usize| {
        // SAFETY: as above; the byte was written before.
        let byte = unsafe { ((top - below) as *const u8).read_volatile() };
        byte != PAINT
    };
    (NEAR..PAINTED).rev().find(touched).unwrap_or(NEAR)
}
