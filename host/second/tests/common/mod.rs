//! Small helps for the tests of the second picker.
#![allow(dead_code)]

use second::calls::{SELECTION_AREA, SHEET_AREA, WORK_AREA};
use second::frames::push_frame;
use second::{Answer, Catalogue, pick, read};

/// The text of these frames, each given without its check.
pub fn text(frames: &[&[u8]]) -> Vec<u8> {
    let mut out = Vec::new();
    for frame in frames {
        push_frame(&mut out, frame);
    }
    out
}

/// The texts put together.
pub fn join(parts: &[&[u8]]) -> Vec<u8> {
    parts.concat()
}

/// The catalogue of a good text.
pub fn good(text: &[u8]) -> Catalogue {
    read(text).expect("a good text")
}

/// The answer of the picking call with areas of the least size, and the text it wrote.
pub fn picked(text: &[u8], allowance: u32) -> (Answer, Vec<u8>) {
    let mut selection = vec![0xAA; SELECTION_AREA];
    let mut sheet = vec![0xBB; SHEET_AREA];
    let answer = pick(text, &mut selection, &mut sheet, WORK_AREA, allowance);
    let (written, fill) = match answer.number {
        0 => (&mut selection, 0xAA),
        _ => (&mut sheet, 0xBB),
    };
    let rest = written.split_off(answer.length);
    assert!(rest.iter().all(|&byte| byte == fill));
    let written = written.clone();
    match answer.number {
        0 => assert!(sheet.iter().all(|&byte| byte == 0xBB)),
        9 => assert!(selection.iter().all(|&byte| byte == 0xAA)),
        _ => assert_eq!(answer.length, 0),
    }
    (answer, written)
}

/// "No Conflicts", whole as the rules give it.
pub const NO_CONFLICTS: &[u8] = b"0103FC
0200010000FD
0301010000020000F9
0201010000FC
0302010000020000F8
0202010000FB
0202020000FA
04FC
";

/// The sheet of the linear error example, whole as the rules give it.
pub const LINEAR_SHEET: &[u8] = b"200007D9
210002DD
210003DC
220000000102DB
210001DE
220002000303D6
210000DF
220004000501D4
24DC
";

/// The linear error example: root 0, foo 1, bar 2, baz 3.
pub fn linear_error() -> Vec<u8> {
    text(&[
        &[1, 4],
        &[2, 0, 1, 0, 0],
        &[5, 1, 1, 0, 0],
        &[5, 3, 1, 0, 0],
        &[2, 1, 1, 0, 0],
        &[5, 2, 2, 0, 0],
        &[2, 2, 2, 0, 0],
        &[5, 3, 3, 0, 0],
        &[2, 3, 1, 0, 0],
        &[2, 3, 3, 0, 0],
        &[4],
    ])
}
