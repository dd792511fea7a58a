//! Every number that a catalogue text can be refused with, and the line told with it.

mod common;

use common::{NO_CONFLICTS, join, text};
use second::{answer_text, read};

/// The number and line of a refused text, or zeros for a good one.
fn told(text: &[u8]) -> (u8, u32) {
    match read(text) {
        Ok(_) => (0, 0),
        Err(refusal) => (refusal.number, refusal.line),
    }
}

/// A head for M modules and the root's version.
fn begun(modules: u8) -> Vec<u8> {
    text(&[&[1, modules], &[2, 0, 1, 0, 0]])
}

fn end() -> Vec<u8> {
    text(&[&[4]])
}

/// What is told of a text for three modules whose third line is this one.
fn third(line: &[u8]) -> (u8, u32) {
    told(&join(&[&begun(3), line, &end()]))
}

/// What is told of a text for three modules whose third frame is this one.
fn third_frame(frame: &[u8]) -> (u8, u32) {
    third(&text(&[frame]))
}

#[test]
fn a_good_text_reads() {
    let catalogue = read(NO_CONFLICTS).unwrap();
    assert_eq!(catalogue.module_count(), 3);
    assert_eq!(catalogue.needs().len(), 2);
}

#[test]
fn number_1_too_long() {
    let long = |length: usize| vec![b'0'; length];
    assert_eq!(told(&long(32_768)), (2, 1));
    assert_eq!(told(&long(32_769)), (1, 0));
    let mut text = NO_CONFLICTS.to_vec();
    text.resize(32_769, b'\n');
    assert_eq!(told(&text), (1, 0));
    text.pop();
    assert_eq!(told(&text), (2, 9));
}

#[test]
fn number_2_line_shape() {
    for line in [
        "\n",
        "0\n",
        "00\n",
        "000\n",
        "04FC0\n",
        "04fc\n",
        "04FC\r\n",
        " 04FC\n",
        "04 FC\n",
        "04FC \n",
        "04FG\n",
        "04F@\n",
        "04F/\n",
        "04F:\n",
        "0x04\n",
        "04FC\0\n",
        "04F\u{e9}\n",
    ] {
        assert_eq!(third(line.as_bytes()), (2, 3), "{line:?}");
    }
    assert_eq!(third(b"\xFF\n"), (2, 3));
    assert_eq!(told(b"\n"), (2, 1));
    assert_eq!(told(b"0"), (2, 1));
}

#[test]
fn number_2_bytes_after_the_last_lf() {
    for tail in ["0", "04FC", "0300", " ", "\r", "\0"] {
        let whole = join(&[NO_CONFLICTS, tail.as_bytes()]);
        assert_eq!(told(&whole), (2, 9), "{tail:?}");
    }
    assert_eq!(told(&NO_CONFLICTS[..NO_CONFLICTS.len() - 1]), (2, 8));
}

#[test]
fn number_3_sum() {
    assert_eq!(third(b"04FB\n"), (3, 3));
    assert_eq!(third(b"0001\n"), (3, 3));
    assert_eq!(third(b"99990000000000000000000000000000000000\n"), (3, 3));
    let mut long = vec![b'0'; 20_000];
    long.extend(b"01\n");
    assert_eq!(third(&long), (3, 3));
}

#[test]
fn number_4_kind_and_length() {
    for kind in (0..=255u8).filter(|kind| !(1..=5).contains(kind)) {
        assert_eq!(third_frame(&[kind]), (4, 3));
        assert_eq!(third_frame(&[kind, 1]), (4, 3));
        assert_eq!(third_frame(&[kind, 1, 1, 0, 0]), (4, 3));
    }
    for (kind, right) in [(1, 2), (2, 5), (3, 8), (4, 1), (5, 5)] {
        for length in (1..12).filter(|&length| length != right) {
            let mut frame = vec![0; length];
            frame[0] = kind;
            assert_eq!(third_frame(&frame), (4, 3), "{kind} {length}");
        }
    }
    let mut long = vec![b'0'; 20_000];
    long.push(b'\n');
    assert_eq!(third(&long), (4, 3));
}

#[test]
fn number_5_order() {
    assert_eq!(told(b""), (5, 1));
    for first in [
        &[2, 0, 1, 0, 0][..],
        &[2, 9, 255, 0, 0],
        &[3, 1, 0, 0, 0, 0, 0, 0],
        &[5, 1, 255, 0, 0],
        &[4],
    ] {
        assert_eq!(told(&join(&[&text(&[first]), NO_CONFLICTS])), (5, 1));
    }
    for modules in [0, 1, 3, 33] {
        assert_eq!(third_frame(&[1, modules]), (5, 3), "a second head");
    }
    assert_eq!(third_frame(&[2, 0, 1, 0, 0]), (5, 3), "the same version");
    assert_eq!(third_frame(&[2, 0, 0, 255, 0]), (5, 3), "a lower version");
    let need_first = text(&[&[1, 3], &[3, 1, 0, 0, 0, 1, 0, 0]]);
    assert_eq!(told(&need_first), (5, 2));
    let bad_need_first = text(&[&[1, 3], &[3, 9, 1, 0, 0, 1, 0, 0]]);
    assert_eq!(told(&bad_need_first), (5, 2));
    let caret_first = text(&[&[1, 3], &[5, 9, 255, 0, 0]]);
    assert_eq!(told(&caret_first), (5, 2));
    let falling = text(&[&[2, 2, 1, 0, 0], &[2, 1, 1, 0, 0]]);
    assert_eq!(told(&join(&[&begun(3), &falling, &end()])), (5, 4));
}

#[test]
fn number_5_no_end() {
    assert_eq!(told(&begun(3)), (5, 3));
    assert_eq!(told(&text(&[&[1, 3]])), (5, 2));
}

#[test]
fn after_the_end() {
    for (line, number) in [
        ("04FC\n", 5),
        ("0103FC\n", 5),
        ("0100FF\n", 5),
        ("0201010000FC\n", 5),
        ("0209FF0000F6\n", 5),
        ("04FB\n", 3),
        ("0000\n", 4),
        ("14EC\n", 4),
        ("0202FC\n", 4),
        ("\n", 2),
        ("04FC\r\n", 2),
        ("04FC", 2),
    ] {
        let whole = join(&[NO_CONFLICTS, line.as_bytes()]);
        assert_eq!(told(&whole), (number, 9), "{line:?}");
        let rootless = join(&[&text(&[&[1, 1], &[4]]), line.as_bytes()]);
        assert_eq!(told(&rootless), (number, 3), "{line:?}");
    }
}

#[test]
fn number_6_values() {
    for modules in [0, 33, 255] {
        assert_eq!(told(&text(&[&[1, modules]])), (6, 1));
    }
    for modules in [1, 32] {
        assert_eq!(told(&join(&[&begun(modules), &end()])), (0, 0));
    }
    for frame in [
        &[2, 3, 1, 0, 0][..],
        &[2, 255, 1, 0, 0],
        &[2, 1, 255, 0, 0],
        &[2, 1, 0, 255, 0],
        &[2, 1, 0, 0, 255],
        &[3, 3, 0, 0, 0, 1, 0, 0],
        &[3, 255, 0, 0, 0, 1, 0, 0],
        &[3, 1, 1, 0, 0, 1, 0, 0],
        &[3, 1, 1, 0, 1, 1, 0, 0],
        &[3, 1, 255, 255, 255, 255, 255, 255],
        &[3, 0, 0, 0, 0, 1, 0, 0],
        &[5, 3, 1, 0, 0],
        &[5, 0, 1, 0, 0],
        &[5, 1, 255, 0, 0],
        &[5, 1, 255, 255, 255],
    ] {
        assert_eq!(third_frame(frame), (6, 3), "{frame:?}");
    }
    for frame in [
        &[2, 2, 254, 254, 254][..],
        &[3, 2, 0, 0, 0, 0, 0, 1],
        &[3, 2, 255, 255, 254, 255, 255, 255],
        &[5, 2, 254, 255, 255],
        &[5, 2, 0, 0, 0],
    ] {
        assert_eq!(third_frame(frame), (0, 0), "{frame:?}");
    }
}

#[test]
fn number_6_own_module_is_that_of_the_last_version_frame() {
    let last = text(&[&[2, 1, 1, 0, 0], &[5, 1, 1, 0, 0]]);
    assert_eq!(told(&join(&[&begun(3), &last, &end()])), (6, 4));
    let root = text(&[&[2, 1, 1, 0, 0], &[5, 0, 1, 0, 0]]);
    assert_eq!(told(&join(&[&begun(3), &root, &end()])), (0, 0));
}

/// A version frame for module 1 at 1.0.patch.
fn patch(patch: u8) -> Vec<u8> {
    text(&[&[2, 1, 1, 0, patch]])
}

#[test]
fn number_7_versions() {
    let full: Vec<u8> = (0..16).flat_map(patch).collect();
    assert_eq!(told(&join(&[&begun(3), &full, &end()])), (0, 0));
    let over = join(&[&begun(3), &full, &patch(16), &end()]);
    assert_eq!(told(&over), (7, 19));
    let also_6 = join(&[&begun(3), &full, &patch(255), &end()]);
    assert_eq!(told(&also_6), (6, 19));
    let also_5 = join(&[&begun(3), &full, &patch(15), &end()]);
    assert_eq!(told(&also_5), (5, 19));
    let other = join(&[&begun(3), &full, &text(&[&[2, 2, 0, 0, 0]]), &end()]);
    assert_eq!(told(&other), (0, 0));
}

#[test]
fn number_7_comes_before_8() {
    let mut whole = text(&[&[1, 1]]);
    for patch in 0..17 {
        whole.extend(text(&[&[2, 0, 1, 0, patch]]));
    }
    assert_eq!(told(&join(&[&whole, &end()])), (7, 18));
}

#[test]
fn number_7_needs_of_a_version() {
    let need = text(&[&[5, 1, 1, 0, 0]]);
    let range = text(&[&[3, 2, 0, 0, 0, 1, 0, 0]]);
    let full = [need.repeat(8), range.repeat(8)].concat();
    assert_eq!(told(&join(&[&begun(3), &full, &end()])), (0, 0));
    for more in [&need, &range] {
        assert_eq!(told(&join(&[&begun(3), &full, more, &end()])), (7, 19));
    }
    let also_6 = text(&[&[5, 0, 1, 0, 0]]);
    assert_eq!(told(&join(&[&begun(3), &full, &also_6, &end()])), (6, 19));
}

#[test]
fn number_7_all_needs() {
    let need = text(&[&[3, 0, 0, 0, 0, 255, 255, 255]]);
    let mut whole = begun(6);
    for module in 1..5 {
        for patch in 0..16 {
            whole.extend(text(&[&[2, module, 1, 0, patch]]));
            whole.extend(need.repeat(16));
        }
    }
    let lines = whole.iter().filter(|&&byte| byte == b'\n').count() as u32;
    assert_eq!(lines, 2 + 64 * 17);
    assert_eq!(told(&join(&[&whole, &end()])), (0, 0));
    whole.extend(text(&[&[2, 5, 1, 0, 0]]));
    assert_eq!(told(&join(&[&whole, &end()])), (0, 0));
    assert_eq!(told(&join(&[&whole, &need, &end()])), (7, lines + 2));
}

#[test]
fn number_8_root() {
    assert_eq!(told(&text(&[&[1, 1], &[4]])), (8, 2));
    assert_eq!(told(&text(&[&[1, 2], &[2, 1, 1, 0, 0], &[4]])), (8, 3));
    assert_eq!(third_frame(&[2, 0, 1, 0, 1]), (8, 4));
}

#[test]
fn the_first_faulty_line_counts() {
    let whole = join(&[&begun(3), b"04FB\n", b"\n"]);
    assert_eq!(told(&whole), (3, 3));
    let whole = join(&[&begun(3), &text(&[&[2, 0, 1, 0, 0]]), b"04FB\n"]);
    assert_eq!(told(&whole), (5, 3));
}

#[test]
fn the_program_tells_number_and_line() {
    assert_eq!(answer_text(b""), b"1F050001DB\n");
    assert_eq!(answer_text(&vec![b'0'; 40_000]), b"1F010000E0\n");
    assert_eq!(answer_text(&text(&[&[1, 1], &[4]])), b"1F080002D7\n");
}
