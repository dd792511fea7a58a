//! The samples: what stands beside each is what the second picker says, what the archive says, and what the samples' program is held to.

mod common;

use common::{Sample, project, samples};
use compare::proved;
use second::calls::{SELECTION_AREA, SHEET_AREA, WORK_AREA, answer_frame};
use std::fs;

/// The answer of the archive as a program writes it.
fn proved_answer(text: &[u8]) -> Vec<u8> {
    let (mut selection, mut sheet) = ([0; SELECTION_AREA], [0; SHEET_AREA]);
    let answer = proved::pick(
        text,
        &mut selection,
        &mut sheet,
        &mut vec![0; WORK_AREA],
        480,
    );
    let length = usize::from(answer.length);
    match answer.number {
        0 => selection[..length].to_vec(),
        9 => sheet[..length].to_vec(),
        number => answer_frame(number, answer.line.into()),
    }
}

/// Whether an answer is a sheet or says that none is written: the second picker may find other lines then, or fewer.
fn is_refutation(answer: &[u8]) -> bool {
    answer.starts_with(b"20") || answer.starts_with(b"1F0A")
}

#[test]
fn the_archive_answers_them() {
    for Sample {
        name,
        catalogue,
        answer,
    } in samples()
    {
        assert_eq!(proved_answer(&catalogue), answer, "{name}");
    }
}

#[test]
fn the_second_picker_agrees() {
    for Sample {
        name,
        catalogue,
        answer,
    } in samples()
    {
        let other = second::answer_text(&catalogue);
        assert_eq!(is_refutation(&answer), is_refutation(&other), "{name}");
        if answer.starts_with(b"20") {
            assert_eq!(
                second::check(&catalogue, &answer, WORK_AREA).number,
                0,
                "{name}"
            );
        } else if !is_refutation(&answer) {
            assert_eq!(answer, other, "{name}");
        }
    }
}

#[test]
fn the_samples_program_is_held_to_them() {
    let named = |s: Sample| [s.name.as_bytes(), b"\n", &s.answer].concat();
    let wanted: Vec<u8> = samples().into_iter().flat_map(named).collect();
    assert_eq!(
        fs::read(project("crates/picker_samples/stdout")).unwrap(),
        wanted
    );
}

#[test]
fn they_are_the_programs_data() {
    let names = |folder: &str| {
        let files = fs::read_dir(project(folder)).unwrap();
        let mut names: Vec<_> = files.map(|file| file.unwrap().file_name()).collect();
        names.sort();
        names
    };
    let (copies, data) = ("samples", "crates/picker_samples/data");
    assert_eq!(names(copies), names(data));
    for name in names(data) {
        let read = |folder| fs::read(project(folder).join(&name)).unwrap();
        assert_eq!(read(copies), read(data), "{}", name.display());
    }
}

#[test]
fn none_is_left_out() {
    let files = fs::read_dir(project("samples")).unwrap();
    let is_catalogue = |name: &String| name.ends_with(".catalogue");
    let mut there: Vec<String> = files
        .map(|file| file.unwrap().file_name().into_string().unwrap())
        .filter(is_catalogue)
        .collect();
    let mut listed: Vec<String> = samples().into_iter().map(|sample| sample.name).collect();
    there.sort();
    listed.sort();
    assert_eq!(there, listed);
}
