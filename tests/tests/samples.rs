//! The sample files that the Rattle programs read.

use std::fs;
use std::path::{Path, PathBuf};

use doxkarin_tests::model::Refusal;
use doxkarin_tests::{forms, samples, small};

/// The folder of the program that reads them.
fn program() -> PathBuf {
    Path::new(env!("CARGO_MANIFEST_DIR")).join("../crates/formcheck")
}

fn read(name: &str) -> Vec<u8> {
    fs::read(program().join("data").join(name)).unwrap_or_else(|error| panic!("{name}: {error}"))
}

fn read_text(name: &str) -> String {
    fs::read_to_string(program().join(name)).unwrap_or_else(|error| panic!("{name}: {error}"))
}

/// The number that the forms give a file of this name.
fn number(name: &str, file: &[u8]) -> Refusal {
    let plant = small::plant();
    let refusal = match name.split(['-', '.']).next() {
        Some("plant") => forms::read_plant(file).err(),
        Some("plan") => forms::read_plan(&plant, file).err(),
        Some("slots") => forms::read_slots(&plant, file).err(),
        _ => panic!("{name} is of no kind"),
    };
    refusal.unwrap_or(0)
}

#[test]
fn the_folder_holds_the_samples() {
    let samples = samples::all();

    let mut made: Vec<String> = samples.iter().map(|sample| sample.name.clone()).collect();
    made.sort();
    let mut found: Vec<String> = fs::read_dir(program().join("data"))
        .expect("the data folder")
        .map(|entry| entry.expect("a folder entry").file_name().into_string().expect("a name"))
        .collect();
    found.sort();
    assert_eq!(found, made);

    for sample in &samples {
        assert!(read(&sample.name) == sample.bytes, "{} differs", sample.name);
    }
    assert_eq!(read_text("args"), samples::arguments(&samples));
    assert_eq!(read_text("stdout"), samples::expected(&samples));
}

#[test]
fn the_forms_give_the_expected_numbers() {
    for line in read_text("stdout").lines() {
        let (name, expected) = line.split_once(' ').expect("a name and a number");
        assert_eq!(number(name, &read(name)).to_string(), expected, "{name}");
    }
}

#[test]
fn every_row_of_the_forms_has_a_sample() {
    let samples = samples::all();
    for row in (1..=5).chain(11..=14).chain(21..=24) {
        assert!(samples.iter().any(|sample| sample.number == row), "row {row}");
    }
}
