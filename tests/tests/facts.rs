//! P1 to P13: the files that `planreport` reads, and what README.md, the library
//! and the second implementation say of each. Then the small plant with B mounted.

use std::fs;
use std::path::{Path, PathBuf};

use doxkarin_tests::model::Refusal;
use doxkarin_tests::{facts, library, machine, reference, report, small};

/// The folder of the program that reads them.
fn program() -> PathBuf {
    Path::new(env!("CARGO_MANIFEST_DIR")).join("../crates/planreport")
}

#[test]
fn the_folder_holds_the_facts() {
    let files = facts::files();
    let mut made: Vec<String> = files.iter().map(|file| file.name.clone()).collect();
    made.sort();
    let mut found: Vec<String> = fs::read_dir(program().join("data"))
        .expect("the data folder")
        .map(|entry| entry.expect("a folder entry").file_name().into_string().expect("a name"))
        .collect();
    found.sort();
    assert_eq!(found, made);

    for file in &files {
        let bytes =
            fs::read(program().join("data").join(&file.name)).expect("a file of the folder");
        assert!(bytes == file.bytes, "{} differs", file.name);
    }
    let stdout = fs::read_to_string(program().join("stdout")).expect("the file stdout");
    assert_eq!(stdout, facts::SMALL_TEXT);
}

#[test]
fn there_are_thirteen_facts() {
    let expected: [Option<Refusal>; 13] = [
        None,
        Some(41),
        Some(34),
        None,
        Some(35),
        None,
        Some(36),
        Some(39),
        Some(38),
        Some(39),
        None,
        Some(40),
        None,
    ];
    let facts = facts::all();
    assert_eq!(facts.iter().map(|fact| fact.answer.err()).collect::<Vec<_>>(), expected);
    assert!(facts.iter().map(|fact| fact.number).eq(1..=13));
}

/// A table row of README.md that begins with a plan: the plan, its plant, the
/// change and what is printed first.
#[test]
fn the_readme_lists_the_facts() {
    let path = Path::new(env!("CARGO_MANIFEST_DIR")).join("../README.md");
    let readme = fs::read_to_string(path).expect("the document");
    let mut listed = Vec::new();
    for line in readme.lines().filter(|line| line.starts_with("| p") && line.contains(".bin |")) {
        let cells: Vec<&str> = line.trim_matches('|').split('|').map(str::trim).collect();
        let [plan, plant, change, printed] = cells[..] else {
            panic!("{line}");
        };
        assert!(!change.is_empty(), "{line}");
        listed.push([plan, plant, printed.trim_matches('`')].map(str::to_string));
    }
    let made: Vec<[String; 3]> = facts::all()
        .iter()
        .map(|fact| {
            let printed = fact.text.lines().next().unwrap_or_default();
            [fact.plan_name(), fact.plant_name(), printed.to_string()]
        })
        .collect();
    assert_eq!(listed, made);
}

#[test]
fn the_library_gives_the_answers() {
    for fact in facts::all() {
        let (plant, plan) = (fact.plant.encode(), fact.plan.encode());
        assert_eq!(library::check(&plant, &plan), fact.answer, "P{}", fact.number);
    }
}

#[test]
fn the_second_implementation_gives_the_answers() {
    for fact in facts::all() {
        let (plant, plan) = (fact.plant.encode(), fact.plan.encode());
        assert_eq!(reference::check(&plant, &plan), fact.answer, "P{}", fact.number);
        assert_eq!(report::text(&plant, &plan), fact.text, "P{}", fact.number);
    }
}

/// The rules and the run answer alike, with the profit or the number.
#[test]
fn the_runs_give_the_answers() {
    let mut numbers = Vec::new();
    for fact in facts::all() {
        let Some(slots) = &fact.slots else { continue };
        let run = machine::run(&fact.plant, slots).map(|plan| plan.profit);
        assert_eq!(run, fact.answer, "P{}", fact.number);

        let (plant, slots, plan) = (fact.plant.encode(), slots.encode(), fact.plan.encode());
        let mut out = vec![0xa5; plan.len()];
        let written = library::plan(&plant, &slots, &mut out);
        assert_eq!(written, fact.answer.map(|_| plan.len()), "P{}", fact.number);
        assert!(written.is_err() || out == plan, "P{}", fact.number);
        numbers.push(fact.number);
    }
    // P2 and P3 are plans of no slots.
    assert_eq!(numbers, [1, 4, 5, 6, 7, 8, 9, 10, 11, 12, 13]);
}

#[test]
fn passing_facts_are_runs() {
    for fact in facts::all() {
        if fact.answer.is_ok() {
            let slots = reference::shown(fact.plant.sizes, &fact.plan);
            assert_eq!(machine::run(&fact.plant, &slots).as_ref(), Ok(&fact.plan));
            assert_eq!(Some(slots), fact.slots);
        }
    }
    assert_eq!(facts::all()[0].plan, small::plan());
}

/// With B mounted the same slots pay for the changeover from B to A, and neither
/// plant passes with the other's plan.
#[test]
fn the_small_plant_passes_with_b_mounted() {
    let (plant, plan) = (small::mounted_plant().encode(), small::mounted_plan().encode());
    assert_eq!(library::check(&plant, &plan), Ok(8_150_000));
    assert_eq!(reference::check(&plant, &plan), Ok(8_150_000));
    assert_eq!(report::text(&plant, &plan), facts::MOUNTED_TEXT);

    let slots = small::slots().encode();
    let mut out = vec![0xa5; plan.len()];
    assert_eq!(library::plan(&plant, &slots, &mut out), Ok(plan.len()));
    assert!(out == plan);
    let mut out = vec![0xa5; slots.len()];
    assert_eq!(library::slots(&plant, &plan, &mut out), Ok(slots.len()));
    assert!(out == slots);

    assert_eq!(library::check(&small::plant().encode(), &plan), Err(33));
    assert_eq!(library::check(&plant, &small::plan().encode()), Err(33));
}
