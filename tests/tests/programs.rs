//! The programs `planslots`, `planwrite` and `planroll`, run on files.

use std::fs;
use std::path::{Path, PathBuf};
use std::process::{Command, Output};

use doxkarin_tests::model::{OpeningLine, Plant};
use doxkarin_tests::random::Random;
use doxkarin_tests::rolls::{any_k, any_rates, rate_list};
use doxkarin_tests::scenario::{greatest_sizes, sizes, Scenario};
use doxkarin_tests::{facts, following, machine, reference, small};

/// What an output file holds before a program runs.
const OLD: &[u8] = b"as it was";

/// A folder of this test's own, without any file.
fn empty_folder(name: &str) -> PathBuf {
    let folder = Path::new(env!("CARGO_TARGET_TMPDIR")).join("programs").join(name);
    if folder.exists() {
        fs::remove_dir_all(&folder).expect("the folder of an earlier run");
    }
    fs::create_dir_all(&folder).expect("a folder for the test");
    folder
}

/// Runs a program in a folder.
fn run(program: &str, folder: &Path, arguments: &[&str]) -> Output {
    let path = Path::new(env!("CARGO_MANIFEST_DIR")).join("../target/bin").join(program);
    let path = path.canonicalize().unwrap_or_else(|error| {
        panic!("{}: {error}: run `tools/build` before this", path.display())
    });
    Command::new(path)
        .args(arguments)
        .current_dir(folder)
        .output()
        .expect("the program can be started")
}

/// Asserts what a program prints, and what it leaves in an output file that was there and makes of one that was not.
fn assert_gives(
    program: &str,
    name: &str,
    plant: &[u8],
    input: &[u8],
    expected: &Result<Vec<u8>, u32>,
) {
    let files = [("plant.bin", plant), ("input.bin", input)];
    assert_gives_of(program, name, &files, &["plant.bin", "input.bin"], expected);
}

/// The same of these files and arguments, the last of which is the output file.
fn assert_gives_of(
    program: &str,
    name: &str,
    files: &[(&str, &[u8])],
    arguments: &[&str],
    expected: &Result<Vec<u8>, u32>,
) {
    let folder = empty_folder(name);
    for (file, bytes) in files {
        fs::write(folder.join(file), bytes).expect("a file for the program");
    }
    fs::write(folder.join("old.bin"), OLD).expect("an output file");
    let text = match expected {
        Ok(file) => format!("written {}\n", file.len()),
        Err(number) => format!("refused {number}\n"),
    };
    for out in ["old.bin", "new.bin"] {
        let output = run(program, &folder, &[arguments, &[out]].concat());
        assert_eq!(String::from_utf8_lossy(&output.stdout), text, "{name}");
        assert!(output.stderr.is_empty(), "{name}");
        assert!(output.status.success(), "{name}");
    }
    let old = fs::read(folder.join("old.bin")).expect("the output file");
    match expected {
        Ok(file) => {
            assert!(old == *file, "{name}: the output file differs");
            let new = fs::read(folder.join("new.bin")).expect("a new output file");
            assert!(new == *file, "{name}: the new output file differs");
        }
        Err(_) => {
            assert!(old == OLD, "{name}: a refusal changed the output file");
            assert!(!folder.join("new.bin").exists(), "{name}: a refusal made a file");
        }
    }
    // The inputs are as they were.
    for (file, bytes) in files {
        assert!(fs::read(folder.join(file)).expect("the file") == *bytes, "{name} {file}");
    }
}

/// Asserts what `planroll` prints and leaves of these files, as the second
/// implementation has it.
fn assert_rolls(name: &str, plant: &[u8], plan: &[u8], k: u64, rates: &[u8]) {
    let expected = reference::rolled_plant_file(plant, plan, k, rates);
    let files = [("plant.bin", plant), ("plan.bin", plan), ("rates.bin", rates)];
    let arguments = ["plant.bin", "plan.bin", &k.to_string(), "rates.bin"];
    assert_gives_of("planroll", name, &files, &arguments, &expected);
}

#[test]
fn the_small_plant_goes_both_ways() {
    let (plant, slots, plan) =
        (small::plant().encode(), small::slots().encode(), small::plan().encode());
    assert_gives("planslots", "small-slots", &plant, &plan, &Ok(slots.clone()));
    assert_gives("planwrite", "small-plan", &plant, &slots, &Ok(plan));
}

#[test]
fn the_small_plant_goes_both_ways_with_b_mounted() {
    let (plant, slots, plan) =
        (small::mounted_plant().encode(), small::slots().encode(), small::mounted_plan().encode());
    assert_gives("planslots", "mounted-slots", &plant, &plan, &Ok(slots.clone()));
    assert_gives("planwrite", "mounted-plan", &plant, &slots, &Ok(plan));
}

#[test]
fn shut_weeks_go_both_ways() {
    let (plant, slots, plan) =
        (small::long_plant().encode(), small::long_slots().encode(), small::long_plan().encode());
    assert_gives("planslots", "shut-slots", &plant, &plan, &Ok(slots.clone()));
    assert_gives("planwrite", "shut-plan", &plant, &slots, &Ok(plan));
}

#[test]
fn the_small_plants_are_rolled_on() {
    for (name, plant, plan) in [
        ("small", small::plant(), small::plan()),
        ("mounted", small::mounted_plant(), small::mounted_plan()),
        ("shut", small::long_plant(), small::long_plan()),
    ] {
        let name = format!("{name}-roll");
        let (weeks, rates) = (plant.sizes.weeks as u64, rate_list(&plant.rates));
        let (plant, plan) = (plant.encode(), plan.encode());
        for k in (0..=weeks + 1).chain([256 + 1, (1 << 32) + 1, u64::MAX]) {
            assert_rolls(&name, &plant, &plan, k, &rates);
        }
        for rates in [rate_list(&[7, 100_000]), rate_list(&[0, 1]), Vec::new(), vec![1; 65_544]] {
            assert_rolls(&name, &plant, &plan, 1, &rates);
        }
    }
}

/// What is owed of B after the first week at the limit, and beyond it.
#[test]
fn what_is_owed_is_rolled_on_or_refused() {
    let mut slots = small::slots();
    slots.sales[2] = 0;
    let opening_line = Some(OpeningLine { mounted: 255, was_shut: 1 });
    for (owed, expected) in [(1_599_900_000, None), (1_599_900_001, Some(62))] {
        let plant = Plant { opening_backlog: vec![0, owed], opening_line, ..small::plant() };
        let plan = machine::run(&plant, &slots).expect("the run never stops");
        let (plant, plan, rates) = (plant.encode(), plan.encode(), rate_list(&[100, 50]));
        assert_eq!(reference::rolled_plant_file(&plant, &plan, 1, &rates).err(), expected);
        assert_rolls("owed", &plant, &plan, 1, &rates);
    }
}

#[test]
fn the_facts_are_returned_or_refused() {
    for fact in facts::all() {
        let (plant, plan) = (fact.plant.encode(), fact.plan.encode());
        let expected = reference::slot_file(&plant, &plan);
        assert_gives("planslots", &fact.plan_name(), &plant, &plan, &expected);
        if let Some(slots) = &fact.slots {
            let expected = fact.answer.map(|_| plan);
            assert_gives("planwrite", &fact.plan_name(), &plant, &slots.encode(), &expected);
        }
        let (plant, plan) = (fact.plant.encode(), fact.plan.encode());
        assert_rolls(&fact.plan_name(), &plant, &plan, 1, &rate_list(&fact.plant.rates));
    }
}

#[test]
fn random_files_are_written_or_refused() {
    let mut random = Random::new(6);
    let (mut written, mut refused) = (0, 0);
    for turn in 0..100 {
        let sizes = if turn % 20 == 0 { greatest_sizes() } else { sizes(&mut random) };
        let Scenario { plant, slots } = Scenario::new(&mut random, sizes);
        let (file, slot_file) = (plant.encode(), slots.encode());
        let plan = following::plan(&plant, &slots).encode();
        for (program, input, expected) in [
            ("planwrite", &slot_file, reference::plan_file(&file, &slot_file)),
            ("planslots", &plan, reference::slot_file(&file, &plan)),
        ] {
            match expected {
                Ok(_) => written += 1,
                Err(_) => refused += 1,
            }
            assert_gives(program, "random", &file, input, &expected);
        }
        let (k, rates) = (any_k(&mut random, sizes.weeks), any_rates(&mut random, &plant));
        assert_rolls("random", &file, &plan, k, &rates);
    }
    assert!(written > 0 && refused > 0, "{written} written, {refused} refused");
}

#[test]
fn missing_files_are_empty() {
    let folder = empty_folder("missing");
    for (program, number) in [("planslots", 11), ("planwrite", 21)] {
        let output = run(program, &folder, &["no-plant", "no-input", "out.bin"]);
        assert_eq!(String::from_utf8_lossy(&output.stdout), "refused 1\n", "{program}");
        fs::write(folder.join("plant.bin"), small::plant().encode()).expect("a plant file");
        let output = run(program, &folder, &["plant.bin", "no-input", "out.bin"]);
        let text = format!("refused {number}\n");
        assert_eq!(String::from_utf8_lossy(&output.stdout), text, "{program}");
        assert!(!folder.join("out.bin").exists(), "{program}");
    }
}

#[test]
fn missing_files_are_empty_to_planroll() {
    let folder = empty_folder("missing-roll");
    fs::write(folder.join("plant.bin"), small::plant().encode()).expect("a plant file");
    fs::write(folder.join("plan.bin"), small::plan().encode()).expect("a plan file");
    fs::write(folder.join("rates.bin"), rate_list(&[100, 50])).expect("a list of rates");
    for (plant, plan, rates, number) in [
        ("no-plant", "plan.bin", "rates.bin", 1),
        ("plant.bin", "no-plan", "rates.bin", 11),
        ("plant.bin", "plan.bin", "no-rates", 4),
    ] {
        let output = run("planroll", &folder, &[plant, plan, "1", rates, "out.bin"]);
        assert_eq!(String::from_utf8_lossy(&output.stdout), format!("refused {number}\n"));
        assert!(output.stderr.is_empty());
        assert!(!folder.join("out.bin").exists());
    }
}

#[test]
fn an_output_that_cannot_be_written_is_told() {
    let folder = empty_folder("unwritable");
    fs::write(folder.join("plant.bin"), small::plant().encode()).expect("a plant file");
    fs::write(folder.join("plan.bin"), small::plan().encode()).expect("a plan file");
    fs::write(folder.join("rates.bin"), rate_list(&[100, 50])).expect("a list of rates");
    for (program, arguments) in [
        ("planslots", &["plant.bin", "plan.bin", "no-folder/out.bin"][..]),
        ("planroll", &["plant.bin", "plan.bin", "1", "rates.bin", "no-folder/out.bin"]),
    ] {
        let output = run(program, &folder, arguments);
        assert!(output.stdout.is_empty(), "{program}");
        let text = String::from_utf8_lossy(&output.stderr).into_owned();
        assert_eq!(text, "the output file cannot be written\n", "{program}");
    }
}

#[test]
fn other_counts_of_arguments_write_nothing() {
    let folder = empty_folder("arguments");
    for program in ["planslots", "planwrite"] {
        for arguments in [&[][..], &["plant.bin", "input.bin"], &["a", "b", "c", "d"]] {
            let output = run(program, &folder, arguments);
            assert!(output.stdout.is_empty(), "{program} {arguments:?}");
            let text = String::from_utf8_lossy(&output.stderr).into_owned();
            assert!(text.starts_with(&format!("usage: {program} PLANT ")), "{text}");
        }
    }
    assert_eq!(fs::read_dir(&folder).expect("the folder").count(), 0);
}

/// Texts that are no decimal number of 64 bits. Some are 1 in 64 bits.
const NO_NUMBERS: [&str; 16] = [
    "",
    "x",
    "-1",
    "+1",
    "1x",
    "x1",
    "1.0",
    " 1",
    "1 ",
    "0x1",
    "1e0",
    "1,1",
    "18446744073709551616",
    "18446744073709551617",
    "184467440737095516161",
    "340282366920938463463374607431768211457",
];

/// Another count of arguments, and a K that is no decimal number of 64 bits.
#[test]
fn planroll_tells_its_usage() {
    let folder = empty_folder("usage");
    fs::write(folder.join("plant.bin"), small::plant().encode()).expect("a plant file");
    fs::write(folder.join("plan.bin"), small::plan().encode()).expect("a plan file");
    fs::write(folder.join("rates.bin"), rate_list(&[100, 50])).expect("a list of rates");
    let with_k = |k| vec!["plant.bin", "plan.bin", k, "rates.bin", "out.bin"];
    let right = with_k("1");
    let mut wrong: Vec<Vec<&str>> = NO_NUMBERS.into_iter().map(with_k).collect();
    wrong.extend((0..right.len()).map(|count| right[..count].to_vec()));
    wrong.push([&right[..], &["more"]].concat());
    for arguments in wrong {
        let output = run("planroll", &folder, &arguments);
        assert!(output.stdout.is_empty(), "{arguments:?}");
        let text = String::from_utf8_lossy(&output.stderr).into_owned();
        let usage = "usage: planroll PLANT PLAN K RATES OUT";
        assert!(text.starts_with(usage), "{arguments:?}: {text}");
        assert!(!folder.join("out.bin").exists(), "{arguments:?}");
    }
    assert_eq!(fs::read_dir(&folder).expect("the folder").count(), 3);

    // The greatest number of 64 bits is one.
    let output = run("planroll", &folder, &with_k("18446744073709551615"));
    assert_eq!(String::from_utf8_lossy(&output.stdout), "refused 61\n");
    assert!(output.stderr.is_empty());
}
