//! The program `planreport`, run on files.

use std::ffi::OsStr;
use std::fs;
use std::path::{Path, PathBuf};
use std::process::{Command, Output};

use doxkarin_tests::layout::Parts;
use doxkarin_tests::model::{Kind, OpeningLine, Plant, Slot, Slots, Storage};
use doxkarin_tests::random::Random;
use doxkarin_tests::scenario::{greatest_sizes, sizes, Scenario};
use doxkarin_tests::{facts, following, machine, report, samples, small};

fn repository() -> PathBuf {
    Path::new(env!("CARGO_MANIFEST_DIR")).join("..")
}

fn data() -> PathBuf {
    repository().join("crates/planreport/data")
}

/// A folder of this test's own, without any file.
fn empty_folder(name: &str) -> PathBuf {
    let folder = Path::new(env!("CARGO_TARGET_TMPDIR")).join("planreport").join(name);
    if folder.exists() {
        fs::remove_dir_all(&folder).expect("the folder of an earlier run");
    }
    fs::create_dir_all(&folder).expect("a folder for the test");
    folder
}

/// Runs the program in a folder.
fn run(folder: &Path, arguments: &[&OsStr]) -> Output {
    let program = repository().join("target/bin/planreport");
    let program = program.canonicalize().unwrap_or_else(|error| {
        panic!("{}: {error}: run `tools/build` before this", program.display())
    });
    Command::new(program)
        .args(arguments)
        .current_dir(folder)
        .output()
        .expect("planreport can be started")
}

/// Runs the program, and asserts that it prints this text and nothing else.
fn assert_prints(folder: &Path, arguments: &[&OsStr], text: &str) {
    let output = run(folder, arguments);
    assert_eq!(String::from_utf8_lossy(&output.stdout), text, "{arguments:?}");
    assert!(output.stderr.is_empty(), "{arguments:?}");
    assert!(output.status.success(), "{arguments:?}");
}

/// Writes two files, and asserts what the program prints of them.
fn assert_prints_of(name: &str, plant: &[u8], plan: &[u8], text: &str) {
    assert_eq!(report::text(plant, plan), text, "{name}");
    let folder = empty_folder(name);
    fs::write(folder.join("one.bin"), plant).expect("a plant file");
    fs::write(folder.join("other.bin"), plan).expect("a plan file");
    assert_prints(&folder, &["one.bin".as_ref(), "other.bin".as_ref()], text);
}

#[test]
fn the_small_plant_has_five_lines() {
    assert_prints(&data(), &[], facts::SMALL_TEXT);
    assert_prints(&data(), &["plant.bin".as_ref(), "plan.bin".as_ref()], facts::SMALL_TEXT);
}

#[test]
fn the_facts_are_printed() {
    for fact in facts::all() {
        let (plant, plan) = (fact.plant_name(), fact.plan_name());
        assert_prints(&data(), &[plant.as_ref(), plan.as_ref()], fact.text);
    }
}

#[test]
fn a_shut_week_has_no_line() {
    let (plant, plan) = (small::long_plant(), small::long_plan());
    let text = "\
passed 6650000
1 0 0 0 5000
1 1 40 5040 7040
4 0 30 30 2030
";
    assert_prints_of("shut", &plant.encode(), &plan.encode(), text);

    // With every week shut the profit is the only line.
    let slots = Slots::from_rows(&vec![Vec::new(); 4], vec![0; plant.demand.len()]);
    let plan = machine::run(&plant, &slots).expect("the run never stops");
    assert_prints_of("all-shut", &plant.encode(), &plan.encode(), "passed -5400000\n");
}

#[test]
fn the_first_changeover_has_its_minutes() {
    let (plant, plan) = (small::mounted_plant(), small::mounted_plan());
    assert_prints_of("mounted", &plant.encode(), &plan.encode(), facts::MOUNTED_TEXT);

    // With A mounted or nothing, the first run needs no changeover.
    for mounted in [0, 255] {
        let line = OpeningLine { mounted, was_shut: 1 };
        let plant = Plant { opening_line: Some(line), ..small::plant() };
        let plan = machine::run(&plant, &small::slots()).expect("the run never stops");
        assert_prints_of("no-changeover", &plant.encode(), &plan.encode(), facts::SMALL_TEXT);
    }

    // Shut weeks before the first run leave it as it is.
    let line = OpeningLine { mounted: 1, was_shut: 0 };
    let plant = Plant { opening_line: Some(line), ..small::long_plant() };
    let run = Slot { product: 0, minutes: 2000 };
    let rows = [vec![], vec![], vec![run], vec![run]];
    let slots = Slots::from_rows(&rows, vec![0; plant.demand.len()]);
    let plan = machine::run(&plant, &slots).expect("the run never stops");
    let text = format!("passed {}\n3 0 30 30 2030\n4 0 0 0 2000\n", plan.profit);
    assert_prints_of("mounted-shut", &plant.encode(), &plan.encode(), &text);
}

#[test]
fn a_path_names_a_file() {
    let (plant, plan) = (data().join("plant.bin"), data().join("p11.bin"));
    let folder = empty_folder("path");
    assert_prints(&folder, &[plant.as_ref(), plan.as_ref()], facts::SMALL_TEXT);
}

#[test]
fn an_unreadable_file_reads_as_empty() {
    let (plant, plan, missing) = ("plant.bin".as_ref(), "plan.bin".as_ref(), "missing".as_ref());
    assert_prints(&data(), &[missing, plan], "refused 1\n");
    assert_prints(&data(), &[plant, missing], "refused 11\n");
    assert_prints(&data(), &[missing, missing], "refused 1\n");
    assert_prints(&data(), &["".as_ref(), plan], "refused 1\n");
    assert_prints(&data(), &[plant, "".as_ref()], "refused 11\n");
    // A folder can be opened and not read.
    assert_prints(&data(), &[".".as_ref(), plan], "refused 1\n");
    assert_prints(&data(), &[plant, ".".as_ref()], "refused 11\n");
}

#[test]
fn without_arguments_missing_files_are_empty() {
    let folder = empty_folder("missing");
    assert_prints(&folder, &[], "refused 1\n");
    fs::write(folder.join("plant.bin"), small::plant().encode()).expect("a plant file");
    assert_prints(&folder, &[], "refused 11\n");
    fs::write(folder.join("plan.bin"), small::plan().encode()).expect("a plan file");
    assert_prints(&folder, &[], facts::SMALL_TEXT);
}

#[test]
fn files_are_told_apart_by_their_place() {
    let (plant, plan) = ("plant.bin".as_ref(), "plan.bin".as_ref());
    assert_prints(&data(), &[plan, plant], "refused 1\n");
    assert_prints(&data(), &[plant, plant], "refused 11\n");
}

#[test]
fn other_counts_of_arguments_are_not_a_report() {
    let plant: &OsStr = "plant.bin".as_ref();
    for arguments in [&[plant][..], &[plant; 3]] {
        let output = run(&data(), arguments);
        assert!(output.stdout.is_empty(), "{arguments:?}");
        assert!(!output.stderr.is_empty(), "{arguments:?}");
    }
}

#[test]
fn a_loss_is_printed_with_a_minus() {
    let mut plant = small::plant();
    plant.prices.fill(0);
    // Backlog 50,000 at 3, inventory 100,000 at 1, changeovers 1100 cents.
    let text = facts::SMALL_TEXT.replace("passed 8650000", "passed -1350000");
    let mut plan = small::plan();
    plan.profit = -1_350_000;
    assert_prints_of("loss", &plant.encode(), &plan.encode(), &text);

    plant.backlog_costs.fill(0);
    plant.inventory_costs.fill(0);
    plant.changeover_cents.fill(0);
    plan.profit = 0;
    let text = facts::SMALL_TEXT.replace("passed 8650000", "passed 0");
    assert_prints_of("nothing", &plant.encode(), &plan.encode(), &text);
}

/// A file whose contents end it at this length, by a last body that is too long.
fn stretched(kind: Kind, first: u8, mut bodies: Vec<Vec<u8>>, length: usize) -> Vec<u8> {
    let missing = length - Parts::new(kind, first, &bodies).bytes().len();
    let last = bodies.last_mut().expect("a file has sections");
    last.resize(last.len() + missing, 0);
    Parts::new(kind, first, &bodies).bytes()
}

#[test]
fn files_are_read_as_far_as_65_536_bytes() {
    let (plant, plan) = (small::plant(), small::plan());

    // What follows is not read, so that the last body ends the file and only its length is wrong.
    let mut long = stretched(Kind::Plant, 1, plant.bodies(), 65_536);
    assert_prints_of("plant-full", &long, &plan.encode(), "refused 4\n");
    long.extend([0; 100_000]);
    assert_prints_of("plant-beyond", &long, &plan.encode(), "refused 4\n");
    let cut = stretched(Kind::Plant, 1, plant.bodies(), 65_537);
    assert_prints_of("plant-cut", &cut, &plan.encode(), "refused 2\n");

    let mounted = small::mounted_plant();
    let long = stretched(mounted.kind(), 1, mounted.bodies(), 65_536);
    assert_prints_of("mounted-full", &long, &plan.encode(), "refused 4\n");
    let cut = stretched(mounted.kind(), 1, mounted.bodies(), 65_537);
    assert_prints_of("mounted-cut", &cut, &plan.encode(), "refused 2\n");

    let mut long = stretched(Kind::Plan, 21, plan.bodies(), 65_536);
    assert_prints_of("plan-full", &plant.encode(), &long, "refused 13\n");
    long.push(0);
    assert_prints_of("plan-beyond", &plant.encode(), &long, "refused 13\n");
    let cut = stretched(Kind::Plan, 21, plan.bodies(), 65_537);
    assert_prints_of("plan-cut", &plant.encode(), &cut, "refused 12\n");
}

#[test]
fn random_plans_are_printed() {
    let mut random = Random::new(4);
    let (mut passed, mut refused) = (0, 0);
    for turn in 0..200 {
        let sizes = if turn % 20 == 0 { greatest_sizes() } else { sizes(&mut random) };
        let Scenario { plant, slots } = Scenario::new(&mut random, sizes);
        let plan = following::plan(&plant, &slots);
        let text = report::text(&plant.encode(), &plan.encode());
        if text.starts_with("passed") {
            passed += 1;
        } else {
            refused += 1;
        }
        assert_prints_of("random", &plant.encode(), &plan.encode(), &text);
    }
    assert!(passed > 0 && refused > 0, "{passed} passed, {refused} refused");
}

#[test]
fn the_longest_report_is_printed() {
    let sizes = greatest_sizes();
    let mut plant = samples::least_plant(sizes);
    plant.week_minutes = 10_080;
    plant.storage.fill(Storage { least: 0, greatest: 4_000_000_000 });
    plant.changeover_minutes.fill(100);
    for product in 0..sizes.products {
        plant.changeover_minutes[sizes.from_to(product, product)] = 0;
    }
    // The early starts are far into the week.
    let minutes = |product| if product == 0 { 8000 } else { 30 };
    let row: Vec<Slot> =
        (0..16).map(|product| Slot { product, minutes: minutes(product) }).collect();
    let sales = vec![0; sizes.customers * sizes.products * sizes.weeks];
    let slots = Slots::from_rows(&vec![row; sizes.weeks], sales);
    let plan = machine::run(&plant, &slots).expect("the run never stops");

    let text = report::text(&plant.encode(), &plan.encode());
    assert_eq!(text.lines().count(), 1 + 26 * 16);
    assert_prints_of("longest", &plant.encode(), &plan.encode(), &text);
}
