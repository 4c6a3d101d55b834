//! Writes the fuzzer's first inputs into a folder: the small plant, also with B mounted and with shut weeks, P1 to P13, the samples and
//! some random plants.

use std::path::Path;
use std::process::ExitCode;
use std::{env, fs, io};

use doxkarin_fuzz::input::Files;
use doxkarin_tests::model::{Plan, Plant, Slots};
use doxkarin_tests::random::Random;
use doxkarin_tests::rolls::{any_k, rate_list};
use doxkarin_tests::scenario::{greatest_sizes, sizes, Scenario};
use doxkarin_tests::{facts, following, samples, small};

fn main() -> ExitCode {
    let mut arguments = env::args_os().skip(1);
    let (Some(folder), None) = (arguments.next(), arguments.next()) else {
        eprintln!("usage: seeds FOLDER");
        return ExitCode::FAILURE;
    };
    match write(Path::new(&folder)) {
        Ok(()) => ExitCode::SUCCESS,
        Err(error) => {
            eprintln!("seeds: {error}");
            ExitCode::FAILURE
        }
    }
}

fn write(folder: &Path) -> io::Result<()> {
    fs::create_dir_all(folder)?;
    for (number, files) in all().iter().enumerate() {
        fs::write(folder.join(format!("seed-{number:03}")), files.join())?;
    }
    Ok(())
}

/// These files, rolled on after so many weeks with the plant's own rates.
fn files(plant: &Plant, plan: &Plan, slots: &Slots, k: u64) -> Files {
    Files {
        plant: plant.encode(),
        plan: plan.encode(),
        slots: slots.encode(),
        k,
        rates: rate_list(&plant.rates),
    }
}

fn all() -> Vec<Files> {
    let right = files(&small::plant(), &small::plan(), &small::slots(), 1);
    let with_b_mounted = files(&small::mounted_plant(), &small::mounted_plan(), &small::slots(), 1);
    let mut all = vec![right.clone(), with_b_mounted];
    for k in 0..=4 {
        all.push(files(&small::long_plant(), &small::long_plan(), &small::long_slots(), k));
    }
    for fact in facts::all() {
        let slots = fact.slots.unwrap_or_else(small::slots);
        all.push(files(&fact.plant, &fact.plan, &slots, 1));
    }
    let bytes = |sample: samples::Sample| sample.bytes;
    all.extend(samples::plants().into_iter().map(|s| Files { plant: bytes(s), ..right.clone() }));
    all.extend(samples::plans().into_iter().map(|s| Files { plan: bytes(s), ..right.clone() }));
    all.extend(samples::slots().into_iter().map(|s| Files { slots: bytes(s), ..right.clone() }));

    let mut random = Random::new(5);
    for turn in 0..64 {
        let sizes = if turn == 0 { greatest_sizes() } else { sizes(&mut random) };
        let Scenario { plant, slots } = Scenario::new(&mut random, sizes);
        let plan = following::plan(&plant, &slots);
        let k = any_k(&mut random, sizes.weeks);
        all.push(files(&plant, &plan, &slots, k));
    }
    all
}
