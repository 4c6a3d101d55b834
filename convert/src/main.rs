//! `plantext`: plant files, slot files and lists of rates from text, and back to text.

#![forbid(unsafe_code)]

use std::env;
use std::ffi::OsString;
use std::fmt::Display;
use std::fs::{self, OpenOptions};
use std::io::{self, Write};
use std::path::{Path, PathBuf};
use std::process::{self, ExitCode};

use plantext::lines::Fault;
use plantext::model::{Names, Plant, Sizes};
use plantext::{binary, plant_text, rates_text, slots_text};

const USAGE: &str = "\
usage: plantext plant TEXT OUT           writes the plant file OUT from the plant's text
       plantext slots PLANT TEXT OUT     writes the slot file OUT from the text of its slots
       plantext rates PLANT TEXT OUT     writes the list of rates OUT from its text
       plantext show PLANT               prints a plant file as text
       plantext show PLANT SLOTS         prints a slot file as text
       plantext show PLANT ROLLED        prints the plant file ROLLED as text, with PLANT's names
       plantext show-rates PLANT RATES   prints a list of rates as text
PLANT is a plant file or the plant's text, which has the names.
";

fn main() -> ExitCode {
    let arguments: Vec<OsString> = env::args_os().skip(1).collect();
    let paths: Vec<&Path> = arguments.iter().skip(1).map(Path::new).collect();
    let command = arguments.first().and_then(|command| command.to_str());
    let result = match (command, paths.as_slice()) {
        (Some("plant"), &[text, out]) => convert_plant(text, out),
        (Some("slots"), &[plant, text, out]) => convert_slots(plant, text, out),
        (Some("rates"), &[plant, text, out]) => convert_rates(plant, text, out),
        (Some("show"), &[plant]) => show_plant(plant),
        (Some("show"), &[plant, file]) => show_with_names(plant, file),
        (Some("show-rates"), &[plant, rates]) => show_rates(plant, rates),
        _ => {
            eprint!("{USAGE}");
            return ExitCode::from(2);
        }
    };
    match result {
        Ok(()) => ExitCode::SUCCESS,
        Err(messages) => {
            for message in messages {
                eprintln!("{message}");
            }
            ExitCode::FAILURE
        }
    }
}

fn convert_plant(text: &Path, out: &Path) -> Result<(), Vec<String>> {
    let (plant, _) = plant_text::read(&read_file(text)?).map_err(|faults| tell(text, &faults))?;
    write_file(out, &[text], &binary::encode_plant(&plant))
}

fn convert_slots(plant: &Path, text: &Path, out: &Path) -> Result<(), Vec<String>> {
    let (numbers, names) = read_plant(plant)?;
    let slots = slots_text::read(numbers.sizes, &names, &read_file(text)?)
        .map_err(|faults| tell(text, &faults))?;
    write_file(out, &[plant, text], &binary::encode_slots(&slots))
}

fn convert_rates(plant: &Path, text: &Path, out: &Path) -> Result<(), Vec<String>> {
    let (_, names) = read_plant(plant)?;
    let rates =
        rates_text::read(&names, &read_file(text)?).map_err(|faults| tell(text, &faults))?;
    write_file(out, &[plant, text], &binary::encode_rates(&rates))
}

fn show_plant(plant: &Path) -> Result<(), Vec<String>> {
    let (numbers, names) = read_plant(plant)?;
    print(&plant_text::write(&numbers, &names))
}

/// Shows a slot file of the plant, or another plant file with the plant's names.
fn show_with_names(plant: &Path, file: &Path) -> Result<(), Vec<String>> {
    let (Plant { sizes, .. }, names) = read_plant(plant)?;
    let bytes = read_file(file)?;
    if !binary::is_plant(&bytes) {
        let slots =
            binary::decode_slots(sizes, &bytes).map_err(|refusal| tell_of(file, refusal))?;
        return print(&slots_text::write(sizes, &names, &slots));
    }
    let rolled = binary::decode_plant(&bytes).map_err(|refusal| tell_of(file, refusal))?;
    let counts = |sizes: Sizes| format!("{} and {}", sizes.products, sizes.customers);
    let (found, expected, plant) = (counts(rolled.sizes), counts(sizes), plant.display());
    if found != expected {
        let message = format!(
            "its counts of products and customers are {found}; expected {expected}, as in {plant}"
        );
        return Err(tell_of(file, message));
    }
    print(&plant_text::write(&rolled, &names))
}

fn show_rates(plant: &Path, rates: &Path) -> Result<(), Vec<String>> {
    let (Plant { sizes, .. }, names) = read_plant(plant)?;
    let numbers = binary::decode_rates(sizes, &read_file(rates)?)
        .map_err(|refusal| tell_of(rates, refusal))?;
    print(&rates_text::write(&names, &numbers))
}

/// Reads a plant with its names from a plant file or from the plant's text.
fn read_plant(path: &Path) -> Result<(Plant, Names), Vec<String>> {
    let bytes = read_file(path)?;
    if !binary::is_binary(&bytes) {
        return plant_text::read(&bytes).map_err(|faults| tell(path, &faults));
    }
    let plant = binary::decode_plant(&bytes).map_err(|refusal| tell_of(path, refusal))?;
    let names = Names::numbered(plant.sizes);
    Ok((plant, names))
}

fn tell(path: &Path, faults: &[Fault]) -> Vec<String> {
    let path = path.display();
    faults.iter().map(|fault| format!("{path}:{}: {}", fault.line, fault.message)).collect()
}

/// What is told of a whole file.
fn tell_of(path: &Path, message: impl Display) -> Vec<String> {
    vec![format!("{}: {message}", path.display())]
}

fn read_file(path: &Path) -> Result<Vec<u8>, Vec<String>> {
    fs::read(path).map_err(|error| tell_of(path, format!("cannot be read: {error}")))
}

fn print(text: &str) -> Result<(), Vec<String>> {
    let mut output = io::stdout().lock();
    let printed = output.write_all(text.as_bytes()).and_then(|()| output.flush());
    printed.map_err(|error| vec![format!("the text cannot be printed: {error}")])
}

/// Writes a file whole or leaves it as it was, and never over an input.
fn write_file(path: &Path, inputs: &[&Path], bytes: &[u8]) -> Result<(), Vec<String>> {
    // A link is followed, so that what it leads to is replaced and not the link.
    let target = fs::canonicalize(path).unwrap_or_else(|_| path.to_path_buf());
    let is_input = |input: &&Path| fs::canonicalize(input).is_ok_and(|input| input == target);
    if inputs.iter().any(is_input) {
        return Err(tell_of(path, "is read from; expected another file to write to"));
    }
    let written = match fs::metadata(&target) {
        Ok(found) if !found.is_file() => fs::write(&target, bytes),
        _ => replace_file(&target, bytes),
    };
    written.map_err(|error| tell_of(path, format!("cannot be written: {error}")))
}

/// Writes beside the file first, so that the file is never half written.
fn replace_file(path: &Path, bytes: &[u8]) -> io::Result<()> {
    let mut name = path.file_name().unwrap_or_default().to_os_string();
    name.push(format!(".{}.partial", process::id()));
    let beside: PathBuf = path.with_file_name(name);
    let mut file = OpenOptions::new().write(true).create_new(true).open(&beside)?;
    let replaced = file
        .write_all(bytes)
        .and_then(|()| file.sync_all())
        .and_then(|()| fs::rename(&beside, path));
    if replaced.is_err() {
        // The first error is the one to tell.
        let _ = fs::remove_file(&beside);
    }
    replaced
}
