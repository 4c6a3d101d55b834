//! Compares the library with the second implementation on random files: `differential SEED CASES`. It prints how often each call
//! returned each number. At a difference it writes the files into the current folder and ends with status 1.

use std::process::ExitCode;
use std::{env, fs, io};

use doxkarin_tests::differential::{self, Input, Rolling};

fn main() -> ExitCode {
    let numbers: Option<Vec<u64>> =
        env::args().skip(1).map(|argument| argument.parse().ok()).collect();
    let Some(&[seed, cases]) = numbers.as_deref() else {
        eprintln!("usage: differential SEED CASES");
        return ExitCode::FAILURE;
    };
    match differential::run(seed, cases) {
        Ok(counts) => {
            println!("{counts}, no difference");
            ExitCode::SUCCESS
        }
        Err(difference) => {
            println!("{difference}");
            match write(&difference.input) {
                Ok(names) => println!("its files: {}", names.join(", ")),
                Err(error) => eprintln!("differential: {error}"),
            }
            ExitCode::FAILURE
        }
    }
}

/// Writes what a call reads: the names of its files. That of k has it in decimal.
fn write(input: &Input) -> io::Result<Vec<&'static str>> {
    let mut files = vec![
        ("difference-plant.bin", input.plant.to_vec()),
        ("difference-input.bin", input.file.to_vec()),
    ];
    if let Some(Rolling { k, rates }) = &input.rolling {
        files.push(("difference-rates.bin", rates.to_vec()));
        files.push(("difference-k.txt", k.to_string().into_bytes()));
    }
    for (name, bytes) in &files {
        fs::write(name, bytes)?;
    }
    Ok(files.iter().map(|&(name, _)| name).collect())
}
