//! Writes P1 to P13 and the small plant into the folder of the program `planreport`: the files, and what it has to print of the small plant.

use std::path::Path;
use std::process::ExitCode;
use std::{env, fs, io};

use doxkarin_tests::facts;

fn main() -> ExitCode {
    let mut arguments = env::args_os().skip(1);
    let (Some(folder), None) = (arguments.next(), arguments.next()) else {
        eprintln!("usage: facts FOLDER");
        return ExitCode::FAILURE;
    };
    match write(Path::new(&folder)) {
        Ok(()) => ExitCode::SUCCESS,
        Err(error) => {
            eprintln!("facts: {error}");
            ExitCode::FAILURE
        }
    }
}

fn write(folder: &Path) -> io::Result<()> {
    let data = folder.join("data");
    fs::create_dir_all(&data)?;
    for file in facts::files() {
        fs::write(data.join(&file.name), &file.bytes)?;
    }
    fs::write(folder.join("stdout"), facts::SMALL_TEXT)
}
