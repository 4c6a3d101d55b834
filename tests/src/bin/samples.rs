//! Writes the sample files into the folder of the program `formcheck`: the files, its arguments, and what it has to print.

use std::path::Path;
use std::process::ExitCode;
use std::{env, fs, io};

use doxkarin_tests::samples;

fn main() -> ExitCode {
    let mut arguments = env::args_os().skip(1);
    let (Some(folder), None) = (arguments.next(), arguments.next()) else {
        eprintln!("usage: samples FOLDER");
        return ExitCode::FAILURE;
    };
    match write(Path::new(&folder)) {
        Ok(()) => ExitCode::SUCCESS,
        Err(error) => {
            eprintln!("samples: {error}");
            ExitCode::FAILURE
        }
    }
}

fn write(folder: &Path) -> io::Result<()> {
    let samples = samples::all();
    let data = folder.join("data");
    fs::create_dir_all(&data)?;
    for sample in &samples {
        fs::write(data.join(&sample.name), &sample.bytes)?;
    }
    fs::write(folder.join("args"), samples::arguments(&samples))?;
    fs::write(folder.join("stdout"), samples::expected(&samples))
}
