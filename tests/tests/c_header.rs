//! The calls as a C program has them: `include/doxkarin.h` and the archive.

use std::path::{Path, PathBuf};
use std::process::Command;

fn repository() -> PathBuf {
    Path::new(env!("CARGO_MANIFEST_DIR")).join("..")
}

/// Compiles the C program against the header and the archive.
fn program() -> PathBuf {
    let program = Path::new(env!("CARGO_TARGET_TMPDIR")).join("small_plant");
    let output = Command::new("gcc")
        .args(["-std=c99", "-Wall", "-Wextra", "-Wpedantic", "-Werror", "-O2", "-I"])
        .arg(repository().join("include"))
        .arg(repository().join("tests/c/small_plant.c"))
        .arg(repository().join("target/staticlib/libdoxkarin.a"))
        .arg("-o")
        .arg(&program)
        .output()
        .expect("gcc can be started");
    assert!(output.status.success(), "{}", String::from_utf8_lossy(&output.stderr));
    program
}

#[test]
fn a_c_program_makes_the_four_calls() {
    let data = repository().join("crates/formcheck/data");
    let program = program();
    let run = |names: [&str; 3]| {
        let files = names.map(|name| data.join(name));
        let output =
            Command::new(&program).args(files).output().expect("the program can be started");
        assert!(output.status.success());
        String::from_utf8(output.stdout).expect("text")
    };
    assert_eq!(
        run(["plant.bin", "plan.bin", "slots.bin"]),
        "check 0 8650000\nslots 0 same\nplan 0 same\nroll 0 215 bytes, 1 mounted\n"
    );
    // Kind 4: the small plant with nothing mounted, and with B.
    assert_eq!(
        run(["plant-0-nothing-mounted.bin", "plan.bin", "slots.bin"]),
        "check 0 8650000\nslots 0 same\nplan 0 same\nroll 0 215 bytes, 1 mounted\n"
    );
    assert_eq!(
        run(["plant-0-mounted.bin", "plan.bin", "slots.bin"]),
        "check 33 0\nslots 33 different\nplan 0 different\nroll 33\n"
    );
    assert_eq!(
        run(["plant-3-weeks.bin", "plan.bin", "slots.bin"]),
        "check 3 0\nslots 3 different\nplan 3 different\nroll 3\n"
    );
    assert_eq!(
        run(["plant.bin", "plan-14-ran.bin", "slots-24-product.bin"]),
        "check 14 0\nslots 14 different\nplan 24 different\nroll 14\n"
    );
}
