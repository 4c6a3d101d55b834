//! Links the proved archive, which `tools/build` puts there.

use std::env;
use std::path::Path;
use std::process::exit;

fn main() {
    let package = env::var("CARGO_MANIFEST_DIR").expect("cargo names the package's folder");
    let folder = Path::new(&package).join("../target/staticlib");
    let archive = folder.join("libdoxkarin.a");
    println!("cargo:rerun-if-changed={}", archive.display());
    if !archive.is_file() {
        eprintln!("{} is not there: run `tools/build` first", archive.display());
        exit(1);
    }
    println!("cargo:rustc-link-search=native={}", folder.display());
    println!("cargo:rustc-link-lib=static=doxkarin");
}
