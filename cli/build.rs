//! Links the proved static library, which has to be there before this project is built.

use std::env;
use std::path::PathBuf;
use std::process::exit;

fn main() {
    let project = env::var_os("CARGO_MANIFEST_DIR").expect("cargo names the project's folder");
    let folder = PathBuf::from(project).join("../build");
    let archive = folder.join("libaukpocket.a");
    println!("cargo:rerun-if-changed={}", archive.display());
    if !archive.is_file() {
        eprintln!(
            "The static library {} is missing: run `make` in the repository's root, which makes it.",
            archive.display()
        );
        exit(1);
    }
    println!("cargo:rustc-link-search=native={}", folder.display());
    println!("cargo:rustc-link-lib=static=aukpocket");
}
