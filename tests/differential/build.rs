//! Links the archive of the C interface.

use std::{env, path::PathBuf, process};

fn main() {
    let here = env::var_os("CARGO_MANIFEST_DIR").expect("cargo names the crate's folder");
    let folder = PathBuf::from(here).join("../../build");
    let archive = folder.join("libaukpocket.a");
    println!("cargo:rerun-if-changed={}", archive.display());
    if !archive.is_file() {
        eprintln!(
            "There is no build/libaukpocket.a: \
             run `make build/libaukpocket.a` at the repository's root first."
        );
        process::exit(1);
    }
    println!("cargo:rustc-link-search=native={}", folder.display());
    println!("cargo:rustc-link-lib=static=aukpocket");
}
