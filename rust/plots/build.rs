//! Links the proved library, libexports.a, from the directory in PLOTS_LIB or from target/staticlib of the repository.

use std::path::{Path, PathBuf};
use std::{env, process};

fn main() {
    println!("cargo::rerun-if-changed=build.rs");
    println!("cargo::rerun-if-env-changed=PLOTS_LIB");
    let package = PathBuf::from(env::var_os("CARGO_MANIFEST_DIR").expect("cargo sets CARGO_MANIFEST_DIR"));
    let directory =
        env::var_os("PLOTS_LIB").map_or_else(|| package.join("../../target/staticlib"), |path| package.join(path));
    let archive = directory.join("libexports.a");
    println!("cargo::rerun-if-changed={}", archive.display());
    if !archive.is_file() {
        missing(&archive);
    }
    let directory = directory.canonicalize().unwrap_or(directory);
    println!("cargo::rustc-link-search=native={}", directory.display());
    println!("cargo::rustc-link-lib=static=exports");
}

fn missing(archive: &Path) -> ! {
    eprintln!("The proved library is not at {}.", archive.display());
    eprintln!("Build it with `rust/library` in the root of the repository, or set PLOTS_LIB to its directory.");
    process::exit(1)
}
