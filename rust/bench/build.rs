//! Finds SQLite's C library and links it, with `cfg(sqlite)`. Without it that column is not measured.

use std::process::{Command, Stdio};
use std::{env, fs, path::PathBuf};

fn main() {
    println!("cargo::rerun-if-changed=build.rs");
    println!("cargo::rustc-check-cfg=cfg(sqlite)");
    if succeeds(Command::new("pkg-config").args(["--exists", "sqlite3"])) || links() {
        println!("cargo::rustc-cfg=sqlite");
        println!("cargo::rustc-link-lib=sqlite3");
    }
}

/// Whether a program links with -lsqlite3.
fn links() -> bool {
    let room = PathBuf::from(env::var_os("OUT_DIR").expect("cargo sets OUT_DIR"));
    let source = room.join("links.c");
    fs::write(
        &source,
        "int sqlite3_libversion_number(void);\nint main(void) { return !sqlite3_libversion_number(); }\n",
    )
    .expect("OUT_DIR can be written");
    succeeds(Command::new("cc").arg(&source).arg("-lsqlite3").arg("-o").arg(room.join("links")))
}

fn succeeds(command: &mut Command) -> bool {
    command.stdout(Stdio::null()).stderr(Stdio::null()).status().is_ok_and(|status| status.success())
}
