//! Finds the archive of the proved functions and links it.

use std::env;
use std::path::PathBuf;
use std::process::exit;

fn main() {
    println!("cargo:rerun-if-env-changed=KELOMPURIS_LIB_DIR");
    let folder = match env::var_os("KELOMPURIS_LIB_DIR") {
        Some(folder) => PathBuf::from(folder),
        None => PathBuf::from(env!("CARGO_MANIFEST_DIR")).join("../../target/staticlib"),
    };
    let archive = folder.join("libkelompuris_c.a");
    println!("cargo:rerun-if-changed={}", archive.display());
    if !archive.is_file() {
        eprintln!("There is no {}.", archive.display());
        eprintln!("Make it with rust/build-lib, which needs `rt`,");
        eprintln!("or name the folder that has it in KELOMPURIS_LIB_DIR.");
        exit(1);
    }
    println!("cargo:rustc-env=KELOMPURIS_ARCHIVE={}", archive.display());
    println!("cargo:rustc-link-search=native={}", folder.display());
    println!("cargo:rustc-link-lib=static=kelompuris_c");
}
