//! Links the report of a log in one call, which only this package makes. The wrapper links
//! the library.

use std::fs;
use std::path::Path;
use std::process::exit;

fn main() {
    let folder = Path::new("../../crates/w83782d_report_c/out");
    let archive = folder.join("libw83782d_report_c.a");
    println!("cargo:rerun-if-changed={}", archive.display());
    if !archive.is_file() {
        eprintln!(
            "bench: there is no {}.\n\
             Make it in crates/w83782d_report_c with `rt lib --cpu x86-64`.",
            archive.display()
        );
        exit(1);
    }
    // The linker is run in another folder than this script.
    let folder = fs::canonicalize(folder).expect("the archive's folder is there");
    println!("cargo:rustc-link-search=native={}", folder.display());
    println!("cargo:rustc-link-lib=static=w83782d_report_c");
}
