//! Links the proved archive, which needs no other library.

use std::env;
use std::fs;
use std::path::PathBuf;
use std::process::exit;

/// Names the folder of the archive, where it is not the one in which `rt lib` leaves it.
const FOLDER: &str = "W83782D_LIB_DIR";

fn main() {
    let folder = env::var_os(FOLDER).map_or("../crates/w83782d_c/out".into(), PathBuf::from);
    let archive = folder.join("libw83782d_c.a");
    println!("cargo:rerun-if-env-changed={FOLDER}");
    println!("cargo:rerun-if-changed={}", archive.display());
    if !archive.is_file() {
        eprintln!(
            "w83782d: there is no {}.\n\
             Make it in crates/w83782d_c with `rt lib --cpu x86-64`, or name the folder that \
             has it in {FOLDER}.",
            archive.display()
        );
        exit(1);
    }
    // The linker is run in another folder than this script.
    let folder = fs::canonicalize(folder).expect("the archive's folder has a full path");
    println!("cargo:rustc-link-search=native={}", folder.display());
    println!("cargo:rustc-link-lib=static=w83782d_c");
}
