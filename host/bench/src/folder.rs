//! A folder for the files of a run.

use std::env;
use std::fs;
use std::path::{Path, PathBuf};
use std::process;

/// A folder that is removed, with what is in it, when it is no longer used.
pub struct Folder(PathBuf);

impl Folder {
    pub fn new() -> Folder {
        let path = env::temp_dir().join(format!("w83782d-bench-{}", process::id()));
        fs::create_dir_all(&path).expect("a folder for files");
        Folder(path)
    }

    pub fn path(&self) -> &Path {
        &self.0
    }
}

impl Drop for Folder {
    fn drop(&mut self) {
        // What is left is in the way of nothing.
        let _ = fs::remove_dir_all(&self.0);
    }
}
