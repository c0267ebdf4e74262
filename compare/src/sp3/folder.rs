//! The folder of the files that the judge writes: target/compare/sp3.

use std::path::PathBuf;
use std::sync::atomic::{AtomicUsize, Ordering};
use std::{env, fs};

/// How many differing files were kept.
static KEPT: AtomicUsize = AtomicUsize::new(0);

/// The folder, made if it is not there; the judge itself lies in a folder beside it.
pub fn folder() -> PathBuf {
    let program = env::current_exe().expect("the judge knows its own path");
    let beside = program.ancestors().nth(2).expect("the judge is in target");
    let folder = beside.join("sp3");
    fs::create_dir_all(&folder).expect("the folder of files can be made");
    folder
}

/// Writes a file.
pub fn write(name: &str, bytes: &[u8]) -> PathBuf {
    let path = folder().join(name);
    fs::write(&path, bytes).expect("a file can be written");
    path
}

/// Keeps a file on which the answers differ, and says where.
pub fn keep_differing(bytes: &[u8]) -> String {
    let number = KEPT.fetch_add(1, Ordering::Relaxed);
    let path = write(&format!("differing-{number}.sp3"), bytes);
    path.display().to_string()
}
