//! A file for the time of a test, in the folder that cargo keeps for tests.

use std::path::{Path, PathBuf};
use std::sync::atomic::{AtomicUsize, Ordering};
use std::{fs, process};

/// The file is removed when this goes.
pub struct TempFile(PathBuf);

impl TempFile {
    /// A file of these bytes, whose name ends in this one.
    pub fn new(name: &str, bytes: &[u8]) -> Self {
        static COUNT: AtomicUsize = AtomicUsize::new(0);
        let count = COUNT.fetch_add(1, Ordering::Relaxed);
        let folder = Path::new(env!("CARGO_TARGET_TMPDIR"));
        fs::create_dir_all(folder).expect("the folder for files of tests");
        let path = folder.join(format!("{}-{count}-{name}", process::id()));
        fs::write(&path, bytes).expect("a file of a test");
        Self(path)
    }

    pub fn path(&self) -> &Path {
        &self.0
    }
}

impl Drop for TempFile {
    fn drop(&mut self) {
        let _ = fs::remove_file(&self.0);
    }
}
