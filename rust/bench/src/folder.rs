//! A folder for files that only this run needs.

use std::path::PathBuf;
use std::sync::atomic::{AtomicUsize, Ordering};
use std::{env, fs, process};

/// New, and removed at the end. What is mapped from a file in it stays.
pub struct Folder(pub PathBuf);

impl Folder {
    pub fn new() -> Result<Folder, String> {
        /// Tests make several at once.
        static MADE: AtomicUsize = AtomicUsize::new(0);
        let number = MADE.fetch_add(1, Ordering::Relaxed);
        let folder = env::temp_dir().join(format!("mattuliyan-bench-{}-{number}", process::id()));
        fs::create_dir(&folder)
            .map_err(|error| format!("there was no room for files: {}: {error}", folder.display()))?;
        Ok(Folder(folder))
    }
}

impl Drop for Folder {
    fn drop(&mut self) {
        // Left over in the temporary folder it would do no harm.
        let _ = fs::remove_dir_all(&self.0);
    }
}
