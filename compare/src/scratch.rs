//! A temporary folder for the Rust's files, in memory where the machine offers it; removed at the end.

use std::{
    env, fs, io,
    path::{Path, PathBuf},
    process,
};

pub struct Scratch(PathBuf);

impl Scratch {
    pub fn new() -> io::Result<Self> {
        let shared_memory = Path::new("/dev/shm");
        let parent = if shared_memory.is_dir() { shared_memory.to_path_buf() } else { env::temp_dir() };
        let folder = parent.join(format!("okaywal-compare-{}", process::id()));
        fs::create_dir_all(&folder)?;
        Ok(Self(folder))
    }

    pub fn folder(&self) -> &Path {
        &self.0
    }
}

impl Drop for Scratch {
    fn drop(&mut self) {
        // A folder left behind in memory is no reason to fail a run that is over.
        let _ = fs::remove_dir_all(&self.0);
    }
}
