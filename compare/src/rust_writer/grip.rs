//! The way to the Rust's `LogFileWriter`: through the file's lock, or through the open chunk that holds it.

use std::io;

use okaywal::{
    entry::{inside, ChunkWriter},
    log_file::LogFileWriter,
    LogFile,
};

pub enum Grip<'g, 'c> {
    Free,
    Chunk(&'g mut ChunkWriter<'c>),
}

impl<'c> Grip<'_, 'c> {
    pub fn with<R>(&mut self, file: &LogFile, run: impl FnOnce(&mut LogFileWriter) -> R) -> R {
        match self {
            Self::Free => run(&mut file.lock()),
            Self::Chunk(chunk) => run(inside::writer(chunk)),
        }
    }

    pub fn synchronize(&mut self, file: &'c LogFile, spare: &'c LogFile, target: u64) -> io::Result<()> {
        match self {
            Self::Free => file.synchronize(target),
            Self::Chunk(chunk) => inside::synchronize(chunk, file, spare, target),
        }
    }
}
