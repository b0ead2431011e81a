//! okaywal's log_file.rs, entry.rs, buffered.rs and to_io_result.rs, unchanged, inside a root of ours.
//!
//! The four files are compiled from the folder that build.rs found; no line of them is edited. This root has what they
//! name by `crate::`, without threads, folders and checkpoints. The modules `inside` stand beside their text and let
//! the harness see what is private there.

// The four files are not ours to tidy.
#![allow(dead_code, unused_imports, mismatched_lifetime_syntaxes, clippy::all)]

use std::{io, path::PathBuf, sync::Arc};

use parking_lot::Mutex;

pub use crate::{
    entry::{ChunkRecord, EntryId, EntryWriter, LogPosition},
    log_file::{Entry, EntryChunk, LogFile, ReadChunkResult, RecoveredSegment, SegmentReader},
};

pub mod buffered {
    include!(concat!(env!("OKAYWAL_SRC_FOLDER"), "/buffered.rs"));
}

pub mod entry {
    include!(concat!(env!("OKAYWAL_SRC_FOLDER"), "/entry.rs"));
    pub mod inside;
}

pub mod log_file {
    include!(concat!(env!("OKAYWAL_SRC_FOLDER"), "/log_file.rs"));
    pub mod inside;
}

mod to_io_result {
    include!(concat!(env!("OKAYWAL_SRC_FOLDER"), "/to_io_result.rs"));
}

/// The numbers of config.rs that the four files read.
#[derive(Debug, Clone)]
pub struct Configuration {
    pub directory: PathBuf,
    pub preallocate_bytes: u32,
    pub buffer_bytes: usize,
    pub version_info: Arc<Vec<u8>>,
}

/// Stands for lib.rs's log: it takes a file back after an entry and remembers the length reported with it. Unlike
/// lib.rs's it does not synchronize, so that a commit writes its 03 and nothing more.
#[derive(Debug, Default)]
pub struct WriteAheadLog {
    reported: Mutex<Option<u64>>,
}

impl WriteAheadLog {
    fn reclaim(&self, _file: LogFile, result: WriteResult) -> io::Result<()> {
        *self.reported.lock() = match result {
            WriteResult::Entry { new_length } => Some(new_length),
            WriteResult::RolledBack => None,
        };
        Ok(())
    }

    /// The length that came with the last file taken back; none after a rollback.
    pub fn reported(&self) -> Option<u64> {
        *self.reported.lock()
    }
}

#[derive(Clone, Copy)]
enum WriteResult {
    RolledBack,
    Entry { new_length: u64 },
}
