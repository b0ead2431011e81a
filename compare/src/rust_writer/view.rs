//! What the Rust's writer shows after a call, and who is told of it.

use okaywal::entry::inside::OpenChunk;

use crate::{calls::WriterCall, difference::Verdict};

/// The Rust's numbers and bytes, after its known faults were undone.
#[derive(Debug, Clone, Default)]
pub struct View {
    pub id: u64,
    pub version_info: Vec<u8>,
    pub last: Option<u64>,
    /// The file position, as the field of that name.
    pub position: u64,
    /// The whole buffer: `staged` bytes, and the tail that a rollback left.
    pub buffer: Vec<u8>,
    pub staged: usize,
    pub synchronized: u64,
    pub moment: Moment,
    /// The file's bytes below the file position.
    pub below: Vec<u8>,
    /// The file's length without dropped bytes that were written out.
    pub file_length: u64,
    /// The file's length on disk.
    pub disk_length: u64,
    pub events: Events,
}

#[derive(Debug, Clone, Copy, Default, PartialEq, Eq)]
pub enum Moment {
    #[default]
    Idle,
    Entry {
        id: u64,
        start: u64,
    },
    Chunk {
        id: u64,
        start: u64,
        chunk: OpenChunk,
    },
}

/// What a call did inside the Rust.
#[derive(Debug, Clone, Copy, Default)]
pub struct Events {
    pub full_flushes: u64,
    pub direct_stores: u64,
    /// A flush counted an old tail, and the Rust was put back.
    pub tail_flushed: bool,
    /// A rollback or recycling wrote the dropped bytes out.
    pub dropped_written: bool,
    /// A rollback or recycling found its place inside the buffer.
    pub back_in_buffer: bool,
    /// `length` lies behind the file's true length.
    pub length_behind: bool,
}

impl View {
    pub fn logical(&self) -> u64 {
        self.position + self.staged as u64
    }

    pub fn staged_bytes(&self) -> &[u8] {
        &self.buffer[..self.staged]
    }

    pub fn tail(&self) -> &[u8] {
        &self.buffer[self.staged..]
    }
}

/// Who gives the calls, and is told what the Rust made of them.
pub trait Client {
    /// The file is open; `file` is all of it.
    fn opened(&mut self, view: &View, file: &[u8]) -> Verdict;
    /// The next call, which belongs to the present moment.
    fn next(&mut self, view: &View) -> Verdict<Option<WriterCall>>;
    fn told(&mut self, call: &WriterCall, answer: [u64; 4], view: &View) -> Verdict;
}
