//! What the harness sees and does inside entry.rs: an open chunk keeps the file's lock and shows no number.

use std::{io, mem};

use super::{ChunkWriter, EntryId, EntryWriter, LogPosition};
use crate::{
    log_file::{LogFile, LogFileWriter},
    WriteAheadLog,
};

/// An open chunk's numbers.
#[derive(Debug, Clone, Copy, PartialEq, Eq)]
pub struct OpenChunk {
    pub file_id: u64,
    pub offset: u64,
    pub length: u32,
    pub owed: u32,
    pub crc: u32,
}

/// Begins an entry with an id of the caller's choice.
pub fn begin(log: &WriteAheadLog, id: u64, file: LogFile) -> io::Result<EntryWriter<'_>> {
    EntryWriter::new(log, EntryId(id), file)
}

pub fn numbers(chunk: &ChunkWriter<'_>) -> OpenChunk {
    OpenChunk {
        file_id: chunk.position.file_id,
        offset: chunk.position.offset,
        length: chunk.length,
        owed: chunk.bytes_remaining,
        crc: chunk.crc32,
    }
}

/// The file's writer, which the chunk holds locked.
pub fn writer<'c>(chunk: &'c mut ChunkWriter<'_>) -> &'c mut LogFileWriter {
    &mut chunk.file
}

/// `synchronize_locked` over the chunk's own lock: `synchronize` would wait for it for ever. The spare file's lock
/// stands in meanwhile.
pub fn synchronize<'a>(
    chunk: &mut ChunkWriter<'a>,
    file: &'a LogFile,
    spare: &'a LogFile,
    target: u64,
) -> io::Result<()> {
    let locked = mem::replace(&mut chunk.file, spare.lock());
    chunk.file = file.synchronize_locked(locked, target)?;
    Ok(())
}

/// Gives the lock back and writes no sum: the way out of a chunk that a rollback inside it needs.
pub fn set_aside(mut chunk: ChunkWriter<'_>) {
    chunk.finished = true;
}

pub fn position(file_id: u64, offset: u64) -> LogPosition {
    LogPosition { file_id, offset }
}

pub fn position_parts(position: LogPosition) -> (u64, u64) {
    (position.file_id, position.offset)
}

/// The logical position at which the entry began.
pub fn start(entry: &EntryWriter<'_>) -> u64 {
    entry.original_length
}
