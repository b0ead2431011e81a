//! What the harness sees and does inside log_file.rs: a reader's place and numbers, with an entry or a chunk open.

use std::{
    io::{self, Seek, SeekFrom},
    path::Path,
};

use super::{Entry, EntryChunk, SegmentReader};
use crate::entry::EntryId;

/// A reader's numbers.
#[derive(Debug, Clone, PartialEq, Eq)]
pub struct ReaderNumbers {
    pub place: u64,
    pub valid_until: u64,
    pub current: Option<u64>,
}

pub fn open(path: &Path, file_id: u64) -> io::Result<SegmentReader> {
    SegmentReader::new(path, file_id)
}

pub fn version_info(reader: &SegmentReader) -> &[u8] {
    &reader.header.version_info
}

pub fn numbers(reader: &mut SegmentReader) -> io::Result<ReaderNumbers> {
    Ok(ReaderNumbers {
        place: reader.file.stream_position()?,
        valid_until: reader.valid_until,
        current: reader.current_entry_id.map(|id| id.0),
    })
}

/// Puts a reader back to numbers that it had.
pub fn restore(reader: &mut SegmentReader, numbers: &ReaderNumbers) -> io::Result<()> {
    reader.file.seek(SeekFrom::Start(numbers.place))?;
    reader.valid_until = numbers.valid_until;
    reader.current_entry_id = numbers.current.map(EntryId);
    Ok(())
}

pub fn put_at(reader: &mut SegmentReader, place: u64) -> io::Result<()> {
    reader.file.seek(SeekFrom::Start(place)).map(|_| ())
}

/// No entry is current any more: the next call for one reads where the reader stands.
pub fn forget_entry(reader: &mut SegmentReader) {
    reader.current_entry_id = None;
}

/// The entry that is current, to be gone on with.
pub fn current_entry(reader: &mut SegmentReader) -> Option<Entry<'_>> {
    let id = reader.current_entry_id?;
    Some(Entry { id, reader })
}

pub fn entry_reader<'a>(entry: &'a mut Entry<'_>) -> &'a mut SegmentReader {
    entry.reader
}

pub fn chunk_reader<'a>(chunk: &'a mut EntryChunk<'_, '_>) -> &'a mut SegmentReader {
    chunk.entry.reader
}
