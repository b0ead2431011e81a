//! Full segments for the benchmark, written by the Rust and ours, and the ways through them.

use std::{fs, hint::black_box, path::Path};

use okaywal::{log_file::inside, EntryId, LogFile, ReadChunkResult};

use crate::{
    calls::Opening,
    difference::{same, Difference, Verdict},
    library::{self, Desk},
    reader::images::Image,
    rust_writer::{configuration, Bench},
};

pub const STAGING: usize = 16 * 1024;

/// A shape of segment: its size, its chunks' size, and how many of them an entry has.
#[derive(Clone, Copy)]
pub struct Shape {
    pub size: usize,
    pub chunk: usize,
    pub chunks: usize,
}

impl Shape {
    /// How many entries fit.
    pub fn entries(&self) -> usize {
        (self.size - 5) / (10 + self.chunks * (9 + self.chunk))
    }

    /// The segment's bytes, full of entries.
    pub fn image(&self) -> Vec<u8> {
        let data: Vec<u8> = (0..self.chunk).map(|at| at as u8).collect();
        let mut image = Image::header(&[]);
        for number in 0..self.entries() {
            image = image.entry(number as u64 + 1);
            for _ in 0..self.chunks {
                image = image.chunk(&data);
            }
            image = image.end();
        }
        let rest = self.size - image.0.len();
        image.zeros(rest).0
    }
}

/// The Rust reads every entry whole; the number of chunks.
pub fn rust_reads(path: &Path) -> Verdict<usize> {
    let mut reader = inside::open(path, 1)?;
    let mut chunks = 0;
    while let Some(mut entry) = reader.read_entry()? {
        let whole = entry.read_all_chunks()?.ok_or_else(|| Difference(String::from("an aborted entry")))?;
        chunks += black_box(whole).len();
    }
    Ok(chunks)
}

/// Ours reads every entry whole; the number of chunks.
pub fn ours_reads(image: &[u8]) -> Verdict<usize> {
    let (mut state, mut answer) = ([0; 10], [0; 4]);
    let mut number = library::reader_open(&mut state, image, 1);
    let mut chunks = 0;
    loop {
        number |= library::reader_entry(&mut state, image, &mut answer);
        if answer[0] == 0 {
            return same("ours reads", number, 0).map(|()| chunks);
        }
        number |= library::reader_whole(&mut state, image, &mut answer);
        chunks += answer[2] as usize;
    }
}

/// The Rust passes every chunk unread (by dropping it: its own skipping goes 4 bytes too far); the number of entries.
pub fn rust_skips(path: &Path) -> Verdict<usize> {
    let mut reader = inside::open(path, 1)?;
    let mut entries = 0;
    while let Some(mut entry) = reader.read_entry()? {
        while let ReadChunkResult::Chunk(chunk) = entry.read_chunk()? {
            drop(black_box(chunk));
        }
        entries += 1;
    }
    Ok(entries)
}

/// Ours passes every entry unread; the number of entries.
pub fn ours_skips(image: &[u8]) -> Verdict<usize> {
    let (mut state, mut answer) = ([0; 10], [0; 4]);
    let mut number = library::reader_open(&mut state, image, 1);
    let mut entries = 0;
    loop {
        number |= library::reader_entry(&mut state, image, &mut answer);
        if answer[0] == 0 {
            return same("ours skips", number, 0).map(|()| entries);
        }
        entries += 1;
    }
}

/// The Rust fills a segment; its length.
pub fn rust_appends(bench: &Bench, shape: Shape, data: &[u8]) -> Verdict<u64> {
    let file = rust_file(bench, shape)?;
    for number in 0..shape.entries() {
        let mut entry = okaywal::entry::inside::begin(bench.log(), number as u64 + 1, file.clone())?;
        for _ in 0..shape.chunks {
            entry.write_chunk(data)?;
        }
        same("an entry's id", entry.commit()?, EntryId(number as u64 + 1))?;
    }
    let mut writer = file.lock();
    std::io::Write::flush(&mut *writer)?;
    Ok(writer.position())
}

fn rust_file(bench: &Bench, shape: Shape) -> Verdict<LogFile> {
    let path = bench.folder().join("appended");
    fs::write(&path, [])?;
    let config = configuration(bench.folder(), shape.size as u32, STAGING, &[]);
    Ok(LogFile::write(1, path, 0, None, &config)?)
}

/// Ours fills a segment; its length.
pub fn ours_appends(shape: Shape, data: &[u8], image: &mut [u8], staging: &mut [u8]) -> Verdict<u64> {
    let (mut state, mut info, mut answer) = ([0; 16], [0; 255], [0; 4]);
    let mut desk = Desk { state: &mut state, info: &mut info, image, staging };
    let opening = Opening { id: 1, preallocate: shape.size as u64, ..Opening::default() };
    let mut number = library::writer_open(&mut desk, &opening);
    for id in 1..=shape.entries() as u64 {
        number |= library::writer_begin(&mut desk, id);
        for _ in 0..shape.chunks {
            number |= library::writer_begin_chunk(&mut desk, data.len() as u32);
            number |= library::writer_write(&mut desk, data, &mut answer);
            number |= library::writer_finish(&mut desk, &mut answer);
        }
        number |= library::writer_commit(&mut desk, &mut answer);
    }
    number |= library::writer_flush(&mut desk);
    same("ours appends", number, 0)?;
    Ok(state[5])
}
