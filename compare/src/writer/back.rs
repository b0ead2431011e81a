//! Back from bytes: what a fresh writer has committed is what both readers find in its image, cut at the logical
//! position.

use std::fs;

use okaywal::log_file::inside;

use super::ours::{Ours, IDLE};
use crate::{
    calls::{ReaderCall, WriterCall},
    difference::{same, Difference, Verdict},
    reader::ours::Ours as OurReader,
    rust_writer::Bench,
};

/// The entries committed since opening or recycling: id and number of chunks.
#[derive(Debug, Default)]
pub struct Committed {
    entries: Vec<(u64, u64)>,
    chunks: u64,
}

impl Committed {
    /// Takes note of an accepted call.
    pub fn note(&mut self, call: &WriterCall, answer: [u64; 4]) {
        match call {
            WriterCall::Begin(_) => self.chunks = 0,
            WriterCall::Finish => self.chunks += 1,
            WriterCall::Commit => self.entries.push((answer[0], self.chunks)),
            WriterCall::Recycle(_) => self.entries.clear(),
            _ => {}
        }
    }

    /// Reads an idle writer's segment back with both readers.
    pub fn check(&self, bench: &Bench, mut ours: Ours) -> Verdict<bool> {
        if ours.moment() != IDLE {
            return Ok(false);
        }
        same("flush", ours.call(&WriterCall::Flush).0, 0)?;
        let image = &ours.image[..ours.logical() as usize];
        same("entries that ours reads back", &read(image, ours.id())?, &self.entries)?;
        let path = bench.folder().join("back");
        fs::write(&path, image)?;
        let mut reader = inside::open(&path, ours.id())?;
        let mut found = Vec::new();
        while let Some(mut entry) = reader.read_entry()? {
            let id = entry.id().0;
            let chunks = entry.read_all_chunks()?.ok_or_else(|| Difference(format!("entry {id} is aborted")))?;
            found.push((id, chunks.len() as u64));
        }
        same("entries that the Rust reads back", &found, &self.entries)?;
        Ok(true)
    }
}

fn read(image: &[u8], id: u64) -> Verdict<Vec<(u64, u64)>> {
    let mut reader = OurReader::new(image);
    same("opening", reader.call(&ReaderCall::Open(id)).0, 0)?;
    let mut found = Vec::new();
    loop {
        let (number, entry) = reader.call(&ReaderCall::Entry);
        same("a call for an entry", number, 0)?;
        if entry[0] == 0 {
            return Ok(found);
        }
        let (number, whole) = reader.call(&ReaderCall::Whole);
        same("a call for a whole entry", (number, whole[0]), (0, 1))?;
        found.push((entry[1], whole[2]));
    }
}
