//! The client that holds our writer to the Rust's, after every call.

use super::{
    back::Committed,
    expected,
    ours::{Ours, IDLE, IN_CHUNK, IN_ENTRY},
    spoil, Source,
};
use crate::{
    calls::WriterCall,
    cover::Cover,
    difference::{holds, same, same_bytes, Verdict},
    rng::Rng,
    rust_writer::{Client, Moment, View},
};

pub struct Comparer<'a> {
    pub ours: Ours,
    pub source: &'a mut dyn Source,
    pub spoiling: &'a mut Rng,
    pub cover: &'a mut Cover,
    pub calls: Vec<String>,
    pub committed: Committed,
    answer: [u64; 4],
}

impl<'a> Comparer<'a> {
    pub fn new(ours: Ours, source: &'a mut dyn Source, spoiling: &'a mut Rng, cover: &'a mut Cover) -> Self {
        Self { ours, source, spoiling, cover, calls: Vec::new(), committed: Committed::default(), answer: [0; 4] }
    }

    /// Asks ours; true where the Rust is to be asked too.
    fn ask_ours(&mut self, call: &WriterCall) -> Verdict<bool> {
        let expected = expected::number(&self.ours, call);
        let before = (expected != 0).then(|| self.ours.clone());
        let synchronized = self.ours.synchronized();
        let (number, answer) = self.ours.call(call);
        same("number of refusal", number, expected)?;
        self.cover.count_call(call.name(), number);
        if let Some(before) = before {
            holds("a refused call changes nothing", self.ours == before)?;
            same("answers beside a refusal", answer, [0; 4])?;
            return Ok(false);
        }
        if let WriterCall::Sync(target) = call {
            let row = if synchronized >= *target { "sync with nothing to do" } else { "sync that moves the number" };
            self.cover.count(row);
        }
        self.answer = answer;
        Ok(true)
    }

    fn maybe_spoil(&mut self, call: &WriterCall) -> Verdict {
        if self.spoiling.chance(1, 12) {
            spoil::ask(&self.ours, call, self.spoiling)?;
            self.cover.count_call(call.name(), 12);
        }
        Ok(())
    }

    fn compare_numbers(&self, view: &View) -> Verdict {
        let ours = &self.ours;
        same("segment id", ours.id(), view.id)?;
        same("file position", ours.position(), view.position)?;
        same("staged bytes", ours.staged(), view.staged as u64)?;
        same("logical position", ours.logical(), view.logical())?;
        same("file length", ours.file_length(), view.file_length)?;
        same("synchronized number", ours.synchronized(), view.synchronized)?;
        same("last id", ours.last(), view.last)?;
        same_bytes("version info", &ours.info[..ours.info_length() as usize], &view.version_info)?;
        same("moment", ours_moment(ours), rust_moment(&view.moment))
    }

    fn compare_bytes(&self, view: &View) -> Verdict {
        let ours = &self.ours;
        same_bytes("bytes below the file position", &ours.image[..ours.position() as usize], &view.below)?;
        same_bytes("staged bytes", &ours.staging[..ours.staged() as usize], view.staged_bytes())
    }

    fn count_events(&mut self, call: &WriterCall, view: &View) {
        let events = &view.events;
        let cover = &mut *self.cover;
        cover.add("full staging flushed", events.full_flushes);
        cover.add("stored straight into the image", events.direct_stores);
        cover.count_if("the Rust flushed an old tail, just as predicted", events.tail_flushed);
        cover.count_if("the Rust wrote dropped bytes out, just as predicted", events.dropped_written);
        cover.count_if("the Rust's length lies behind, just as predicted", events.length_behind);
        match call {
            WriterCall::Write(bytes) => {
                cover.count_if("empty piece", bytes.is_empty());
                cover.count_if("piece longer than the bytes owed", bytes.len() as u64 > self.answer[0]);
            }
            WriterCall::BeginChunk(0) => cover.count("empty chunk"),
            WriterCall::Rollback if events.back_in_buffer => cover.count("rollback, staged"),
            WriterCall::Rollback => cover.count("rollback below the buffer"),
            WriterCall::Recycle(_) if events.back_in_buffer => cover.count("recycle with the start staged"),
            WriterCall::Recycle(_) => cover.count("recycle below the buffer"),
            _ => {}
        }
    }

    fn count_limits(&mut self) {
        let ours = &self.ours;
        self.cover.count_if("image exactly full", ours.room() == 0);
        self.cover.count_if("image full but for the reserve", ours.moment() == IN_ENTRY && ours.room() == 1);
        self.cover.count_if("staging exactly full", ours.staged() > 0 && ours.staged() == ours.staging_size());
        self.cover.count_if("staging one short of full", ours.staged() + 1 == ours.staging_size());
    }
}

impl Client for Comparer<'_> {
    fn opened(&mut self, view: &View, file: &[u8]) -> Verdict {
        same_bytes("every byte of the file after opening", &self.ours.image[..self.ours.file_length() as usize], file)?;
        self.count_events(&WriterCall::Open(crate::calls::Opening::default()), view);
        let behind = &self.ours.info[self.ours.info_length() as usize..];
        holds("zeros behind the version info", behind.iter().all(|byte| *byte == 0))?;
        self.compare_numbers(view)?;
        self.compare_bytes(view)
    }

    fn next(&mut self, _view: &View) -> Verdict<Option<WriterCall>> {
        while let Some(call) = self.source.next(&self.ours) {
            self.calls.push(format!("{call:?}"));
            self.maybe_spoil(&call)?;
            let in_chunk = self.ours.moment() == IN_CHUNK;
            if self.ask_ours(&call)? {
                self.cover.count_if("rollback in a chunk", in_chunk && self.ours.moment() == IDLE);
                return Ok(Some(call));
            }
        }
        Ok(None)
    }

    fn told(&mut self, call: &WriterCall, answer: [u64; 4], view: &View) -> Verdict {
        same("answer", self.answer, answer)?;
        self.committed.note(call, answer);
        self.compare_numbers(view)?;
        self.compare_bytes(view)?;
        self.count_events(call, view);
        self.count_limits();
        Ok(())
    }
}

/// Moment, entry id, start, chunk length, owed, sum and the 02's offset.
type MomentNumbers = (u64, [u64; 6]);

fn ours_moment(ours: &Ours) -> MomentNumbers {
    let words = &ours.words;
    match ours.moment() {
        IN_ENTRY => (IN_ENTRY, [words[11], words[12], 0, 0, 0, 0]),
        IN_CHUNK => {
            let offset = ours.logical() - (words[13] - words[14]) - 5;
            (IN_CHUNK, [words[11], words[12], words[13], words[14], words[15], offset])
        }
        other => (other, [0; 6]),
    }
}

fn rust_moment(moment: &Moment) -> MomentNumbers {
    match *moment {
        Moment::Idle => (IDLE, [0; 6]),
        Moment::Entry { id, start } => (IN_ENTRY, [id, start, 0, 0, 0, 0]),
        Moment::Chunk { id, start, chunk } => {
            let [length, owed, crc] = [chunk.length, chunk.owed, chunk.crc].map(u64::from);
            (IN_CHUNK, [id, start, length, owed, crc, chunk.offset])
        }
    }
}
