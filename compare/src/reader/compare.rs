//! The client that holds our reader to the Rust's, after every call.

use super::{
    ours::{Ours, ENDED, IN_CHUNK, IN_ENTRY, NO_ENTRY},
    spoil, Source,
};
use crate::{
    calls::ReaderCall,
    cover::Cover,
    difference::{holds, same, same_bytes, Verdict},
    rng::Rng,
    rust_reader::{faulty, Answer, Client, Moment, View},
};

pub struct Comparer<'a> {
    pub ours: Ours<'a>,
    pub file_id: u64,
    pub source: &'a mut dyn Source,
    pub spoiling: &'a mut Rng,
    pub cover: &'a mut Cover,
    pub calls: Vec<String>,
    before: [u64; 10],
    number: u64,
    answer: [u64; 4],
}

impl<'a> Comparer<'a> {
    pub fn new(
        ours: Ours<'a>,
        file_id: u64,
        source: &'a mut dyn Source,
        spoiling: &'a mut Rng,
        cover: &'a mut Cover,
    ) -> Self {
        let (calls, before) = (Vec::new(), ours.words);
        Self { ours, file_id, source, spoiling, cover, calls, before, number: 0, answer: [0; 4] }
    }

    /// Asks ours; true where the Rust is to be asked too.
    fn ask_ours(&mut self, call: &ReaderCall) -> Verdict<bool> {
        self.before = self.ours.words;
        (self.number, self.answer) = self.ours.call(call);
        self.cover.count_call(call.name(), self.number);
        let without = match (call, self.before[5]) {
            (ReaderCall::Entry, ENDED) => Some(0),
            (ReaderCall::Chunk | ReaderCall::Whole, NO_ENTRY | ENDED) => Some(6),
            (ReaderCall::Data(_) | ReaderCall::CheckCrc | ReaderCall::Skip, NO_ENTRY | IN_ENTRY | ENDED) => Some(6),
            _ => None,
        };
        let Some(expected) = without else {
            return Ok(true);
        };
        same("the number of a call that the Rust does not have", self.number, expected)?;
        same("answers of a call that the Rust does not have", self.answer, [0; 4])?;
        same("the state after a call that the Rust does not have", self.ours.words, self.before)?;
        self.cover.count_if("an ended reader says ended again", self.before[5] == ENDED && expected == 0);
        Ok(false)
    }

    fn maybe_spoil(&mut self, call: &ReaderCall) -> Verdict {
        if self.spoiling.chance(1, 12) {
            spoil::ask(&self.ours, call, self.spoiling)?;
            self.cover.count_call(call.name(), 12);
        }
        Ok(())
    }

    /// A refused opening leaves an ended reader of no image: with the real image every call is refused with 12.
    fn ask_after_refused_opening(&mut self) -> Verdict {
        let refused = [0, 0, 0, 0, 0, ENDED, 0, 0, 0, 0];
        let (entry, other) = if self.ours.image.is_empty() { (0, 6) } else { (12, 12) };
        let calls = [ReaderCall::Chunk, ReaderCall::Data(1), ReaderCall::CheckCrc, ReaderCall::Skip, ReaderCall::Whole];
        same("a call for an entry after a refused opening", self.ours.call(&ReaderCall::Entry), (entry, [0; 4]))?;
        for call in calls {
            same("a call after a refused opening", self.ours.call(&call), (other, [0; 4]))?;
        }
        same("a refused opening's state", self.ours.words, refused)
    }

    fn compare_data(&mut self, answer: &Answer) -> Verdict {
        let [place, count, ..] = self.answer;
        let part = part(self.ours.image, place, count);
        same_bytes("data", part, &answer.data)?;
        let short = self.ours.owed() > 0 && count == 0;
        self.cover.count_if("data: none present of the bytes owed", short);
        self.cover.count_if("data: more than 8 KiB at once", count > 8192);
        Ok(())
    }

    /// The chunks stand back to back from the place on.
    fn compare_chunks(&self, answer: &Answer) -> Verdict {
        let mut at = self.answer[1];
        for chunk in &answer.chunks {
            let length = faulty::length(self.ours.image, at);
            same_bytes("a whole entry's chunk", part(self.ours.image, at + 5, length), chunk)?;
            at += 9 + length;
        }
        holds("03 behind the chunks", faulty::byte(self.ours.image, at) == Some(3))?;
        same("the place behind a whole entry", self.ours.place(), at + 1)
    }

    fn count_entry(&mut self, answer: &Answer) {
        let (image, cover) = (self.ours.image, &mut *self.cover);
        let until = self.ours.valid_until();
        let rest = part(image, until, 9);
        let stray = self.before[5] == IN_ENTRY && self.before[3] > 0;
        let passed = faulty::byte(image, self.before[3].wrapping_sub(1));
        let mark = faulty::byte(image, self.before[3]);
        cover.count_if("stray 02 passed", stray && passed == Some(3) && mark == Some(2));
        cover.count_if("stray 03 passed", stray && passed == Some(3) && mark == Some(3));
        cover.count_if("an entry's chunks skipped", self.before[5] == IN_ENTRY && mark == Some(2));
        cover.count_if("valid_until past the image", until > image.len() as u64);
        match answer {
            Answer { number: 9, .. } => cover.count("entry: a chunk header is cut"),
            Answer { words: [1, ..], .. } => cover.count("entry: found"),
            _ if rest.len() < 9 => cover.count("entry: ended, fewer than 9 bytes"),
            _ if rest[0] != 1 => cover.count("entry: ended, another byte"),
            _ => cover.count("entry: ended, a low id"),
        }
    }

    fn count_chunk(&mut self, answer: &Answer) {
        let cover = &mut *self.cover;
        let at_end = self.ours.place() >= self.ours.image.len() as u64;
        match (answer.number, answer.words[0]) {
            (9, _) => cover.count("chunk: its header is cut"),
            (_, 1) => cover.count("chunk: found"),
            (_, 2) => cover.count("chunk: end of entry"),
            _ if at_end => cover.count("chunk: aborted at the image's end"),
            _ => cover.count("chunk: aborted at another byte"),
        }
        cover.count_if("chunk: length from 2^32 - 4 on", answer.words[2] >= faulty::OVERFLOW);
        cover.count_if("an open chunk left with bytes owed", self.before[5] == IN_CHUNK && self.before[9] > 0);
    }

    fn count_sum(&mut self, answer: &Answer) {
        let image = self.ours.image.len() as u64;
        let present = image.saturating_sub(self.ours.place());
        match (answer.number, answer.words[0]) {
            (6, _) => self.cover.count("CRC: asked with bytes owed"),
            (9, _) if present == 0 => self.cover.count("CRC: cut, no byte present"),
            (9, _) => self.cover.count("CRC: cut, 1 to 3 bytes present"),
            (_, 1) => self.cover.count("CRC: right"),
            _ => self.cover.count("CRC: wrong"),
        }
    }
}

impl Client for Comparer<'_> {
    fn opened(&mut self, number: u64, version_info: &[u8]) -> Verdict {
        (self.number, self.answer) = self.ours.call(&ReaderCall::Open(self.file_id));
        same("number of an opening", self.number, number)?;
        self.cover.count_call("reader_open", number);
        if number != 0 {
            let short = self.ours.image.len() < 5;
            self.cover.count_if("open: fewer than 5 bytes", number == 1 && short);
            self.cover.count_if("open: version info is cut", number == 1 && !short);
            return self.ask_after_refused_opening();
        }
        let place = 5 + version_info.len() as u64;
        let fresh = [self.file_id, self.ours.image.len() as u64, place - 5, place, place, NO_ENTRY, 0, 0, 0, 0];
        same("an opened reader's state", self.ours.words, fresh)?;
        same_bytes("version info", part(self.ours.image, 5, self.ours.words[2]), version_info)
    }

    fn next(&mut self) -> Verdict<Option<ReaderCall>> {
        while let Some(call) = self.source.next(&self.ours) {
            self.calls.push(format!("{call:?}"));
            self.maybe_spoil(&call)?;
            if self.ask_ours(&call)? {
                return Ok(Some(call));
            }
        }
        Ok(None)
    }

    fn told(&mut self, call: &ReaderCall, answer: &Answer, view: &View) -> Verdict {
        same("number of refusal", self.number, answer.number)?;
        same("answer", self.answer, answer.words)?;
        same("place", self.ours.place(), view.place)?;
        same("valid_until", self.ours.valid_until(), view.valid_until)?;
        same("moment", self.ours.words[5..].to_vec(), moment_words(&view.moment))?;
        match call {
            ReaderCall::Entry => self.count_entry(answer),
            ReaderCall::Chunk => self.count_chunk(answer),
            ReaderCall::Data(_) => self.compare_data(answer)?,
            ReaderCall::CheckCrc => self.count_sum(answer),
            ReaderCall::Whole if answer.words[0] == 1 => self.compare_chunks(answer)?,
            _ => {}
        }
        Ok(())
    }

    fn count(&mut self, row: &'static str) {
        self.cover.count(row);
    }

    fn fault(&mut self, row: &'static str) {
        self.cover.count(row);
    }
}

/// Moment, entry id, the 02's offset, length and owed, as words 5 to 9.
fn moment_words(moment: &Moment) -> Vec<u64> {
    match *moment {
        Moment::NoEntry => vec![NO_ENTRY, 0, 0, 0, 0],
        Moment::Entry(id) => vec![IN_ENTRY, id, 0, 0, 0],
        Moment::Chunk { id, offset, length, owed } => vec![IN_CHUNK, id, offset, length, owed],
        Moment::Ended => vec![ENDED, 0, 0, 0, 0],
    }
}

/// At most `count` bytes from a place on.
fn part(image: &[u8], place: u64, count: u64) -> &[u8] {
    let end = image.len() as u64;
    let start = place.min(end);
    &image[start as usize..start.saturating_add(count).min(end) as usize]
}
