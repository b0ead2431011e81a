//! Calls for a chunk, what is asked inside it, and the leaving of it.

use std::io::{self, ErrorKind, Read};

use okaywal::{entry::inside::position_parts, log_file::inside, Entry, EntryChunk, ReadChunkResult, SegmentReader};

use super::{
    driver::Driver,
    faulty::OVERFLOW,
    view::{Answer, Moment, View},
};
use crate::{
    calls::ReaderCall,
    difference::{holds, same, Verdict},
    panics::caught,
};

/// The Rust's error for a sum that is asked for too early.
pub(super) const TOO_EARLY: &str = "crc cannot be checked before reading all chunk bytes";

/// What is wanted once a chunk is left.
pub(super) enum After {
    Skipped,
    Call(ReaderCall),
    TraceOver,
}

/// The numbers of an open chunk that the harness keeps to predict where leaving it leads.
#[derive(Clone, Copy)]
pub(super) struct Open {
    id: u64,
    offset: u64,
    length: u64,
    /// The sum was read, and 4 bytes passed with it.
    sum_read: bool,
    /// The sum was asked for and is cut: what is there of it was passed.
    sum_cut: bool,
}

impl Open {
    fn new(id: u64, chunk: &EntryChunk<'_, '_>) -> Self {
        let (_, offset) = position_parts(chunk.log_position());
        Self { id, offset, length: u64::from(chunk.bytes_remaining()), sum_read: false, sum_cut: false }
    }

    /// The place of the next data byte.
    fn place(&self, chunk: &EntryChunk<'_, '_>) -> u64 {
        self.offset + 5 + self.length - u64::from(chunk.bytes_remaining())
    }
}

/// A chunk that was left.
pub(super) struct Left {
    open: Open,
    owed: u64,
    panicked: bool,
    /// It was left by `skip_remaining_bytes`.
    twice: bool,
    pub(super) after: After,
}

/// What a call for a chunk came to.
pub(super) enum Seen {
    Chunk(Left),
    /// The boundary's word: 2 end of entry, 3 aborted.
    Mark(u64),
    Cut,
}

impl Driver<'_> {
    /// A call for a chunk, and all that is asked inside it; none where the header is cut.
    pub(super) fn chunk(&mut self, entry: &mut Entry<'_>) -> Verdict<Option<After>> {
        let id = entry.id().0;
        let seen = match entry.read_chunk() {
            Ok(ReadChunkResult::Chunk(chunk)) => Seen::Chunk(self.visit(id, chunk)?),
            Ok(ReadChunkResult::EndOfEntry) => Seen::Mark(2),
            Ok(ReadChunkResult::AbortedEntry) => Seen::Mark(3),
            Err(err) => expect_end_of_file(&err).map(|()| Seen::Cut)?,
        };
        let left = match seen {
            Seen::Cut => return self.cut_header(entry, &ReaderCall::Chunk).map(|()| None),
            Seen::Mark(word) => return self.tell_mark(entry, word).map(|()| Some(After::Skipped)),
            Seen::Chunk(left) => left,
        };
        let reader = inside::entry_reader(entry);
        self.check_left(reader, &left)?;
        if let After::Skipped = left.after {
            self.tell(reader, &ReaderCall::Skip, Answer::default(), Moment::Entry(id))?;
        }
        Ok(Some(left.after))
    }

    /// All that is asked inside a chunk, and the leaving of it.
    fn visit(&mut self, id: u64, mut chunk: EntryChunk<'_, '_>) -> Verdict<Left> {
        let mut open = Open::new(id, &chunk);
        let found = Answer::words(&[1, open.offset, open.length]);
        let outcome = self
            .tell_in_chunk(&mut chunk, &open, &ReaderCall::Chunk, found)
            .and_then(|()| self.in_chunk(&mut chunk, &mut open));
        let owed = u64::from(chunk.bytes_remaining());
        let twice = matches!(outcome, Ok(After::Skipped)) && self.skips_twice(&open, owed);
        let left = caught(|| leave(chunk, twice));
        Ok(Left { open, owed, panicked: left.is_err(), twice, after: outcome? })
    }

    /// Every other skip goes through `skip_remaining_bytes`, which skips twice; not where that would end the process.
    fn skips_twice(&mut self, open: &Open, owed: u64) -> bool {
        self.skips += 1;
        self.skips.is_multiple_of(2) && owed < OVERFLOW && !open.sum_read && !open.sum_cut
    }

    fn in_chunk(&mut self, chunk: &mut EntryChunk<'_, '_>, open: &mut Open) -> Verdict<After> {
        while let Some(call) = self.client.next()? {
            let answer = match call {
                ReaderCall::Data(asked) => self.data(chunk, open, asked)?,
                ReaderCall::CheckCrc => self.check_sum(chunk, open)?,
                ReaderCall::Skip => return Ok(After::Skipped),
                _ => return Ok(After::Call(call)),
            };
            self.tell_in_chunk(chunk, open, &call, answer)?;
        }
        Ok(After::TraceOver)
    }

    /// Single reads until enough has come, or none comes: a single one stops at the end of the reader's own buffer.
    fn data(&self, chunk: &mut EntryChunk<'_, '_>, open: &Open, asked: u64) -> Verdict<Answer> {
        let place = open.place(chunk);
        let mut data = vec![0; asked.min(self.image.len() as u64 + 1) as usize];
        let mut got = 0;
        while got < data.len() {
            let count = chunk.read(&mut data[got..])?;
            if count == 0 {
                break;
            }
            got += count;
        }
        data.truncate(got);
        Ok(Answer { data, ..Answer::words(&[place, got as u64]) })
    }

    fn check_sum(&mut self, chunk: &mut EntryChunk<'_, '_>, open: &mut Open) -> Verdict<Answer> {
        match chunk.check_crc() {
            Ok(right) => {
                open.sum_read = true;
                Ok(Answer::words(&[u64::from(right)]))
            }
            Err(err) if err.kind() == ErrorKind::UnexpectedEof => {
                open.sum_cut = true;
                Ok(Answer::refused(9))
            }
            Err(err) if err.to_string() == TOO_EARLY => Ok(Answer::refused(6)),
            Err(err) => Err(err.into()),
        }
    }

    /// After a chunk was left: where the Rust stands is predicted, and if that is not behind the chunk it is put there.
    pub(super) fn check_left(&mut self, reader: &mut SegmentReader, left: &Left) -> Verdict {
        let Left { open, owed, .. } = *left;
        let right = open.offset + 9 + open.length;
        let overflows = !open.sum_read && owed >= OVERFLOW;
        same("a panic in leaving a chunk", overflows, left.panicked)?;
        let predicted = match open {
            _ if overflows => open.offset + 5 + open.length - owed,
            Open { sum_cut: true, .. } => self.image.len() as u64 + 4,
            _ if left.twice => right + 4,
            _ => right,
        };
        same("the Rust's place behind a chunk", predicted, inside::numbers(reader)?.place)?;
        if predicted == right {
            return Ok(());
        }
        self.client.fault(match open {
            _ if overflows => "the Rust's sum of owed bytes overflows, just as predicted",
            Open { sum_cut: true, .. } => "a cut CRC puts the Rust elsewhere, just as predicted",
            _ => "the Rust's skip goes twice, just as predicted",
        });
        inside::put_at(reader, right)?;
        Ok(())
    }

    /// A cut header: the Rust stands at the image's end and, asked for a chunk again, says aborted.
    pub(super) fn cut_header(&mut self, entry: &mut Entry<'_>, call: &ReaderCall) -> Verdict {
        let reader = inside::entry_reader(entry);
        same("the place after a cut header", self.image.len() as u64, inside::numbers(reader)?.place)?;
        self.tell(reader, call, Answer::refused(9), Moment::NoEntry)?;
        let again = matches!(entry.read_chunk(), Ok(ReadChunkResult::AbortedEntry));
        holds("the Rust says aborted after a cut header", again)?;
        self.client.fault("the Rust says aborted after a cut header, just as predicted");
        Ok(())
    }

    fn tell_mark(&mut self, entry: &mut Entry<'_>, word: u64) -> Verdict {
        let id = entry.id().0;
        self.tell(inside::entry_reader(entry), &ReaderCall::Chunk, Answer::words(&[word]), Moment::Entry(id))
    }

    /// Inside a chunk the place is that of the next data byte; a sum that was read has moved the Rust beyond.
    fn tell_in_chunk(
        &mut self,
        chunk: &mut EntryChunk<'_, '_>,
        open: &Open,
        call: &ReaderCall,
        answer: Answer,
    ) -> Verdict {
        let owed = u64::from(chunk.bytes_remaining());
        let shown = inside::numbers(inside::chunk_reader(chunk))?;
        let place = open.place(chunk);
        let predicted = match *open {
            Open { sum_read: true, .. } => place + 4,
            Open { sum_cut: true, .. } => self.image.len() as u64,
            _ => place,
        };
        same("the Rust's place in a chunk", predicted, shown.place)?;
        let Open { id, offset, length, .. } = *open;
        let moment = Moment::Chunk { id, offset, length, owed };
        self.client.told(call, &answer, &View { place, valid_until: shown.valid_until, moment })
    }
}

/// Leaves a chunk as its own `Drop` does, or by `skip_remaining_bytes`, which then also drops it.
fn leave(chunk: EntryChunk<'_, '_>, twice: bool) -> io::Result<()> {
    if twice {
        return chunk.skip_remaining_bytes();
    }
    drop(chunk);
    Ok(())
}

/// Reads the next chunk and drops it at once.
pub(super) fn dropped_chunk(entry: &mut Entry<'_>) -> Verdict<Seen> {
    let id = entry.id().0;
    let chunk = match entry.read_chunk() {
        Ok(ReadChunkResult::Chunk(chunk)) => chunk,
        Ok(ReadChunkResult::EndOfEntry) => return Ok(Seen::Mark(2)),
        Ok(ReadChunkResult::AbortedEntry) => return Ok(Seen::Mark(3)),
        Err(err) => return expect_end_of_file(&err).map(|()| Seen::Cut),
    };
    let open = Open::new(id, &chunk);
    let panicked = caught(|| drop(chunk)).is_err();
    Ok(Seen::Chunk(Left { open, owed: open.length, panicked, twice: false, after: After::TraceOver }))
}

fn expect_end_of_file(err: &io::Error) -> Verdict {
    holds(&format!("an end of the file, not {err}"), err.kind() == ErrorKind::UnexpectedEof)
}
