//! The three loops of the Rust's writer, one inside the other: idle, in an entry, in a chunk.

use std::{fs::File, io::Write};

use okaywal::{
    entry::{inside, ChunkWriter},
    ChunkRecord, EntryWriter, LogFile,
};

use super::{
    grip::Grip,
    shadow::Shadow,
    view::{Client, Moment, View},
    Bench,
};
use crate::{
    calls::WriterCall,
    difference::{same, Difference, Verdict},
};

const SHORT_FINISH: &str = "written length does not match expected length";

/// How a chunk is left.
enum Leaving {
    Finish,
    Rollback,
    TraceOver,
}

pub struct Driver<'f> {
    pub bench: &'f Bench,
    pub file: &'f LogFile,
    pub disk: File,
    pub shadow: Shadow,
    pub view: View,
    pub recyclings: u64,
}

impl<'f> Driver<'f> {
    pub fn idle(&mut self, client: &mut dyn Client) -> Verdict {
        while let Some(call) = client.next(&self.view)? {
            match call {
                WriterCall::Begin(id) => self.entry(client, id)?,
                WriterCall::Recycle(id) => self.recycle(client, &call, id)?,
                _ => self.quiet(client, &call, Grip::Free)?,
            }
        }
        Ok(())
    }

    fn recycle(&mut self, client: &mut dyn Client, call: &WriterCall, id: u64) -> Verdict {
        let info = self.view.version_info.clone();
        self.go_back(0);
        self.shadow.write_header(info.len());
        self.file.lock().revert_to(0)?;
        self.check_dropped()?;
        self.recyclings += 1;
        self.file.rename(id, &format!("wal-{}", self.recyclings))?;
        self.settle(client, call, [0; 4], Grip::Free)
    }

    fn entry(&mut self, client: &mut dyn Client, id: u64) -> Verdict {
        self.prepare(&[1, 8], Grip::Free)?;
        let start = self.shadow.logical();
        let mut entry = inside::begin(self.bench.log(), id, self.file.clone())?;
        same("an entry's start", start, inside::start(&entry))?;
        self.shadow.write(1);
        self.shadow.write(8);
        self.view.moment = Moment::Entry { id, start };
        self.settle(client, &WriterCall::Begin(id), [0; 4], Grip::Free)?;
        while let Some(call) = client.next(&self.view)? {
            match call {
                WriterCall::Commit => return self.commit(client, &call, entry),
                WriterCall::Rollback => return self.rollback(client, entry),
                WriterCall::BeginChunk(length) => match self.chunk(client, &mut entry, length)? {
                    Leaving::Finish => {}
                    Leaving::Rollback => return self.rollback(client, entry),
                    Leaving::TraceOver => return Ok(()),
                },
                _ => self.quiet(client, &call, Grip::Free)?,
            }
        }
        Ok(())
    }

    fn commit(&mut self, client: &mut dyn Client, call: &WriterCall, entry: EntryWriter<'_>) -> Verdict {
        self.prepare(&[1], Grip::Free)?;
        let id = entry.commit()?.0;
        self.shadow.write(1);
        self.view.moment = Moment::Idle;
        let reported = self.bench.log().reported().unwrap_or(0);
        self.settle(client, call, [id, reported, 0, 0], Grip::Free)
    }

    fn rollback(&mut self, client: &mut dyn Client, entry: EntryWriter<'_>) -> Verdict {
        self.go_back(inside::start(&entry));
        entry.rollback()?;
        self.check_dropped()?;
        self.view.moment = Moment::Idle;
        self.settle(client, &WriterCall::Rollback, [0; 4], Grip::Free)
    }

    fn chunk(&mut self, client: &mut dyn Client, entry: &mut EntryWriter<'_>, length: u32) -> Verdict<Leaving> {
        self.prepare(&[1, 4], Grip::Free)?;
        let before = self.view.moment;
        let mut chunk = entry.begin_chunk(length)?;
        self.shadow.write(1);
        self.shadow.write(4);
        let call = WriterCall::BeginChunk(length);
        let outcome = self
            .settle(client, &call, [0; 4], Grip::Chunk(&mut chunk))
            .and_then(|()| self.in_chunk(client, &mut chunk));
        self.view.moment = before;
        match outcome {
            Ok(Leaving::Finish) => self.finish(client, chunk),
            Ok(Leaving::Rollback) => leave_unfinished(chunk),
            other => {
                inside::set_aside(chunk);
                other
            }
        }
    }

    fn in_chunk<'c>(&mut self, client: &mut dyn Client, chunk: &mut ChunkWriter<'c>) -> Verdict<Leaving>
    where
        'f: 'c,
    {
        while let Some(call) = client.next(&self.view)? {
            match &call {
                WriterCall::Finish => {
                    self.prepare(&[4], Grip::Chunk(chunk))?;
                    return Ok(Leaving::Finish);
                }
                WriterCall::Rollback => return Ok(Leaving::Rollback),
                WriterCall::Write(bytes) => {
                    let taken = self.pieces(chunk, bytes)?;
                    self.settle(client, &call, [taken, 0, 0, 0], Grip::Chunk(chunk))?;
                }
                _ => self.quiet(client, &call, Grip::Chunk(chunk))?,
            }
        }
        Ok(Leaving::TraceOver)
    }

    fn finish(&mut self, client: &mut dyn Client, chunk: ChunkWriter<'_>) -> Verdict<Leaving> {
        let ChunkRecord { position, crc, length } = chunk.finish()?;
        self.shadow.write(4);
        let (file_id, offset) = inside::position_parts(position);
        let record = [file_id, offset, u64::from(crc), u64::from(length)];
        self.settle(client, &WriterCall::Finish, record, Grip::Free)?;
        Ok(Leaving::Finish)
    }

    /// Single writes until the piece or the chunk is used up: a single one stops where the buffer is full. An empty one
    /// is not asked for, since it may flush.
    fn pieces(&mut self, chunk: &mut ChunkWriter<'_>, bytes: &[u8]) -> Verdict<u64> {
        let owed = inside::numbers(chunk).owed as usize;
        self.prepare(&[bytes.len().min(owed) as u64], Grip::Chunk(chunk))?;
        let mut taken = 0;
        while taken < bytes.len() {
            let owed = u64::from(inside::numbers(chunk).owed);
            if owed == 0 {
                break;
            }
            let offered = (bytes.len() - taken) as u64;
            let count = chunk.write(&bytes[taken..])?;
            same("a single write", self.shadow.write_once(offered.min(owed)), count as u64)?;
            taken += count;
        }
        Ok(taken as u64)
    }
}

/// Out of a chunk without its sum, for a rollback. With bytes owed the Rust's own `finish` fails and writes nothing;
/// with none owed it would write the sum, so the chunk is set aside.
fn leave_unfinished(chunk: ChunkWriter<'_>) -> Verdict<Leaving> {
    if inside::numbers(&chunk).owed == 0 {
        inside::set_aside(chunk);
        return Ok(Leaving::Rollback);
    }
    match chunk.finish() {
        Err(err) if err.to_string() == SHORT_FINISH => Ok(Leaving::Rollback),
        other => Err(Difference(format!("a short finish: the Rust answered {other:?}"))),
    }
}
