//! The steps of the Rust's writer that belong to every moment, the undoing of its known faults, and the look at what it
//! shows.

use std::{
    io::{self, SeekFrom, Write},
    os::unix::fs::FileExt,
};

use okaywal::{entry::inside, log_file::LogFileWriter};

use super::{
    debug_text::Shown,
    driver::Driver,
    grip::Grip,
    landing::landed,
    view::{Client, Events, Moment},
};
use crate::{
    calls::WriterCall,
    difference::{same, same_bytes, Difference, Verdict},
};

impl<'f> Driver<'f> {
    /// Calls that belong to every moment.
    pub(super) fn quiet<'c>(&mut self, client: &mut dyn Client, call: &WriterCall, mut grip: Grip<'_, 'c>) -> Verdict
    where
        'f: 'c,
    {
        let mut answer = [0; 4];
        match *call {
            WriterCall::Flush => self.flush(&mut grip)?,
            WriterCall::Sync(target) => self.synchronize(&mut grip, target)?,
            WriterCall::LandStart(place) => answer[0] = self.land(SeekFrom::Start(place))?,
            WriterCall::LandEnd(offset) => answer[0] = self.land(SeekFrom::End(offset))?,
            WriterCall::LandCurrent(offset) => answer[0] = self.land(SeekFrom::Current(offset))?,
            _ => return Err(Difference(format!("{} was asked of the Rust out of its moment", call.name()))),
        }
        self.settle(client, call, answer, grip)
    }

    fn land(&self, to: SeekFrom) -> io::Result<u64> {
        landed(self.shadow.true_length, self.view.position, self.view.staged_bytes(), to)
    }

    fn flush(&mut self, grip: &mut Grip<'_, '_>) -> Verdict {
        let (logical, tail) = (self.shadow.logical(), self.view.tail().to_vec());
        self.shadow.flush();
        grip.with(self.file, |writer| {
            writer.flush()?;
            self.undo_tail_flush(writer, logical, &tail)
        })
    }

    fn synchronize<'c>(&mut self, grip: &mut Grip<'_, 'c>, target: u64) -> Verdict
    where
        'f: 'c,
    {
        let (logical, tail) = (self.shadow.logical(), self.view.tail().to_vec());
        let flushes = self.view.synchronized < target && self.view.position < target;
        grip.synchronize(self.file, self.bench.spare(), target)?;
        if !flushes {
            return Ok(());
        }
        self.shadow.flush();
        grip.with(self.file, |writer| {
            let shown = self.check_numbers(writer)?;
            same("the synchronized number of a flush", shown.position, shown.synchronized_through)?;
            self.undo_tail_flush(writer, logical, &tail)
        })
    }

    /// Before writes that would flush an old tail, the harness flushes and puts the Rust back.
    pub(super) fn prepare(&mut self, writes: &[u64], mut grip: Grip<'_, '_>) -> Verdict {
        if self.shadow.would_flush_tail(writes) {
            self.flush(&mut grip)?;
        }
        Ok(())
    }

    /// After a flush that counted an old tail: the Rust stands beyond by just the tail, whose bytes it wrote. Its own
    /// `revert_to` puts it back.
    fn undo_tail_flush(&mut self, writer: &mut LogFileWriter, logical: u64, tail: &[u8]) -> Verdict {
        if tail.is_empty() {
            return Ok(());
        }
        let shown = self.check_numbers(writer)?;
        same("the position after a tail was flushed", logical + tail.len() as u64, shown.position)?;
        let mut written = vec![0; tail.len()];
        self.disk.read_exact_at(&mut written, logical)?;
        same_bytes("the tail that was flushed", tail, &written)?;
        writer.revert_to(logical)?;
        self.shadow.seek(logical);
        self.view.events.tail_flushed = true;
        Ok(())
    }

    pub(super) fn go_back(&mut self, place: u64) {
        let in_buffer = self.shadow.finds_in_buffer(place);
        self.view.events.back_in_buffer = in_buffer;
        self.view.events.dropped_written = !in_buffer && self.shadow.buffered > 0;
        self.shadow.seek(place);
    }

    /// A rollback or recycling below the buffer has written the whole buffer out at the old position.
    pub(super) fn check_dropped(&self) -> Verdict {
        if !self.view.events.dropped_written {
            return Ok(());
        }
        let mut written = vec![0; self.view.buffer.len()];
        self.disk.read_exact_at(&mut written, self.view.position)?;
        // A recycled header may have been stored over the first of them.
        let stored_over = self.shadow.position.saturating_sub(self.view.position);
        let kept = written.len().min(stored_over as usize)..;
        same_bytes("dropped bytes that the Rust wrote out", &self.view.buffer[kept.clone()], &written[kept])
    }

    /// The Rust's numbers must be the predicted ones, faults included.
    fn check_numbers(&self, writer: &LogFileWriter) -> Verdict<Shown> {
        let shown = Shown::read(&format!("{writer:?}"))?;
        same("predicted position", self.shadow.position, shown.position)?;
        same("predicted buffer_write_position", self.shadow.staged, shown.buffer_write_position)?;
        same("predicted buffer length", self.shadow.buffered, shown.buffer.len() as u64)?;
        same("predicted length", self.shadow.length, shown.length)?;
        same("predicted length on disk", self.shadow.real_length(), self.disk.metadata()?.len())?;
        Ok(shown)
    }

    /// Reads the Rust's numbers and bytes, and tells the client.
    pub(super) fn settle(
        &mut self,
        client: &mut dyn Client,
        call: &WriterCall,
        answer: [u64; 4],
        mut grip: Grip<'_, '_>,
    ) -> Verdict {
        if let Grip::Chunk(chunk) = &grip {
            self.view.moment = in_chunk(self.view.moment, inside::numbers(chunk));
        }
        let shown = grip.with(self.file, |writer| self.check_numbers(writer))?;
        self.look(shown)?;
        client.told(call, answer, &self.view)?;
        self.view.events = Events::default();
        Ok(())
    }

    /// Takes over what the Rust shows.
    fn look(&mut self, shown: Shown) -> Verdict {
        let view = &mut self.view;
        view.below.resize(shown.position as usize, 0);
        self.disk.read_exact_at(&mut view.below, 0)?;
        view.id = shown.id;
        view.version_info = shown.version_info;
        view.last = shown.last_entry_id;
        view.position = shown.position;
        view.buffer = shown.buffer;
        view.staged = shown.buffer_write_position as usize;
        view.synchronized = shown.synchronized_through;
        view.file_length = self.shadow.true_length;
        view.disk_length = self.disk.metadata()?.len();
        view.events.length_behind = shown.length < self.shadow.true_length;
        view.events.full_flushes = std::mem::take(&mut self.shadow.full_flushes);
        view.events.direct_stores = std::mem::take(&mut self.shadow.direct_stores);
        Ok(())
    }

    /// The numbers right after the opening.
    pub fn look_first(&mut self) -> Verdict {
        let shown = self.check_numbers(&self.file.lock())?;
        self.look(shown)
    }
}

fn in_chunk(moment: Moment, chunk: inside::OpenChunk) -> Moment {
    match moment {
        Moment::Entry { id, start } | Moment::Chunk { id, start, .. } => Moment::Chunk { id, start, chunk },
        Moment::Idle => Moment::Idle,
    }
}
