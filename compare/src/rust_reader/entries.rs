//! Calls for an entry: the Rust's own skipping is checked to go wrong as predicted, then led around.

use std::io::ErrorKind;

use okaywal::{
    log_file::inside::{self, ReaderNumbers},
    SegmentReader,
};

use super::{
    chunks::{dropped_chunk, Seen},
    driver::Driver,
    faulty,
    view::{Answer, Moment, View},
};
use crate::{
    calls::ReaderCall,
    difference::{same, Difference, Verdict},
};

impl Driver<'_> {
    /// A call for an entry; true where one was found.
    pub(super) fn find_entry(&mut self, reader: &mut SegmentReader) -> Verdict<bool> {
        let before = inside::numbers(reader)?;
        let chunk_ahead = before.current.is_some() && faulty::byte(self.image, before.place) == Some(2);
        if chunk_ahead {
            self.check_double_skips(reader, &before)?;
            if !self.pass_chunks(reader)? {
                return self.tell_cut_header(reader).map(|()| false);
            }
        }
        match reader.read_entry()?.map(|entry| entry.id().0) {
            Some(id) => {
                self.tell(reader, &ReaderCall::Entry, Answer::words(&[1, id]), Moment::Entry(id))?;
                Ok(true)
            }
            None => self.ended(reader).map(|()| false),
        }
    }

    /// The Rust's own skipping goes 4 bytes too far for every chunk: just that is checked, then undone.
    fn check_double_skips(&mut self, reader: &mut SegmentReader, before: &ReaderNumbers) -> Verdict {
        let predicted = faulty::entry_after_double_skips(self.image, before.place, self.file_id);
        if predicted == faulty::Entry::Fatal {
            self.client.fault("the Rust's skipping would end the process: led around");
            return Ok(());
        }
        let found = reader.read_entry().map(|entry| entry.map(|entry| entry.id().0));
        let after = inside::numbers(reader)?;
        let shown = match found {
            Ok(Some(id)) => faulty::Entry::Found { id, valid_until: after.valid_until, place: after.place },
            Ok(None) => faulty::Entry::Ended { valid_until: after.valid_until, place: after.place },
            Err(err) if err.kind() == ErrorKind::UnexpectedEof => faulty::Entry::Cut,
            Err(err) => return Err(err.into()),
        };
        same("the Rust's double skips", predicted, shown)?;
        self.client.fault("the Rust skips a chunk twice in read_entry, just as predicted");
        inside::restore(reader, before)?;
        Ok(())
    }

    /// What `read_entry` is meant to do with the chunks of the current entry; false at a cut header. No entry is
    /// current afterwards, so that `read_entry` reads where the reader stands.
    fn pass_chunks(&mut self, reader: &mut SegmentReader) -> Verdict<bool> {
        let seen = loop {
            let Some(mut entry) = inside::current_entry(reader) else {
                return Err(Difference(String::from("the Rust has lost its entry")));
            };
            match dropped_chunk(&mut entry)? {
                Seen::Chunk(left) => self.check_left(reader, &left)?,
                other => break other,
            }
        };
        inside::forget_entry(reader);
        Ok(!matches!(seen, Seen::Cut))
    }

    fn tell_cut_header(&mut self, reader: &mut SegmentReader) -> Verdict {
        same("the place after a cut header", self.image.len() as u64, inside::numbers(reader)?.place)?;
        self.tell(reader, &ReaderCall::Entry, Answer::refused(9), Moment::NoEntry)
    }

    /// The reading has ended. The Rust stands behind the nine bytes it tried, and reads on when asked again.
    fn ended(&mut self, reader: &mut SegmentReader) -> Verdict {
        let shown = inside::numbers(reader)?;
        let mut predicted = faulty::next_entry(self.image, shown.valid_until, self.file_id);
        let shown_end = faulty::Entry::Ended { valid_until: shown.valid_until, place: shown.place };
        same("the Rust's place after the end", predicted, shown_end)?;
        let view = View { place: shown.valid_until, valid_until: shown.valid_until, moment: Moment::Ended };
        self.client.told(&ReaderCall::Entry, &Answer::words(&[0]), &view)?;
        for _ in 0..3 {
            let faulty::Entry::Ended { place, .. } = predicted else {
                break;
            };
            predicted = faulty::next_entry(self.image, place, self.file_id);
            let found = reader.read_entry()?.map(|entry| entry.id().0);
            let after = inside::numbers(reader)?;
            let shown = match found {
                Some(id) => faulty::Entry::Found { id, valid_until: after.valid_until, place: after.place },
                None => faulty::Entry::Ended { valid_until: after.valid_until, place: after.place },
            };
            same("the Rust's reading on after the end", predicted, shown)?;
            self.client.fault("the Rust reads on after the end, just as predicted");
        }
        self.after_the_end()
    }

    /// Ours stays ended: what the client still asks is not for the Rust.
    fn after_the_end(&mut self) -> Verdict {
        match self.client.next()? {
            None => Ok(()),
            Some(call) => Err(Difference(format!("{} was asked of the Rust after the end", call.name()))),
        }
    }
}
