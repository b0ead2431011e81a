//! The loops of the Rust's reader: outside an entry and in one. The loop in a chunk is in `chunks`.

use okaywal::{
    log_file::inside::{self, ReaderNumbers},
    SegmentReader,
};

use super::{
    chunks::After,
    view::{Answer, Client, Moment, View},
};
use crate::{
    calls::ReaderCall,
    difference::{Difference, Verdict},
};

/// How an entry is left.
enum Leaving {
    NextEntry,
    /// A cut chunk header: no entry is current here any more.
    Lost,
    TraceOver,
}

pub struct Driver<'a> {
    pub(super) image: &'a [u8],
    pub(super) file_id: u64,
    pub(super) client: &'a mut dyn Client,
    pub(super) skips: u64,
}

impl<'a> Driver<'a> {
    pub fn new(image: &'a [u8], file_id: u64, client: &'a mut dyn Client) -> Self {
        Self { image, file_id, client, skips: 0 }
    }

    /// No entry is current: only a call for one belongs here.
    pub fn outside(&mut self, reader: &mut SegmentReader) -> Verdict {
        while let Some(call) = self.client.next()? {
            expect_entry_call(&call)?;
            while self.find_entry(reader)? {
                match self.in_entry(reader)? {
                    Leaving::NextEntry => {}
                    Leaving::Lost => break,
                    Leaving::TraceOver => return Ok(()),
                }
            }
        }
        Ok(())
    }

    fn in_entry(&mut self, reader: &mut SegmentReader) -> Verdict<Leaving> {
        let mut entry = inside::current_entry(reader).ok_or_else(|| Difference(String::from("no entry is current")))?;
        let mut pending = None;
        loop {
            let call = match pending.take() {
                Some(call) => call,
                None => match self.client.next()? {
                    Some(call) => call,
                    None => return Ok(Leaving::TraceOver),
                },
            };
            match call {
                ReaderCall::Entry => return Ok(Leaving::NextEntry),
                ReaderCall::Whole => {
                    if !self.whole(&mut entry)? {
                        return Ok(Leaving::Lost);
                    }
                }
                ReaderCall::Chunk => match self.chunk(&mut entry)? {
                    None => return Ok(Leaving::Lost),
                    Some(After::Skipped) => {}
                    Some(After::Call(call)) => pending = Some(call),
                    Some(After::TraceOver) => return Ok(Leaving::TraceOver),
                },
                _ => return Err(Difference(format!("{} was asked of the Rust outside a chunk", call.name()))),
            }
        }
    }

    pub(super) fn tell(
        &mut self,
        reader: &mut SegmentReader,
        call: &ReaderCall,
        answer: Answer,
        moment: Moment,
    ) -> Verdict {
        let ReaderNumbers { place, valid_until, .. } = inside::numbers(reader)?;
        self.client.told(call, &answer, &View { place, valid_until, moment })
    }
}

fn expect_entry_call(call: &ReaderCall) -> Verdict {
    match call {
        ReaderCall::Entry => Ok(()),
        _ => Err(Difference(format!("{} was asked of the Rust outside an entry", call.name()))),
    }
}
