//! Calls for a whole entry.

use std::io::{self, ErrorKind};

use okaywal::{log_file::inside, Entry};

use super::{
    chunks::TOO_EARLY,
    driver::Driver,
    faulty::{self, Whole, OVERFLOW},
    view::{Answer, Moment},
};
use crate::{
    calls::ReaderCall,
    difference::{same, Difference, Verdict},
    panics::caught,
};

const WRONG_SUM: &str = "crc check failed";

impl Driver<'_> {
    pub(super) fn whole(&mut self, entry: &mut Entry<'_>) -> Verdict<bool> {
        let id = entry.id().0;
        let began = inside::numbers(inside::entry_reader(entry))?.place;
        let ending = faulty::whole_entry(self.image, began);
        check_memory(ending)?;
        let answer = whole_answer(ending, began, caught(|| entry.read_all_chunks()))?;
        let reader = inside::entry_reader(entry);
        let place = inside::numbers(reader)?.place;
        let end = self.image.len() as u64;
        let (predicted, right) = match ending {
            Whole::Complete | Whole::Aborted => (place, place),
            Whole::CutHeader => {
                self.client.count("whole entry: a chunk header is cut");
                self.cut_header(entry, &ReaderCall::Whole)?;
                return Ok(false);
            }
            Whole::CutData { offset, length, owed } if owed >= OVERFLOW => (end, offset + 9 + length),
            Whole::CutData { offset, length, .. } => (offset + 9 + length, offset + 9 + length),
            Whole::CutSum { offset, length, .. } => (end + 4, offset + 9 + length),
            Whole::WrongSum { offset, length } => (offset + 9 + length, offset + 9 + length),
        };
        same("the Rust's place after a whole entry", predicted, place)?;
        self.count_whole(ending, predicted == right);
        inside::put_at(reader, right)?;
        self.tell(reader, &ReaderCall::Whole, answer, Moment::Entry(id))?;
        Ok(true)
    }

    fn count_whole(&mut self, ending: Whole, right_place: bool) {
        match ending {
            Whole::CutData { .. } if !right_place => {
                self.client.fault("the Rust's sum of owed bytes overflows, just as predicted");
            }
            Whole::CutSum { .. } if !right_place => {
                self.client.fault("a cut CRC puts the Rust elsewhere, just as predicted");
            }
            Whole::CutSum { .. } => self.client.count("whole entry: a CRC is cut at its first byte"),
            _ => {}
        }
        self.client.count(match ending {
            Whole::Complete => "whole entry: complete",
            Whole::Aborted => "whole entry: aborted",
            Whole::CutHeader => return,
            Whole::CutData { .. } => "whole entry: data is cut",
            Whole::CutSum { .. } => "whole entry: a CRC is cut",
            Whole::WrongSum { .. } => "whole entry: a CRC is wrong",
        });
    }
}

/// What `read_all_chunks` answered, which must be what the bytes say.
fn whole_answer(ending: Whole, began: u64, shown: Result<io::Result<Option<Vec<Vec<u8>>>>, String>) -> Verdict<Answer> {
    match (ending, shown) {
        (Whole::Complete, Ok(Ok(Some(chunks)))) => {
            Ok(Answer { words: [1, began, chunks.len() as u64, 0], chunks, ..Answer::default() })
        }
        (Whole::Aborted, Ok(Ok(None))) => Ok(Answer::words(&[2])),
        (Whole::CutHeader | Whole::CutSum { .. }, Ok(Err(err))) if err.kind() == ErrorKind::UnexpectedEof => {
            Ok(Answer::refused(9))
        }
        (Whole::CutData { owed, .. }, Ok(Err(err))) if owed < OVERFLOW && err.to_string() == TOO_EARLY => {
            Ok(Answer::refused(9))
        }
        (Whole::CutData { owed, .. }, Err(_)) if owed >= OVERFLOW => Ok(Answer::refused(9)),
        (Whole::WrongSum { .. }, Ok(Err(err))) if err.to_string() == WRONG_SUM => Ok(Answer::refused(10)),
        (ending, shown) => Err(Difference(format!("a whole entry that is {ending:?}: the Rust answers {shown:?}"))),
    }
}

/// The Rust reserves memory for all that a length announces, and ends the process where there is none.
fn check_memory(ending: Whole) -> Verdict {
    let Whole::CutData { length, .. } = ending else {
        return Ok(());
    };
    let reserved = Vec::<u8>::new().try_reserve_exact(length as usize);
    reserved.map_err(|_| Difference(format!("this machine cannot reserve the {length} bytes that the Rust asks for")))
}
