//! The independent judge: the library against the model, with any words, slices of any length and calls in any order.
//! After every call every word and byte must agree, and nothing may be written beside the slices.

mod guarded;
mod numbers;
mod reader_case;
mod reader_states;
mod writer_calls;
mod writer_case;
mod writer_states;

use std::time::{Duration, Instant};

use self::{
    numbers::{mutate, nasty},
    reader_case::ReaderCase,
    writer_case::WriterCase,
};
use crate::{
    calls::{ReaderCall, WriterCall, READER_NUMBERS, WRITER_NUMBERS},
    cover::{call_row, call_rows, Cover},
    difference::{same, same_bytes, Difference, Verdict},
    panics::caught,
    rng::Rng,
    sides::{Library, Model, Side},
};

const POSITION_NUMBERS: &[(&str, &[u64])] = &[("position_write", &[0, 5]), ("position_read", &[0, 12, 1])];

const OTHER_ROWS: [&str; 14] = [
    "sum",
    "image of 1,048,576",
    "image over 1,048,576",
    "staging of 65,536",
    "staging over 65,536",
    "entry found",
    "reading ended",
    "chunk found",
    "end of entry",
    "aborted entry",
    "data handed out",
    "CRC right",
    "CRC wrong",
    "whole entry with chunks",
];

/// Where a case's state comes from.
const ORIGINS: [&str; 4] = ["from an opening", "valid, from no opening", "garbage", "slices of other lengths"];

const OPENED: usize = 0;
const VALID: usize = 1;
const GARBAGE: usize = 2;
const MISFIT: usize = 3;

/// Rounds from one with the largest buffers to the next.
const LARGE_EVERY: u64 = 1000;

const PROGRESS: Duration = Duration::from_secs(10);

struct Judge {
    rng: Rng,
    cover: Cover,
    calls: u64,
    rounds: u64,
}

/// At least `calls` calls.
pub fn run(calls: u64, seed: u64) -> Verdict {
    println!("seed {seed}");
    let mut judge = Judge { rng: Rng::new(seed), cover: cover(), calls: 0, rounds: 0 };
    let (start, mut told) = (Instant::now(), Instant::now());
    while judge.calls < calls {
        judge.rng = Rng::for_trace(seed, judge.rounds);
        caught(|| judge.round())
            .unwrap_or_else(|text| Err(Difference(format!("a panic: {text}"))))
            .map_err(|err| err.within(format!("round {} of seed {seed}", judge.rounds)))?;
        judge.rounds += 1;
        if told.elapsed() >= PROGRESS {
            told = Instant::now();
            println!("{} of {calls} calls, {} s", judge.calls, start.elapsed().as_secs());
        }
    }
    print!("{}", judge.cover);
    judge.cover.check()?;
    println!("check-model: {} calls, no difference", judge.calls);
    Ok(())
}

fn cover() -> Cover {
    let origins = ORIGINS.iter().flat_map(|origin| {
        ["writer", "reader"].map(|side| [format!("{side} {origin}, accepted"), format!("{side} {origin}, refused")])
    });
    let others = OTHER_ROWS.iter().map(ToString::to_string);
    let calls = [WRITER_NUMBERS, READER_NUMBERS, POSITION_NUMBERS].into_iter().flat_map(call_rows);
    Cover::new("Library against model", calls.chain(origins.flatten()).chain(others).collect::<Vec<_>>())
}

impl Judge {
    fn round(&mut self) -> Verdict {
        self.small()?;
        if self.rounds.is_multiple_of(LARGE_EVERY) {
            self.large()?;
        }
        for origin in [OPENED, VALID, GARBAGE] {
            self.writer_round(origin)?;
            self.reader_round(origin)?;
        }
        Ok(())
    }

    fn writer_round(&mut self, origin: usize) -> Verdict {
        let mut case = match origin {
            OPENED => self.opened_writer()?,
            GARBAGE => writer_states::garbage(&mut self.rng),
            _ => writer_states::valid(&mut self.rng),
        };
        for _ in 0..self.rng.between(1, 24) {
            self.writer_beside(&case)?;
            let call = writer_calls::any(&mut self.rng, &case);
            self.ask_writer(&mut case, &call, origin)?;
        }
        Ok(())
    }

    /// Calls on copies: one with a word or two changed, one with slices of other lengths.
    fn writer_beside(&mut self, case: &WriterCase) -> Verdict {
        let mut other = case.clone();
        mutate(&mut self.rng, &mut other.state);
        let call = writer_calls::any(&mut self.rng, &other);
        self.ask_writer(&mut other, &call, GARBAGE)?;
        let mut other = case.clone();
        writer_states::misfit(&mut self.rng, &mut other);
        let call = writer_calls::any(&mut self.rng, &other);
        self.ask_writer(&mut other, &call, MISFIT)
    }

    fn opened_writer(&mut self) -> Verdict<WriterCase> {
        loop {
            let mut case = writer_states::garbage(&mut self.rng);
            let size = self.rng.between(5, 300) as usize;
            case.image = self.rng.bytes(size);
            let opening = writer_calls::opening(&mut self.rng, &case);
            self.ask_writer(&mut case, &WriterCall::Open(opening), OPENED)?;
            if case.state[2] != 0 {
                return Ok(case);
            }
        }
    }

    fn ask_writer(&mut self, case: &mut WriterCase, call: &WriterCall, origin: usize) -> Verdict {
        let before = case.clone();
        let number =
            case.ask(call).map_err(|err| err.within(format!("{} on {before}", shortened(&format!("{call:?}")))))?;
        self.count("writer", call.name(), number, origin);
        Ok(())
    }

    fn reader_round(&mut self, origin: usize) -> Verdict {
        let mut case = match origin {
            GARBAGE => reader_states::garbage(&mut self.rng),
            _ => reader_states::valid(&mut self.rng),
        };
        if origin == OPENED {
            let id = self.rng.below(3);
            self.ask_reader(&mut case, ReaderCall::Open(id), OPENED)?;
        }
        for _ in 0..self.rng.between(1, 24) {
            self.reader_beside(&case)?;
            let call = reader_states::any_call(&mut self.rng, &case);
            self.ask_reader(&mut case, call, origin)?;
        }
        Ok(())
    }

    fn reader_beside(&mut self, case: &ReaderCase) -> Verdict {
        let mut other = case.clone();
        mutate(&mut self.rng, &mut other.state);
        let call = reader_states::any_call(&mut self.rng, &other);
        self.ask_reader(&mut other, call, GARBAGE)?;
        let mut other = case.clone();
        reader_states::misfit(&mut self.rng, &mut other);
        let call = reader_states::any_call(&mut self.rng, &other);
        self.ask_reader(&mut other, call, MISFIT)
    }

    fn ask_reader(&mut self, case: &mut ReaderCase, call: ReaderCall, origin: usize) -> Verdict {
        let before = case.clone();
        let number = case.ask(&call).map_err(|err| err.within(format!("{call:?} on {before}")))?;
        self.count("reader", call.name(), number, origin);
        if number == 0 {
            self.count_answer(call, &case.answer);
        }
        Ok(())
    }

    fn count_answer(&mut self, call: ReaderCall, answer: &[u64]) {
        match (call, answer) {
            (ReaderCall::Entry, [1, ..]) => self.cover.count("entry found"),
            (ReaderCall::Entry, _) => self.cover.count("reading ended"),
            (ReaderCall::Chunk, [1, ..]) => self.cover.count("chunk found"),
            (ReaderCall::Chunk, [2, ..]) => self.cover.count("end of entry"),
            (ReaderCall::Chunk, _) => self.cover.count("aborted entry"),
            (ReaderCall::Data(_), [_, count, ..]) if *count > 0 => self.cover.count("data handed out"),
            (ReaderCall::CheckCrc, [1, ..]) => self.cover.count("CRC right"),
            (ReaderCall::CheckCrc, _) => self.cover.count("CRC wrong"),
            (ReaderCall::Whole, [1, _, count, ..]) if *count > 0 => self.cover.count("whole entry with chunks"),
            _ => {}
        }
    }

    fn count(&mut self, side: &str, name: &str, number: u64, origin: usize) {
        self.calls += 1;
        self.cover.count(&call_row(name, number));
        let verdict = if number == 0 { "accepted" } else { "refused" };
        self.cover.count(&format!("{side} {}, {verdict}", ORIGINS[origin]));
    }

    /// Positions and sums.
    fn small(&mut self) -> Verdict {
        let rng = &mut self.rng;
        let (file_id, offset, size) = (rng.next(), nasty(rng, &[]), rng.below(22) as usize);
        let mut ours = rng.bytes(size);
        let mut theirs = ours.clone();
        let number = Library.position_write(file_id, offset, &mut ours);
        same("position_write", number, Model.position_write(file_id, offset, &mut theirs))?;
        same_bytes("a position's bytes", &ours, &theirs)?;
        self.cover.count_call("position_write", number);
        let mut answers = [vec![7; self.rng.between(2, 6) as usize], Vec::new()];
        answers[1] = answers[0].clone();
        let number = Library.position_read(&ours, &mut answers[0]);
        same("position_read", number, Model.position_read(&theirs, &mut answers[1]))?;
        same("a position's words", &answers[0], &answers[1])?;
        self.cover.count_call("position_read", number);
        let (crc, size) = (self.rng.next() as u32, self.rng.below(80) as usize);
        let bytes = self.rng.bytes(size);
        same("the sum", Library.crc32c_append(crc, &bytes), Model.crc32c_append(crc, &bytes))?;
        self.cover.count("sum");
        self.calls += 3;
        Ok(())
    }

    /// Images and stagings at their largest, and one over.
    fn large(&mut self) -> Verdict {
        for (image, staging) in [(1_048_576, 65_536), (1_048_576, 65_537), (1_048_577, 65_536), (1_048_575, 0)] {
            let mut case = writer_states::garbage(&mut self.rng);
            case.image = vec![0x11; image];
            case.staging = vec![0x22; staging];
            self.cover.count_if("image of 1,048,576", image == 1_048_576);
            self.cover.count_if("image over 1,048,576", image > 1_048_576);
            self.cover.count_if("staging of 65,536", staging == 65_536);
            self.cover.count_if("staging over 65,536", staging > 65_536);
            let opening = writer_calls::opening(&mut self.rng, &case);
            self.ask_writer(&mut case, &WriterCall::Open(opening), OPENED)?;
            let id = case.state[0];
            let size = self.rng.below(1_048_540) as u32;
            let piece = vec![0x33; self.rng.below(u64::from(size) + 2) as usize];
            let calls =
                [WriterCall::Begin(id), WriterCall::BeginChunk(size), WriterCall::Write(piece), WriterCall::Flush];
            for call in calls {
                self.ask_writer(&mut case, &call, OPENED)?;
            }
            let mut reader = ReaderCase { state: vec![9; 10], image: case.image, answer: vec![9; 4] };
            for call in [ReaderCall::Open(id), ReaderCall::Entry, ReaderCall::Whole, ReaderCall::Entry] {
                self.ask_reader(&mut reader, call, OPENED)?;
            }
        }
        Ok(())
    }
}

/// The first part of a text that may be very long.
fn shortened(text: &str) -> String {
    const MOST: usize = 900;
    text.chars().take(MOST).collect()
}
