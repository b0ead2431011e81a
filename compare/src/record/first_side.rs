//! The first entry and the first chunk of an image, recorded for the functions that read them alone.

use std::fs;

use super::text::{hex, joined};
use crate::{
    calls::ReaderCall,
    difference::Verdict,
    reader::images,
    rng::Rng,
    rust_reader::{self, Answer, Client, Moment, View},
    rust_writer::Bench,
};

const LARGEST: usize = 120;

/// Calls in a row, as far as the Rust has them, and what it answered.
struct Script {
    calls: Vec<ReaderCall>,
    moment: Moment,
    opening: u64,
    told: Vec<(Answer, View)>,
    over: bool,
}

pub fn record(bench: &Bench, rng: &mut Rng, lines: &mut Vec<String>) -> Verdict {
    let (mut image, file_id) = images::random(rng);
    image.truncate(LARGEST);
    let asked = rng.below(20);
    let path = bench.folder().join("segment");
    fs::write(&path, &image)?;
    let words = format!("{file_id} {}", hex(&image));

    let mut script = Script::new(&[ReaderCall::Entry, ReaderCall::Whole]);
    rust_reader::drive(&path, &image, file_id, &mut script)?;
    if !script.over {
        lines.push(format!("first {words} = {}", script.first()));
    }

    let all = ReaderCall::Data(u64::from(u32::MAX));
    let calls = [ReaderCall::Entry, ReaderCall::Chunk, ReaderCall::Data(asked), all, ReaderCall::CheckCrc];
    let mut script = Script::new(&calls);
    rust_reader::drive(&path, &image, file_id, &mut script)?;
    if let (false, [_, _, (data, _), _, (check, _)]) = (script.over, script.told.as_slice()) {
        let crc = joined(&[check.number, check.words[0]]);
        lines.push(format!("bytes {words} {asked} = {} {crc}", hex(&data.data)));
    }
    Ok(())
}

impl Script {
    fn new(calls: &[ReaderCall]) -> Self {
        let calls = calls.iter().rev().cloned().collect();
        Self { calls, moment: Moment::NoEntry, opening: 0, told: Vec::new(), over: false }
    }

    /// The opening's number; number and words of the entry; those of the whole entry, and the place behind it.
    fn first(&self) -> String {
        let mut numbers = vec![self.opening];
        for (answer, _) in &self.told {
            numbers.push(answer.number);
            numbers.extend(answer.words);
        }
        if let [_, (_, view)] = self.told.as_slice() {
            numbers.extend([view.place, view.valid_until]);
        }
        joined(&numbers)
    }
}

impl Client for Script {
    fn opened(&mut self, number: u64, _version_info: &[u8]) -> Verdict {
        self.opening = number;
        Ok(())
    }

    /// The next call, if it is one that the Rust has at this moment.
    fn next(&mut self) -> Verdict<Option<ReaderCall>> {
        let own = match self.calls.last() {
            Some(ReaderCall::Entry) => self.moment != Moment::Ended,
            Some(ReaderCall::Chunk | ReaderCall::Whole) => matches!(self.moment, Moment::Entry(_)),
            Some(ReaderCall::CheckCrc) => matches!(self.moment, Moment::Chunk { owed: 0, .. }),
            Some(_) => matches!(self.moment, Moment::Chunk { .. }),
            None => false,
        };
        Ok(if own && !self.over { self.calls.pop() } else { None })
    }

    fn told(&mut self, _call: &ReaderCall, answer: &Answer, view: &View) -> Verdict {
        self.moment = view.moment;
        self.told.push((answer.clone(), *view));
        Ok(())
    }

    fn count(&mut self, _row: &'static str) {}

    fn fault(&mut self, _row: &'static str) {
        self.over = true;
    }
}
