//! Recorded reader traces.

use std::fs;

use super::text::{hex, joined};
use crate::{
    calls::ReaderCall,
    difference::Verdict,
    reader::{images, ours::Ours, random::RandomCalls, Source},
    rng::Rng,
    rust_reader::{self, Answer, Client, Moment, View},
    rust_writer::Bench,
};

const LARGEST: usize = 180;

struct Recorder<'a> {
    image: &'a [u8],
    file_id: u64,
    source: RandomCalls<'a>,
    lines: &'a mut Vec<String>,
    /// What the Rust showed last, in the words from which calls are chosen.
    words: [u64; 10],
    over: bool,
}

pub fn record(bench: &Bench, rng: &mut Rng, lines: &mut Vec<String>) -> Verdict {
    let (mut image, file_id) = images::random(rng);
    image.truncate(LARGEST);
    let path = bench.folder().join("segment");
    fs::write(&path, &image)?;
    let source = RandomCalls::new(rng);
    let mut recorder = Recorder { image: &image, file_id, source, lines, words: [0; 10], over: false };
    rust_reader::drive(&path, &image, file_id, &mut recorder)
}

impl Client for Recorder<'_> {
    fn opened(&mut self, number: u64, version_info: &[u8]) -> Verdict {
        let call = format!("reader {} {}", self.file_id, hex(self.image));
        if number != 0 {
            self.lines.push(format!("{call} = {number}"));
            return Ok(());
        }
        let place = 5 + version_info.len() as u64;
        self.words[3] = place;
        self.lines.push(format!("{call} = {}", joined(&[0, 0, 0, 0, 0, place, place, 0])));
        Ok(())
    }

    /// Calls that the Rust has at this moment.
    fn next(&mut self) -> Verdict<Option<ReaderCall>> {
        let ours = Ours { words: self.words, image: self.image };
        while !self.over {
            let Some(call) = self.source.next(&ours) else {
                break;
            };
            let own = match call {
                ReaderCall::Entry => ours.moment() < 3,
                ReaderCall::Chunk | ReaderCall::Whole => ours.moment() == 1 || ours.moment() == 2,
                _ => ours.moment() == 2,
            };
            if own {
                return Ok(Some(call));
            }
        }
        Ok(None)
    }

    fn told(&mut self, call: &ReaderCall, answer: &Answer, view: &View) -> Verdict {
        let (moment, owed) = match view.moment {
            Moment::NoEntry => (0, 0),
            Moment::Entry(_) => (1, 0),
            Moment::Chunk { owed, .. } => (2, owed),
            Moment::Ended => (3, 0),
        };
        self.words = [0, 0, 0, view.place, view.valid_until, moment, 0, 0, 0, owed];
        if self.over {
            return Ok(());
        }
        let numbers = [&[answer.number], answer.words.as_slice(), &[view.place, view.valid_until, owed]].concat();
        let data = if let ReaderCall::Data(_) = call { format!(" {}", hex(&answer.data)) } else { String::new() };
        self.lines.push(format!("{} = {}{data}", said(call), joined(&numbers)));
        Ok(())
    }

    fn count(&mut self, _row: &'static str) {}

    fn fault(&mut self, _row: &'static str) {
        self.over = true;
    }
}

fn said(call: &ReaderCall) -> String {
    match call {
        ReaderCall::Open(file_id) => format!("reader {file_id}"),
        ReaderCall::Entry => String::from("entry"),
        ReaderCall::Chunk => String::from("next"),
        ReaderCall::Data(asked) => format!("data {asked}"),
        ReaderCall::CheckCrc => String::from("check"),
        ReaderCall::Skip => String::from("skip"),
        ReaderCall::Whole => String::from("whole"),
    }
}
