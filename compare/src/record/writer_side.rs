//! Recorded writer traces.

use super::text::{hex, joined};
use crate::{
    calls::{Opening, WriterCall},
    difference::Verdict,
    rng::Rng,
    rust_writer::{self, Bench, Client, Moment, Setup, View},
    writer::{expected, ours::Ours, random::RandomCalls, setups::Trace, Source},
};

const LARGEST_PIECE: usize = 120;

struct Recorder<'a> {
    trace: &'a Trace,
    source: RandomCalls<'a>,
    lines: &'a mut Vec<String>,
    over: bool,
}

pub fn record(bench: &Bench, rng: &mut Rng, lines: &mut Vec<String>) -> Verdict {
    let trace = trace(rng);
    let file = &trace.image[..trace.opening.file_length as usize];
    let setup = Setup { opening: &trace.opening, file, staging: trace.staging.len() };
    let mut recorder = Recorder { trace: &trace, source: RandomCalls::new(rng), lines, over: false };
    rust_writer::drive(bench, &setup, &mut recorder)
}

/// Small files, so that the list stays readable.
fn trace(rng: &mut Rng) -> Trace {
    let info = if rng.chance(1, 3) { rng.below(9) } else { 0 };
    let image_size = rng.between(5 + info, 160);
    let file_length = if rng.chance(1, 2) { 0 } else { rng.between(0, image_size) };
    let validated_length = if rng.chance(1, 2) { 0 } else { rng.between(0, file_length) };
    let blocks = rng.between(1, 4);
    let opening = Opening {
        version_info: rng.bytes(info as usize),
        id: rng.pick(&[0, 1, 7, 1 << 40]),
        last_known: rng.below(2),
        last_id: rng.below(9),
        validated_length,
        file_length,
        preallocate: (image_size / blocks).max(1),
    };
    let staging = rng.pick(&[0, 1, 3, 4, 5, 8, 9, 13, 16, 24, 40, 64, 200]);
    Trace { opening, image: rng.bytes(image_size as usize), staging: vec![0; staging] }
}

impl Recorder<'_> {
    /// What the Rust shows, in the words from which calls are chosen.
    fn words(&self, view: &View) -> Ours {
        let mut ours = Ours::new(vec![0; self.trace.image.len()], vec![0; self.trace.staging.len()]);
        ours.words.fill(0);
        ours.words[..8].copy_from_slice(&[
            view.id,
            view.version_info.len() as u64,
            self.trace.image.len() as u64,
            self.trace.staging.len() as u64,
            view.disk_length,
            view.position,
            view.staged as u64,
            view.synchronized,
        ]);
        match view.moment {
            Moment::Idle => {}
            Moment::Entry { .. } => ours.words[10] = 1,
            Moment::Chunk { chunk, .. } => {
                ours.words[10] = 2;
                ours.words[14] = u64::from(chunk.owed);
            }
        }
        ours
    }

    fn line(&mut self, call: &str, answer: [u64; 4], view: &View) {
        let mut segment = view.below.clone();
        segment.extend(view.staged_bytes());
        let last = [u64::from(view.last.is_some()), view.last.unwrap_or(0)];
        let numbers = [view.position, view.staged as u64, view.disk_length, view.synchronized];
        let sum = u64::from(crc32c::crc32c(&segment));
        let all = [&[0], answer.as_slice(), &numbers, &last, &[sum]].concat();
        self.lines.push(format!("{call} = {}", joined(&all)));
    }
}

impl Client for Recorder<'_> {
    fn opened(&mut self, view: &View, _file: &[u8]) -> Verdict {
        let opening = &self.trace.opening;
        let numbers = [
            opening.id,
            opening.last_known,
            opening.last_id,
            opening.validated_length,
            opening.file_length,
            opening.preallocate,
            self.trace.image.len() as u64,
            self.trace.staging.len() as u64,
        ];
        let file = &self.trace.image[..opening.file_length as usize];
        let call = format!("open {} {} {}", joined(&numbers), hex(&opening.version_info), hex(file));
        self.line(&call, [0; 4], view);
        Ok(())
    }

    /// Calls that the Rust has by itself: none that ours refuses, none that the harness leads around.
    fn next(&mut self, view: &View) -> Verdict<Option<WriterCall>> {
        if self.over {
            return Ok(None);
        }
        let ours = self.words(view);
        while let Some(mut call) = self.source.next(&ours) {
            if let WriterCall::Write(bytes) = &mut call {
                bytes.truncate(LARGEST_PIECE);
            }
            let in_chunk = matches!(view.moment, Moment::Chunk { .. });
            let own = !in_chunk || matches!(call, WriterCall::Write(_) | WriterCall::Finish);
            if own && expected::number(&ours, &call) == 0 {
                return Ok(Some(call));
            }
        }
        Ok(None)
    }

    fn told(&mut self, call: &WriterCall, answer: [u64; 4], view: &View) -> Verdict {
        self.over = view.events.tail_flushed || view.disk_length != view.file_length;
        if !self.over {
            self.line(&said(call), answer, view);
        }
        Ok(())
    }
}

fn said(call: &WriterCall) -> String {
    match call {
        WriterCall::Open(_) => String::from("open"),
        WriterCall::Begin(id) => format!("begin {id}"),
        WriterCall::BeginChunk(length) => format!("chunk {length}"),
        WriterCall::Write(bytes) => format!("write {}", hex(bytes)),
        WriterCall::Finish => String::from("finish"),
        WriterCall::Commit => String::from("commit"),
        WriterCall::Rollback => String::from("rollback"),
        WriterCall::Recycle(id) => format!("recycle {id}"),
        WriterCall::Flush => String::from("flush"),
        WriterCall::Sync(target) => format!("sync {target}"),
        WriterCall::LandStart(place) => format!("start {place}"),
        WriterCall::LandEnd(offset) => format!("end {offset}"),
        WriterCall::LandCurrent(offset) => format!("current {offset}"),
    }
}
