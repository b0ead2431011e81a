//! Reader traces: ours beside the Rust's, call by call.

mod compare;
pub mod images;
pub mod ours;
pub mod random;
pub mod short;
mod spoil;

use std::fs;

use self::{compare::Comparer, ours::Ours, random::RandomCalls, short::Listed};
use crate::{
    calls::{ReaderCall, READER_NUMBERS},
    cover::{call_rows, Cover},
    difference::{same, same_bytes, Verdict},
    rng::Rng,
    rust_reader,
    rust_writer::Bench,
};

/// Who chooses the calls of a trace.
pub trait Source {
    fn next(&mut self, ours: &Ours<'_>) -> Option<ReaderCall>;
}

const ROWS: &[&str] = &[
    "open: fewer than 5 bytes",
    "open: version info is cut",
    "entry: found",
    "entry: ended, fewer than 9 bytes",
    "entry: ended, another byte",
    "entry: ended, a low id",
    "entry: a chunk header is cut",
    "an ended reader says ended again",
    "an entry's chunks skipped",
    "stray 02 passed",
    "stray 03 passed",
    "valid_until past the image",
    "chunk: found",
    "chunk: end of entry",
    "chunk: aborted at the image's end",
    "chunk: aborted at another byte",
    "chunk: its header is cut",
    "chunk: length from 2^32 - 4 on",
    "an open chunk left with bytes owed",
    "data: none present of the bytes owed",
    "data: more than 8 KiB at once",
    "CRC: asked with bytes owed",
    "CRC: cut, no byte present",
    "CRC: cut, 1 to 3 bytes present",
    "CRC: right",
    "CRC: wrong",
    "whole entry: complete",
    "whole entry: aborted",
    "whole entry: a chunk header is cut",
    "whole entry: data is cut",
    "whole entry: a CRC is cut",
    "whole entry: a CRC is cut at its first byte",
    "whole entry: a CRC is wrong",
    "the Rust skips a chunk twice in read_entry, just as predicted",
    "the Rust's skip goes twice, just as predicted",
    "the Rust's skipping would end the process: led around",
    "the Rust's sum of owed bytes overflows, just as predicted",
    "a cut CRC puts the Rust elsewhere, just as predicted",
    "the Rust says aborted after a cut header, just as predicted",
    "the Rust reads on after the end, just as predicted",
];

pub fn cover() -> Cover {
    let rows = ROWS.iter().map(ToString::to_string);
    Cover::new("Reader", call_rows(READER_NUMBERS).chain(rows).collect::<Vec<_>>())
}

/// One random trace.
pub fn random(bench: &Bench, seed: u64, number: u64, cover: &mut Cover) -> Verdict<u64> {
    let mut rng = Rng::for_trace(seed.rotate_left(32), number);
    let mut spoiling = Rng::for_trace(seed.rotate_left(32), !number);
    let (image, file_id) = images::random(&mut rng);
    let mut calls = RandomCalls::new(&mut rng);
    run(bench, &image, file_id, &mut calls, &mut spoiling, cover)
}

/// One trace of given calls.
pub fn listed(bench: &Bench, image: &[u8], file_id: u64, calls: &[ReaderCall], cover: &mut Cover) -> Verdict<u64> {
    run(bench, image, file_id, &mut Listed(calls.iter()), &mut Rng::new(1), cover)
}

/// Runs a trace and reports its number of calls.
fn run(
    bench: &Bench,
    image: &[u8],
    file_id: u64,
    source: &mut dyn Source,
    spoiling: &mut Rng,
    cover: &mut Cover,
) -> Verdict<u64> {
    if image.len() > 1_048_576 {
        return too_large(image, file_id, cover);
    }
    let path = bench.folder().join("segment");
    fs::write(&path, image)?;
    let lent = image.to_vec();
    let mut client = Comparer::new(Ours::new(&lent), file_id, source, spoiling, cover);
    let verdict = rust_reader::drive(&path, image, file_id, &mut client);
    let calls = client.calls;
    verdict.map_err(|err| err.within(format!("{}\n  calls: {}", described(image, file_id), calls.join(", "))))?;
    same_bytes("the image after a reading", &lent, image)?;
    Ok(calls.len() as u64 + 1)
}

/// An image over the limit is refused with 12, an added refusal.
fn too_large(image: &[u8], file_id: u64, cover: &mut Cover) -> Verdict<u64> {
    let mut ours = Ours::new(image);
    let (number, _) = ours.call(&ReaderCall::Open(file_id));
    same("opening an image over the limit", number, 12)?;
    cover.count_call("reader_open", number);
    same("a refused opening's state", ours.words, [0, 0, 0, 0, 0, ours::ENDED, 0, 0, 0, 0])?;
    Ok(1)
}

fn described(image: &[u8], file_id: u64) -> String {
    let shown: String = image.iter().take(600).map(|byte| format!("{byte:02X} ")).collect();
    format!("file id {file_id}, image of {} bytes: {shown}", image.len())
}
