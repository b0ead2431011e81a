//! Writer traces: ours beside the Rust's, call by call.

mod back;
mod compare;
pub mod expected;
pub mod ours;
pub mod random;
pub mod setups;
pub mod short;
mod spoil;

use self::{back::Committed, compare::Comparer, ours::Ours, random::RandomCalls, setups::Trace, short::Listed};
use crate::{
    calls::{WriterCall, WRITER_NUMBERS},
    cover::{call_rows, Cover},
    difference::{holds, same, Difference, Verdict},
    rng::Rng,
    rust_writer::{self, Bench, Setup},
};

/// Who chooses the calls of a trace.
pub trait Source {
    fn next(&mut self, ours: &Ours) -> Option<WriterCall>;
}

const ROWS: &[&str] = &[
    "opened fresh",
    "opened with a validated length",
    "opened with staging 65,536",
    "opened with an image of 1,048,576",
    "stored straight into the image",
    "full staging flushed",
    "rollback, staged",
    "rollback below the buffer",
    "rollback in a chunk",
    "recycle with the start staged",
    "recycle below the buffer",
    "sync with nothing to do",
    "sync that moves the number",
    "read back by both readers",
    "empty piece",
    "piece longer than the bytes owed",
    "empty chunk",
    "staging 0",
    "image exactly full",
    "image full but for the reserve",
    "staging exactly full",
    "staging one short of full",
    "the Rust flushed an old tail, just as predicted",
    "the Rust wrote dropped bytes out, just as predicted",
    "the Rust's length lies behind, just as predicted",
    "the Rust refuses long version info too",
    "the Rust takes long version info at L > 0, just as predicted",
];

pub fn cover() -> Cover {
    let rows = ROWS.iter().map(ToString::to_string);
    Cover::new("Writer", call_rows(WRITER_NUMBERS).chain(rows).collect::<Vec<_>>())
}

/// One random trace.
pub fn random(bench: &Bench, seed: u64, number: u64, cover: &mut Cover) -> Verdict<u64> {
    let mut rng = Rng::for_trace(seed, number);
    let mut spoiling = Rng::for_trace(seed, !number);
    let trace = setups::random(&mut rng);
    let mut calls = RandomCalls::new(&mut rng);
    run(bench, &trace, &mut calls, &mut spoiling, cover)
}

/// One trace of given calls.
pub fn listed(bench: &Bench, trace: &Trace, calls: &[WriterCall], cover: &mut Cover) -> Verdict<u64> {
    run(bench, trace, &mut Listed(calls.iter()), &mut Rng::new(1), cover)
}

/// Runs a trace and reports its number of calls.
fn run(bench: &Bench, trace: &Trace, source: &mut dyn Source, spoiling: &mut Rng, cover: &mut Cover) -> Verdict<u64> {
    let mut ours = Ours::new(trace.image.clone(), trace.staging.clone());
    let call = WriterCall::Open(trace.opening.clone());
    let expected = expected::number(&ours, &call);
    let (number, _) = ours.call(&call);
    same("number of an opening", number, expected)?;
    cover.count_call("writer_open", number);
    if number != 0 {
        refused_opening(bench, trace, &ours, number, cover)?;
        return Ok(1);
    }
    count_opening(trace, cover);
    let file = &trace.image[..trace.opening.file_length as usize];
    let setup = Setup { opening: &trace.opening, file, staging: trace.staging.len() };
    let mut client = Comparer::new(ours, source, spoiling, cover);
    let verdict = rust_writer::drive(bench, &setup, &mut client);
    let Comparer { ours, calls, committed, .. } = client;
    verdict
        .and_then(|()| read_back(bench, trace, ours, &committed, cover))
        .map_err(|err| err.within(format!("{}\n  calls: {}", described(trace), calls.join(", "))))?;
    Ok(calls.len() as u64 + 1)
}

fn read_back(bench: &Bench, trace: &Trace, ours: Ours, committed: &Committed, cover: &mut Cover) -> Verdict {
    let fresh = trace.opening.validated_length == 0;
    cover.count_if("read back by both readers", fresh && committed.check(bench, ours)?);
    Ok(())
}

fn count_opening(trace: &Trace, cover: &mut Cover) {
    let fresh = trace.opening.validated_length == 0;
    cover.count(if fresh { "opened fresh" } else { "opened with a validated length" });
    cover.count_if("staging 0", trace.staging.is_empty());
    cover.count_if("opened with staging 65,536", trace.staging.len() == 65_536);
    cover.count_if("opened with an image of 1,048,576", trace.image.len() == 1_048_576);
}

/// A refused opening hands back zeros and touches no buffer. Of its causes the Rust knows only version info over 255,
/// and that at L = 0 alone.
fn refused_opening(bench: &Bench, trace: &Trace, ours: &Ours, number: u64, cover: &mut Cover) -> Verdict {
    holds("a refused opening's state is zeros", ours.words == [0; 16] && ours.info == [0; 255])?;
    holds("a refused opening touches no buffer", ours.image == trace.image && ours.staging == trace.staging)?;
    spoil::ask_after_refused_opening(ours)?;
    if number != 4 {
        return Ok(());
    }
    let file = &trace.image[..trace.opening.file_length as usize];
    let theirs = bench.open(&Setup { opening: &trace.opening, file, staging: trace.staging.len() });
    match (theirs, trace.opening.validated_length) {
        (Err(_), 0) => cover.count("the Rust refuses long version info too"),
        (Ok(_), 1..) => cover.count("the Rust takes long version info at L > 0, just as predicted"),
        (theirs, length) => {
            return Err(Difference(format!("long version info at L = {length}: the Rust answers {theirs:?}")))
        }
    }
    Ok(())
}

fn described(trace: &Trace) -> String {
    format!("image {}, staging {}, {:?}", trace.image.len(), trace.staging.len(), trace.opening)
}
