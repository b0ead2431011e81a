//! Calls with a state or buffers that break one rule: always 12, and nothing changes. The Rust has no such answer.

use super::ours::{Ours, IDLE, IN_CHUNK};
use crate::{
    calls::WriterCall,
    difference::{holds, same, Verdict},
    rng::Rng,
    sides::{Library, Side},
};

const UNTOUCHED: [u64; 4] = [7; 4];

/// Asks a call of a copy with one rule broken.
pub fn ask(ours: &Ours, call: &WriterCall, rng: &mut Rng) -> Verdict {
    let mut spoiled = ours.clone();
    let (image, staging) = spoil(&mut spoiled, rng);
    let before = spoiled.clone();
    let mut answer = UNTOUCHED;
    let mut desk = spoiled.desk();
    desk.image = &mut desk.image[..image];
    desk.staging = &mut desk.staging[..staging];
    let number = Library.writer(&mut desk, call, &mut answer);
    same("a call with a broken rule", number, 12)?;
    holds("a call with a broken rule changes nothing", spoiled == before)?;
    same("answers beside a refusal", answer, if call.has_answer() { [0; 4] } else { UNTOUCHED })
}

/// After a refused opening every call is refused with 12.
pub fn ask_after_refused_opening(ours: &Ours) -> Verdict {
    let mut ours = ours.clone();
    let before = ours.clone();
    let calls = [
        WriterCall::Begin(0),
        WriterCall::BeginChunk(0),
        WriterCall::Write(vec![1]),
        WriterCall::Finish,
        WriterCall::Commit,
        WriterCall::Rollback,
        WriterCall::Recycle(0),
        WriterCall::Flush,
        WriterCall::Sync(0),
        WriterCall::LandStart(0),
        WriterCall::LandEnd(0),
        WriterCall::LandCurrent(0),
    ];
    for call in calls {
        same("a call after a refused opening", ours.call(&call).0, 12)?;
    }
    holds("calls after a refused opening change nothing", ours == before)
}

/// Breaks one rule; the sizes of the buffers to lend.
fn spoil(ours: &mut Ours, rng: &mut Rng) -> (usize, usize) {
    let (image, staging) = (ours.image.len(), ours.staging.len());
    let words = &mut ours.words;
    match rng.below(13) {
        0 => return (image - 1, staging),
        1 if staging > 0 => return (image, staging - 1),
        2 => words[1] = 256,
        3 => words[2] += 1,
        4 => words[3] += 1,
        5 => words[4] = words[2] + 1,
        6 => words[5] = words[4] + 1,
        7 => words[6] = words[3] + 1,
        8 => words[7] = words[5] + 1,
        9 => words[8] = 2,
        10 if words[10] != IDLE => words[12] = words[5] + words[6] - 8,
        11 if words[10] == IN_CHUNK => words[14] = words[13] + 1,
        12 if words[10] == IN_CHUNK => words[15] = 1 << 32,
        _ => words[10] = 3,
    }
    (image, staging)
}
