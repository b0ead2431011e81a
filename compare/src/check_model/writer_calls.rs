//! Writer's calls for the judge, with arguments near the state's own numbers and near every limit.

use super::{
    numbers::{nasty, nasty_signed},
    writer_case::WriterCase,
};
use crate::{
    calls::{Opening, WriterCall},
    rng::Rng,
};

/// Mostly a call that belongs to the state's moment.
pub fn any(rng: &mut Rng, case: &WriterCase) -> WriterCall {
    let moment = case.state.get(10).copied().unwrap_or(0);
    match (moment, rng.below(10)) {
        (0, 0..=3) => WriterCall::Begin(entry_id(rng, case)),
        (0, 4) => WriterCall::Recycle(nasty(rng, &case.state)),
        (1, 0..=3) => WriterCall::BeginChunk(chunk_length(rng, case)),
        (1, 4) => WriterCall::Commit,
        (2, 0..=2) => WriterCall::Write(piece(rng, case)),
        (2, 3 | 4) => WriterCall::Finish,
        (_, 5) => WriterCall::Sync(nasty(rng, &case.state)),
        _ => of_any_moment(rng, case),
    }
}

fn of_any_moment(rng: &mut Rng, case: &WriterCase) -> WriterCall {
    let known = &case.state;
    match rng.below(13) {
        0 => WriterCall::Open(opening(rng, case)),
        1 => WriterCall::Begin(entry_id(rng, case)),
        2 => WriterCall::BeginChunk(chunk_length(rng, case)),
        3 => WriterCall::Write(piece(rng, case)),
        4 => WriterCall::Finish,
        5 => WriterCall::Commit,
        6 => WriterCall::Rollback,
        7 => WriterCall::Recycle(nasty(rng, known)),
        8 => WriterCall::Flush,
        9 => WriterCall::Sync(nasty(rng, known)),
        10 => WriterCall::LandStart(nasty(rng, known)),
        11 => WriterCall::LandEnd(nasty_signed(rng, known)),
        _ => WriterCall::LandCurrent(nasty_signed(rng, known)),
    }
}

pub fn opening(rng: &mut Rng, case: &WriterCase) -> Opening {
    let image = case.image.len() as u64;
    let info = match rng.below(6) {
        0 => rng.between(250, 258),
        1 => rng.below(256),
        2 => rng.near(image.saturating_sub(5)).min(300),
        _ => rng.below(6),
    };
    let file_length = length(rng, image);
    Opening {
        version_info: rng.bytes(info as usize),
        id: nasty(rng, &[]),
        last_known: if rng.chance(1, 20) { nasty(rng, &[]) } else { rng.below(2) },
        last_id: rng.next(),
        validated_length: if rng.chance(1, 2) { 0 } else { length(rng, file_length) },
        file_length,
        preallocate: match rng.below(4) {
            0 => nasty(rng, &[image, file_length]),
            1 => rng.near(image),
            _ => rng.between(1, image.max(1)),
        },
    }
}

fn length(rng: &mut Rng, limit: u64) -> u64 {
    match rng.below(6) {
        0 => nasty(rng, &[limit]),
        1 => limit,
        _ => rng.between(0, limit),
    }
}

fn entry_id(rng: &mut Rng, case: &WriterCase) -> u64 {
    let own = case.state.first().copied().unwrap_or(0);
    match rng.below(4) {
        0 => rng.next(),
        1 => own.wrapping_sub(1),
        _ => own.saturating_add(rng.below(3)),
    }
}

fn chunk_length(rng: &mut Rng, case: &WriterCase) -> u32 {
    let logical = position(case);
    let room = (case.image.len() as u64).saturating_sub(logical).saturating_sub(10);
    match rng.below(4) {
        0 => rng.near(room) as u32,
        1 => nasty(rng, &[room]) as u32,
        _ => rng.below(room + 1) as u32,
    }
}

fn piece(rng: &mut Rng, case: &WriterCase) -> Vec<u8> {
    let owed = case.state.get(14).copied().unwrap_or(0).min(300);
    let staging = case.staging.len() as u64;
    let count = match rng.below(5) {
        0 => rng.near(owed),
        1 => rng.near(staging),
        2 => 0,
        _ => rng.below(owed + 3),
    };
    rng.bytes(count.min(400) as usize)
}

fn position(case: &WriterCase) -> u64 {
    let word = |at: usize| case.state.get(at).copied().unwrap_or(0);
    word(5).wrapping_add(word(6))
}
