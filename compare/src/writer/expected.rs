//! Which number document 01 gives to a call, worked out apart from every implementation. Where the Rust has no answer
//! (12, 6, 7, 11, room), this is what ours is held to.

use super::ours::{Ours, IDLE, IN_CHUNK, IN_ENTRY};
use crate::calls::{Opening, WriterCall};

const LARGEST_IMAGE: u64 = 1_048_576;
const LARGEST_STAGING: u64 = 65_536;

/// The number of an opening.
pub fn opening_number(opening: &Opening, image_size: u64, staging_size: u64) -> u64 {
    let in_range = image_size <= LARGEST_IMAGE
        && staging_size <= LARGEST_STAGING
        && (1..1 << 32).contains(&opening.preallocate)
        && opening.validated_length <= opening.file_length
        && opening.file_length <= image_size
        && opening.last_known <= 1;
    if !in_range {
        return 12;
    }
    let info = opening.version_info.len() as u64;
    if info > 255 {
        return 4;
    }
    let blocks = opening.validated_length.div_ceil(opening.preallocate).max(1);
    if blocks * opening.preallocate > image_size || 5 + info > image_size {
        return 5;
    }
    0
}

/// The number of a later call on a state that an earlier one returned.
pub fn number(ours: &Ours, call: &WriterCall) -> u64 {
    match call {
        WriterCall::Open(opening) => opening_number(opening, ours.image.len() as u64, ours.staging.len() as u64),
        WriterCall::Begin(id) => begin_number(ours, *id),
        WriterCall::BeginChunk(_) if ours.moment() != IN_ENTRY => 6,
        WriterCall::BeginChunk(length) if u64::from(*length) + 10 > ours.room() => 5,
        WriterCall::Write(_) if ours.moment() != IN_CHUNK => 6,
        WriterCall::Finish if ours.moment() != IN_CHUNK => 6,
        WriterCall::Finish if ours.owed() > 0 => 8,
        WriterCall::Commit if ours.moment() != IN_ENTRY => 6,
        WriterCall::Rollback if ours.moment() == IDLE => 6,
        WriterCall::Recycle(_) if ours.moment() != IDLE => 6,
        WriterCall::LandStart(place) => landing_number(ours, i128::from(*place)),
        WriterCall::LandEnd(offset) => landing_number(ours, i128::from(ours.file_length()) + i128::from(*offset)),
        WriterCall::LandCurrent(offset) => landing_number(ours, i128::from(ours.logical()) + i128::from(*offset)),
        _ => 0,
    }
}

fn begin_number(ours: &Ours, id: u64) -> u64 {
    if ours.moment() != IDLE {
        return 6;
    }
    if id < ours.id() {
        return 7;
    }
    if ours.room() < 10 {
        return 5;
    }
    0
}

fn landing_number(ours: &Ours, place: i128) -> u64 {
    if (0..=i128::from(ours.image_size())).contains(&place) {
        0
    } else {
        11
    }
}
