//! Writer states for the judge: valid ones that no trace leads to, and garbage.

use super::{
    numbers::{edge, nasty, slice_length},
    writer_case::WriterCase,
};
use crate::rng::Rng;

/// A state that keeps every rule of document 01, chosen freely within them and often at their ends. Words that the
/// moment does not use are anything.
pub fn valid(rng: &mut Rng) -> WriterCase {
    let info_length = if rng.chance(1, 2) { 0 } else { rng.below(256) };
    let room = rng.below(120);
    let image_size = edge(rng, 5 + info_length, 5 + info_length + room);
    let staging_size = rng.below(40);
    let (moment, chunk) = (rng.below(3), chunk_numbers(rng));
    // What the moment needs below the logical position, and what it reserves above.
    let (below, reserve) = [(0, 0), (9, 1), (14 + chunk[0] - chunk[1], chunk[1] + 5)][moment as usize];
    let fits = below + reserve <= image_size;
    let (moment, below, reserve) = if fits { (moment, below, reserve) } else { (0, 0, 0) };
    let logical = edge(rng, below, image_size - reserve);
    let staged = edge(rng, 0, staging_size.min(logical));
    let position = logical - staged;
    let state = vec![
        rng.pick(&[0, 1, 5, u64::MAX]),
        info_length,
        image_size,
        staging_size,
        edge(rng, position, image_size),
        position,
        staged,
        edge(rng, 0, position),
        rng.below(2),
        rng.next(),
        moment,
        rng.next(),
        edge(rng, 0, logical - below),
        chunk[0],
        chunk[1],
        chunk[2],
    ];
    with_buffers(rng, state, image_size as usize, staging_size as usize)
}

/// Length, owed bytes and sum of an open chunk.
fn chunk_numbers(rng: &mut Rng) -> [u64; 3] {
    let owed = rng.below(30);
    let taken = rng.below(30);
    let owed = if rng.chance(1, 3) { 0 } else { owed };
    [owed + taken, owed, u64::from(rng.next() as u32)]
}

/// Any words, near the sizes of the buffers.
pub fn garbage(rng: &mut Rng) -> WriterCase {
    let (image, staging) = (rng.below(120), rng.below(40));
    let mut state: Vec<u64> = (0..16).map(|_| nasty(rng, &[image, staging])).collect();
    if rng.chance(3, 4) {
        state[2] = image;
        state[3] = staging;
    }
    if rng.chance(3, 4) {
        state[8] = rng.below(3);
        state[10] = rng.below(4);
    }
    with_buffers(rng, state, image as usize, staging as usize)
}

/// Changes the lengths of some slices.
pub fn misfit(rng: &mut Rng, case: &mut WriterCase) {
    let lengths = [case.image.len(), case.staging.len()].map(|right| slice_length(rng, right));
    case.image.resize(lengths[0], 0x11);
    case.staging.resize(lengths[1], 0x22);
    case.state.resize(slice_length(rng, 16), 0x33);
    case.info.resize(slice_length(rng, 255), 0x44);
    case.answer.resize(slice_length(rng, 4), 0x55);
}

fn with_buffers(rng: &mut Rng, state: Vec<u64>, image: usize, staging: usize) -> WriterCase {
    WriterCase {
        state,
        info: rng.bytes(255),
        image: rng.bytes(image),
        staging: rng.bytes(staging),
        answer: vec![0x77; 4],
    }
}
