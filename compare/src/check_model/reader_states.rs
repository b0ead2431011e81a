//! Reader states and images for the judge: valid ones that no opening leads to, and garbage.

use super::{
    numbers::{edge, nasty, slice_length},
    reader_case::ReaderCase,
};
use crate::{
    calls::ReaderCall,
    reader::images::{self, Image},
    rng::Rng,
};

/// A state that keeps the rules of document 01, chosen freely within them and often at their ends.
pub fn valid(rng: &mut Rng) -> ReaderCase {
    let image = image(rng);
    let size = image.len() as u64;
    let offset = if rng.chance(1, 4) { nasty(rng, &[size]).min(1 << 33) } else { mark_in(rng, &image) };
    let length = chunk_length(rng, &image, offset);
    let owed = edge(rng, 0, length.min(u64::from(u32::MAX)));
    let moment = rng.pick(&[0, 1, 1, 2, 2, 2, 3]);
    let in_chunk = offset + 5 + length - owed;
    let place = match moment {
        2 => in_chunk.min(1 << 33),
        _ if rng.chance(1, 2) => mark_in(rng, &image),
        _ => nasty(rng, &[size]).min(1 << 33),
    };
    let state = vec![
        rng.pick(&[0, 1, 2, u64::MAX]),
        size,
        rng.below(300),
        place,
        nasty(rng, &[size]),
        moment,
        rng.next(),
        offset,
        length,
        owed,
    ];
    ReaderCase { state, image, answer: vec![0x77; 4] }
}

/// The length that stands at the offset, or any other.
fn chunk_length(rng: &mut Rng, image: &[u8], offset: u64) -> u64 {
    let at = usize::try_from(offset).unwrap_or(usize::MAX).saturating_add(1);
    let stands = image.get(at..at.saturating_add(4)).map(|bytes| u32::from_le_bytes(bytes.try_into().expect("four")));
    match (stands, rng.below(4)) {
        (Some(length), 0 | 1) => u64::from(length),
        (Some(_), 2) => edge(rng, 0, (image.len() as u64).saturating_sub(offset + 5)),
        // At the largest, and over it: then this is the only rule that is broken.
        (_, 3) => (1 << 32) + 3 - rng.below(9),
        _ => rng.below(30),
    }
}

/// The place of a 01, 02 or 03 of the image, if it has one behind where we look.
fn mark_in(rng: &mut Rng, image: &[u8]) -> u64 {
    let start = rng.below(image.len() as u64 + 1) as usize;
    let found = image[start..].iter().position(|byte| (1..=3).contains(byte));
    (start + found.unwrap_or(0)) as u64
}

/// Any words, near the size of the image.
pub fn garbage(rng: &mut Rng) -> ReaderCase {
    let image = image(rng);
    let size = image.len() as u64;
    let mut state: Vec<u64> = (0..10).map(|_| nasty(rng, &[size])).collect();
    if rng.chance(3, 4) {
        state[1] = size;
        state[5] = rng.below(5);
    }
    ReaderCase { state, image, answer: vec![0x77; 4] }
}

fn image(rng: &mut Rng) -> Vec<u8> {
    match rng.below(4) {
        0 => {
            let size = rng.below(60);
            (0..size).map(|_| rng.below(5) as u8).collect()
        }
        1 => cut_header(rng),
        _ => {
            let mut image = images::random(rng).0;
            image.truncate(2000);
            image
        }
    }
}

/// A chunk header that the image's end cuts, behind an entry's chunks.
fn cut_header(rng: &mut Rng) -> Vec<u8> {
    let mut image = Image::header(&[]).entry(u64::MAX);
    for length in 0..rng.below(3) {
        image = image.chunk(&vec![7; length as usize]);
    }
    let rest = rng.below(6) as usize;
    image.bytes(&[2]).zeros(rest).0
}

pub fn misfit(rng: &mut Rng, case: &mut ReaderCase) {
    let length = slice_length(rng, case.image.len());
    case.image.resize(length, 2);
    case.state.resize(slice_length(rng, 10), 0x33);
    case.answer.resize(slice_length(rng, 4), 0x55);
}

/// Mostly a call that belongs to the state's moment.
pub fn any_call(rng: &mut Rng, case: &ReaderCase) -> ReaderCall {
    let word = |at: usize| case.state.get(at).copied().unwrap_or(0);
    match (word(5), rng.below(10)) {
        (0, 0..=4) => ReaderCall::Entry,
        (1, 0..=3) => ReaderCall::Chunk,
        (1, 4 | 5) => ReaderCall::Whole,
        (2, 0..=2) if word(9) == 0 => ReaderCall::CheckCrc,
        (2, 0..=2) => ReaderCall::Data(nasty(rng, &[word(9)])),
        (2, 3 | 4) => ReaderCall::Data(word(9)),
        _ => of_any_moment(rng, case),
    }
}

fn of_any_moment(rng: &mut Rng, case: &ReaderCase) -> ReaderCall {
    match rng.below(8) {
        0 => ReaderCall::Open(nasty(rng, &[])),
        1 => ReaderCall::Open(0),
        2 => ReaderCall::Entry,
        3 => ReaderCall::Chunk,
        4 => ReaderCall::Data(nasty(rng, &case.state)),
        5 => ReaderCall::CheckCrc,
        6 => ReaderCall::Skip,
        _ => ReaderCall::Whole,
    }
}
