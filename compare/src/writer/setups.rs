//! Random files and openings: sizes at and beside every limit, fresh and continued, good and refused.

use crate::{calls::Opening, rng::Rng};

const LARGEST_IMAGE: u64 = 1_048_576;
const LARGEST_STAGING: u64 = 65_536;

/// A writer's buffers and opening.
#[derive(Debug, Clone)]
pub struct Trace {
    pub opening: Opening,
    pub image: Vec<u8>,
    pub staging: Vec<u8>,
}

pub fn random(rng: &mut Rng) -> Trace {
    let image_size = image_size(rng);
    let version_info = version_info(rng);
    let staging_size = staging_size(rng, version_info.len() as u64);
    let (validated_length, file_length) = lengths(rng, image_size);
    let last_known = rng.pick(&[0, 1]);
    let opening = Opening {
        version_info,
        id: rng.pick(&[0, 1, 2, 1000, u64::MAX - 3]),
        last_known: if rng.chance(1, 200) { rng.pick(&[2, u64::MAX]) } else { last_known },
        last_id: rng.pick(&[0, 1, 77, u64::MAX]),
        validated_length,
        file_length,
        preallocate: preallocate(rng, image_size),
    };
    Trace { opening, image: content(rng, image_size), staging: rng.bytes(staging_size as usize) }
}

fn image_size(rng: &mut Rng) -> u64 {
    match rng.below(1000) {
        0..=39 => rng.below(24),
        40..=699 => rng.between(24, 400),
        700..=949 => rng.between(400, 4096),
        950..=995 => rng.between(4096, 65_536),
        996..=998 => LARGEST_IMAGE,
        _ => LARGEST_IMAGE + 1,
    }
}

/// Garbage for small images: nothing may lean on zeros.
fn content(rng: &mut Rng, size: u64) -> Vec<u8> {
    if size > 65_536 {
        return vec![0xA5; size as usize];
    }
    rng.bytes(size as usize)
}

fn version_info(rng: &mut Rng) -> Vec<u8> {
    let length = match rng.below(100) {
        0..=59 => 0,
        60..=79 => rng.between(1, 12),
        80..=93 => rng.between(0, 255),
        94..=97 => rng.between(253, 255),
        _ => rng.pick(&[256, 257, 300]),
    };
    rng.bytes(length as usize)
}

/// From 0 to 80, at the length of each write and one off it, and at the largest.
fn staging_size(rng: &mut Rng, info: u64) -> u64 {
    match rng.below(100) {
        0..=54 => rng.below(81),
        55..=79 => {
            let write = rng.pick(&[1, 4, 5, 8, 9, info, info + 5]);
            (write + rng.below(3)).saturating_sub(1)
        }
        80..=93 => rng.between(80, 3000),
        94..=98 => LARGEST_STAGING,
        _ => LARGEST_STAGING + 1,
    }
}

/// Validated and file length.
fn lengths(rng: &mut Rng, image_size: u64) -> (u64, u64) {
    let file = rng.between(0, image_size);
    match rng.below(100) {
        0..=59 => (0, 0),
        60..=69 => (0, file),
        70..=71 => (file + 1, file),
        72 => (0, image_size + 1),
        73..=79 => (file, file),
        _ => (rng.between(0, file), file),
    }
}

fn preallocate(rng: &mut Rng, image_size: u64) -> u64 {
    match rng.below(100) {
        0..=24 => image_size.max(1),
        25..=39 => 1,
        40..=69 => rng.between(1, 64),
        70..=89 => rng.between(1, image_size.max(1)),
        90..=94 => (image_size / 2).max(1),
        95 => image_size + 1,
        96 => (1 << 32) - 1,
        97 => 1 << 32,
        98 => 0,
        _ => u64::MAX,
    }
}
