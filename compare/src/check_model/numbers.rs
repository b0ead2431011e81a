//! Numbers that break things: near zero, near every limit, near the sizes at hand.

use crate::rng::Rng;

const LIMITS: &[u64] =
    &[0, 5, 9, 14, 255, 65_536, 1_048_576, 1 << 31, u32::MAX as u64, 1 << 32, 1 << 33, 1 << 63, u64::MAX];

/// A number near a limit, near one of `local`, or any at all.
pub fn nasty(rng: &mut Rng, local: &[u64]) -> u64 {
    match rng.below(8) {
        0 => rng.next(),
        1 | 2 => off_by(rng, LIMITS, 2),
        3 => rng.below(20),
        _ if local.is_empty() => rng.below(40),
        _ => off_by(rng, local, 10),
    }
}

/// One of the numbers, or at most `most` off it, around the ends if need be.
fn off_by(rng: &mut Rng, numbers: &[u64], most: u64) -> u64 {
    let off = rng.below(2 * most + 1);
    rng.pick(numbers).wrapping_add(off).wrapping_sub(most)
}

/// The same, signed.
pub fn nasty_signed(rng: &mut Rng, local: &[u64]) -> i64 {
    let number = nasty(rng, local) as i64;
    match rng.below(6) {
        0 => i64::MIN.wrapping_add(rng.below(3) as i64),
        1 | 2 => number.wrapping_neg(),
        _ => number,
    }
}

/// A number of a range, often at one of its ends.
pub fn edge(rng: &mut Rng, low: u64, high: u64) -> u64 {
    match rng.below(4) {
        0 => low,
        1 => high,
        _ => rng.between(low, high),
    }
}

/// Changes one or two words, each by one or to a nasty number.
pub fn mutate(rng: &mut Rng, words: &mut [u64]) {
    let known = words.to_vec();
    for _ in 0..rng.between(1, 2) {
        let at = rng.below(words.len() as u64) as usize;
        words[at] = match rng.below(4) {
            0 => words[at].wrapping_add(1),
            1 => words[at].wrapping_sub(1),
            _ => nasty(rng, &known),
        };
    }
}

/// A length for a slice that should have `right` items: mostly right, else short or long.
pub fn slice_length(rng: &mut Rng, right: usize) -> usize {
    match rng.below(12) {
        0 => rng.below(right as u64 + 1) as usize,
        1 => right.saturating_sub(1),
        2 => right + 1 + rng.below(5) as usize,
        _ => right,
    }
}
