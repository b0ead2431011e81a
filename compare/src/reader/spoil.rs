//! Calls with a state or an image that break one rule: always 12, and nothing changes. The Rust has no such answer.

use super::ours::{Ours, IN_CHUNK};
use crate::{
    calls::ReaderCall,
    difference::{same, Verdict},
    rng::Rng,
    sides::{Library, Side},
};

/// Asks a call of a copy with one rule broken.
pub fn ask(ours: &Ours<'_>, call: &ReaderCall, rng: &mut Rng) -> Verdict {
    let mut words = ours.words;
    let image = spoil(&mut words, ours.image, rng);
    let before = words;
    let mut answer = [0; 4];
    let number = Library.reader(&mut words, image, call, &mut answer);
    same("a call with a broken rule", number, 12)?;
    same("answers beside a refusal", answer, [0; 4])?;
    same("the state after a call with a broken rule", words, before)
}

/// Breaks one rule; the image to lend.
fn spoil<'a>(words: &mut [u64; 10], image: &'a [u8], rng: &mut Rng) -> &'a [u8] {
    match rng.below(8) {
        0 if !image.is_empty() => return &image[1..],
        1 => words[1] += 1,
        2 => words[3] = (1 << 33) + 1,
        3 if words[5] == IN_CHUNK => words[9] = words[8] + 1,
        4 if words[5] == IN_CHUNK => words[3] += 1,
        5 if words[5] == IN_CHUNK => words[7] = u64::MAX - 2,
        6 if words[5] == IN_CHUNK => words[8] += 1,
        _ => words[5] = rng.pick(&[4, 5, u64::MAX]),
    }
    image
}
