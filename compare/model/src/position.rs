//! A `LogPosition` in 16 bytes: file id and offset, little-endian.

use crate::{refusal, reply, words, ANSWER_WORDS};

pub const POSITION_BYTES: usize = 16;

pub fn write(file_id: u64, offset: u64, buf: &mut [u8]) -> u64 {
    if buf.len() < POSITION_BYTES {
        return refusal::NO_ROOM;
    }
    buf[..8].copy_from_slice(&file_id.to_le_bytes());
    buf[8..16].copy_from_slice(&offset.to_le_bytes());
    0
}

pub fn read(buf: &[u8], answer: &mut [u64]) -> u64 {
    if answer.len() < ANSWER_WORDS {
        return refusal::RANGE;
    }
    if buf.len() < POSITION_BYTES {
        return reply(answer, Err(refusal::SHORT));
    }
    reply(answer, Ok(words(&[number(&buf[..8]), number(&buf[8..16])])))
}

/// A little-endian number.
pub(crate) fn number(bytes: &[u8]) -> u64 {
    bytes.iter().rev().fold(0, |number, &byte| number * 256 + u64::from(byte))
}
