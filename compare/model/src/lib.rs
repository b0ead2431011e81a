//! A plain model of the segment journal: document 01 said once more, in Rust, behind the functions of
//! okaywal_segment.h.
//!
//! It is written to be believed by reading, from document 01 and the header alone. Sums of state numbers are worked out
//! in 128 bits, so that none can wrap. It serves as a stand-in for the proved library and as a judge of it.

#![cfg_attr(not(feature = "export"), forbid(unsafe_code))]

#[cfg(feature = "export")]
mod export;
pub mod position;
pub mod reader;
mod reader_state;
mod staging;
mod sum;
pub mod writer;
mod writer_state;

pub use sum::crc32c_append;

pub const WRITER_WORDS: usize = 16;
pub const READER_WORDS: usize = 10;
pub const ANSWER_WORDS: usize = 4;
pub const INFO_BYTES: usize = 255;

pub const IMAGE_LIMIT: u64 = 1_048_576;
pub const STAGING_LIMIT: u64 = 65_536;
pub const PLACE_LIMIT: u64 = 1 << 33;
pub const U32_LIMIT: u64 = u32::MAX as u64;

/// The numbers of refusal.
pub mod refusal {
    pub const SHORT: u64 = 1;
    pub const MAGIC: u64 = 2;
    pub const VERSION: u64 = 3;
    pub const INFO_TOO_LONG: u64 = 4;
    pub const NO_ROOM: u64 = 5;
    pub const NOT_NOW: u64 = 6;
    pub const LOW_ID: u64 = 7;
    pub const BYTES_OWED: u64 = 8;
    pub const CUT: u64 = 9;
    pub const WRONG_CRC: u64 = 10;
    pub const SEEK: u64 = 11;
    pub const RANGE: u64 = 12;
}

/// The marks of a segment.
mod mark {
    pub const ENTRY: u8 = 1;
    pub const CHUNK: u8 = 2;
    pub const END: u8 = 3;
}

/// An answer's words.
pub(crate) type Words = [u64; ANSWER_WORDS];

/// Answer words, or a number of refusal.
pub(crate) type Outcome = Result<Words, u64>;

/// The words of `named`, and zeros behind them.
pub(crate) fn words(named: &[u64]) -> Words {
    let mut all = [0; ANSWER_WORDS];
    all[..named.len()].copy_from_slice(named);
    all
}

/// Writes an answer, zeros beside a refusal, and returns the call's number.
pub(crate) fn reply(answer: &mut [u64], outcome: Outcome) -> u64 {
    let (number, all) = match outcome {
        Ok(all) => (0, all),
        Err(number) => (number, [0; ANSWER_WORDS]),
    };
    answer[..ANSWER_WORDS].copy_from_slice(&all);
    number
}
