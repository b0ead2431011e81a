//! What the Rust's reader shows after a call, and who is told of it.

use crate::{calls::ReaderCall, difference::Verdict};

/// The Rust's numbers, after its known faults were undone.
#[derive(Debug, Clone, Copy, PartialEq, Eq)]
pub struct View {
    pub place: u64,
    pub valid_until: u64,
    pub moment: Moment,
}

#[derive(Debug, Clone, Copy, PartialEq, Eq)]
pub enum Moment {
    NoEntry,
    Entry(u64),
    Chunk { id: u64, offset: u64, length: u64, owed: u64 },
    Ended,
}

/// What the Rust answered, in the boundary's words.
#[derive(Debug, Clone, Default)]
pub struct Answer {
    pub number: u64,
    pub words: [u64; 4],
    /// The bytes of a data read.
    pub data: Vec<u8>,
    /// The chunks of a whole entry.
    pub chunks: Vec<Vec<u8>>,
}

impl Answer {
    pub fn words(named: &[u64]) -> Self {
        let mut words = [0; 4];
        words[..named.len()].copy_from_slice(named);
        Self { words, ..Self::default() }
    }

    pub fn refused(number: u64) -> Self {
        Self { number, ..Self::default() }
    }
}

/// Who gives the calls, and is told what the Rust made of them.
pub trait Client {
    /// The opening's number; the version info where it is 0.
    fn opened(&mut self, number: u64, version_info: &[u8]) -> Verdict;
    /// The next call, which belongs to the present moment.
    fn next(&mut self) -> Verdict<Option<ReaderCall>>;
    fn told(&mut self, call: &ReaderCall, answer: &Answer, view: &View) -> Verdict;
    /// How a whole entry ended.
    fn count(&mut self, row: &'static str);
    /// A known fault showed itself just as predicted, or was led around.
    fn fault(&mut self, row: &'static str);
}
