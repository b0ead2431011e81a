//! Every short reader trace: all sequences of calls on some images, several ways of reading on every cut of others, and
//! all short rows of marks behind an entry.

use super::{images::Image, ours::Ours, Source};
use crate::calls::ReaderCall;

pub struct Listed<'a>(pub std::slice::Iter<'a, ReaderCall>);

impl Source for Listed<'_> {
    fn next(&mut self, _ours: &Ours<'_>) -> Option<ReaderCall> {
        self.0.next().cloned()
    }
}

const ALPHABET: [ReaderCall; 7] = [
    ReaderCall::Entry,
    ReaderCall::Chunk,
    ReaderCall::Data(1),
    ReaderCall::Data(u64::MAX),
    ReaderCall::CheckCrc,
    ReaderCall::Skip,
    ReaderCall::Whole,
];

/// All sequences of `depth` calls behind a first call for an entry.
pub fn sequences(depth: usize) -> Vec<Vec<ReaderCall>> {
    let mut all = vec![vec![ReaderCall::Entry]];
    for _ in 0..depth {
        all = all
            .iter()
            .flat_map(|start| ALPHABET.iter().map(move |call| [start.as_slice(), &[*call]].concat()))
            .collect();
    }
    all
}

/// Ways to read a segment to its end, each a round of calls that is repeated.
pub fn ways() -> Vec<Vec<ReaderCall>> {
    use ReaderCall::{CheckCrc, Chunk, Data, Entry, Skip, Whole};
    let rounds: [&[ReaderCall]; 8] = [
        &[Entry],
        &[Entry, Whole],
        &[Entry, Chunk, Data(u64::MAX), CheckCrc, Chunk, Data(2), Data(2), CheckCrc, Chunk],
        &[Entry, Chunk, Skip, Chunk, Skip, Chunk],
        &[Entry, Chunk, Data(1), Chunk, Whole],
        &[Entry, Chunk, Chunk, Chunk, Chunk],
        &[Entry, Whole, Whole, Whole],
        &[Entry, Chunk, Data(u64::MAX), CheckCrc, CheckCrc, Entry],
    ];
    rounds.iter().map(|round| round.repeat(5)).collect()
}

/// Images that are cut at every byte.
pub fn cut_images() -> Vec<Vec<u8>> {
    let plain = Image::header(&[]).entry(1).chunk(b"abc").end().entry(2).chunk(b"").chunk(b"de").end();
    let stray = Image::header(b"v").entry(1).chunk(b"x").end().chunk(b"stray").end().entry(3).end().zeros(12);
    let aborted = Image::header(&[]).entry(5).chunk(b"ab").entry(6).chunk(b"c").end().zeros(4);
    let low = Image::header(b"info").entry(2).end().entry(0).chunk(b"low").end();
    let mut wrong = plain.clone();
    wrong.0[20] ^= 1;
    let long = Image::header(&[]).entry(1).announced(u32::MAX - 3).bytes(b"data").entry(2).end();
    let longest = Image::header(&[]).entry(1).chunk(b"q").announced(u32::MAX).zeros(6);
    [plain, stray, aborted, low, wrong, long, longest].into_iter().map(|image| image.0).collect()
}

/// An entry's start and all rows of `length` marks behind it.
pub fn rows_of_marks(length: u32) -> impl Iterator<Item = Vec<u8>> {
    (0..4_u32.pow(length)).map(move |number| {
        let marks: Vec<u8> = (0..length).map(|at| (number / 4_u32.pow(at) % 4) as u8).collect();
        Image::header(&[]).entry(1).bytes(&marks).0
    })
}
