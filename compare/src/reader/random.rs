//! Random reader calls, mostly such as belong to the moment.

use super::{
    ours::{Ours, ENDED, IN_CHUNK, IN_ENTRY, NO_ENTRY},
    Source,
};
use crate::{calls::ReaderCall, rng::Rng, rust_reader::faulty};

pub struct RandomCalls<'a> {
    rng: &'a mut Rng,
    left: u64,
    /// Calls still to be asked of an ended reader.
    after_the_end: u64,
}

impl<'a> RandomCalls<'a> {
    pub fn new(rng: &'a mut Rng) -> Self {
        let left = rng.between(2, 40);
        let after_the_end = rng.below(3);
        Self { rng, left, after_the_end }
    }

    fn any(&mut self, ours: &Ours<'_>) -> ReaderCall {
        match self.rng.below(6) {
            0 => ReaderCall::Entry,
            1 => ReaderCall::Chunk,
            2 => ReaderCall::Data(self.asked(ours)),
            3 => ReaderCall::CheckCrc,
            4 => ReaderCall::Skip,
            _ => ReaderCall::Whole,
        }
    }

    fn asked(&mut self, ours: &Ours<'_>) -> u64 {
        let owed = ours.owed();
        match self.rng.below(8) {
            0 => 0,
            1 => u64::MAX,
            2 => self.rng.near(owed),
            3 => self.rng.below(owed + 1),
            4 | 5 => self.rng.between(1, 9),
            _ => owed,
        }
    }

    fn in_chunk(&mut self, ours: &Ours<'_>) -> ReaderCall {
        match self.rng.below(20) {
            0..=8 if ours.owed() > 0 => ReaderCall::Data(self.asked(ours)),
            0..=8 => ReaderCall::CheckCrc,
            9 | 10 => ReaderCall::CheckCrc,
            11 | 12 => ReaderCall::Skip,
            13..=16 => ReaderCall::Chunk,
            17 => ReaderCall::Whole,
            18 => ReaderCall::Entry,
            _ => ReaderCall::Data(self.asked(ours)),
        }
    }
}

impl Source for RandomCalls<'_> {
    fn next(&mut self, ours: &Ours<'_>) -> Option<ReaderCall> {
        self.left = self.left.checked_sub(1)?;
        if ours.moment() == ENDED {
            self.after_the_end = self.after_the_end.checked_sub(1)?;
        }
        if self.rng.chance(1, 10) {
            return Some(self.any(ours));
        }
        Some(match ours.moment() {
            NO_ENTRY => ReaderCall::Entry,
            IN_ENTRY if !mark_ahead(ours) && self.rng.chance(3, 4) => ReaderCall::Entry,
            IN_ENTRY if self.rng.chance(1, 4) => ReaderCall::Whole,
            IN_ENTRY if self.rng.chance(1, 4) => ReaderCall::Entry,
            IN_ENTRY => ReaderCall::Chunk,
            IN_CHUNK => self.in_chunk(ours),
            _ => self.any(ours),
        })
    }
}

/// Whether a chunk or an end mark stands at the place.
fn mark_ahead(ours: &Ours<'_>) -> bool {
    matches!(faulty::byte(ours.image, ours.place()), Some(2 | 3))
}
