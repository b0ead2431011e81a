//! Random calls, mostly such as belong to the moment, at and beside the limits of room, staging and owed bytes.

use super::{
    ours::{Ours, IDLE, IN_CHUNK, IN_ENTRY},
    Source,
};
use crate::{calls::WriterCall, rng::Rng};

pub struct RandomCalls<'a> {
    rng: &'a mut Rng,
    left: u64,
}

impl<'a> RandomCalls<'a> {
    pub fn new(rng: &'a mut Rng) -> Self {
        let left = rng.between(4, 40);
        Self { rng, left }
    }

    fn any(&mut self, ours: &Ours) -> WriterCall {
        let moment = self.rng.below(3);
        self.fitting(ours, moment)
    }

    fn fitting(&mut self, ours: &Ours, moment: u64) -> WriterCall {
        if self.rng.chance(1, 4) {
            return self.quiet(ours);
        }
        match moment {
            IDLE if self.rng.chance(1, 7) => WriterCall::Recycle(self.rng.pick(&[0, 1, 2, 5, u64::MAX])),
            IDLE => WriterCall::Begin(self.entry_id(ours)),
            IN_ENTRY if self.rng.chance(1, 3) => WriterCall::Commit,
            IN_ENTRY if self.rng.chance(1, 5) => WriterCall::Rollback,
            IN_ENTRY => WriterCall::BeginChunk(self.chunk_length(ours)),
            _ if self.rng.chance(1, 24) => WriterCall::Rollback,
            _ if ours.owed() == 0 && self.rng.chance(3, 4) => WriterCall::Finish,
            _ if self.rng.chance(1, 4) => WriterCall::Finish,
            _ => WriterCall::Write(self.piece(ours)),
        }
    }

    fn quiet(&mut self, ours: &Ours) -> WriterCall {
        match self.rng.below(7) {
            0 | 1 => WriterCall::Flush,
            2 | 3 => WriterCall::Sync(self.target(ours)),
            4 => WriterCall::LandStart(self.place(ours)),
            5 => WriterCall::LandEnd(self.offset(ours, ours.file_length())),
            _ => WriterCall::LandCurrent(self.offset(ours, ours.logical())),
        }
    }

    fn entry_id(&mut self, ours: &Ours) -> u64 {
        match self.rng.below(10) {
            0 => ours.id().wrapping_sub(1),
            1 => self.rng.next(),
            _ => ours.id().saturating_add(self.rng.below(3)),
        }
    }

    fn chunk_length(&mut self, ours: &Ours) -> u32 {
        let room = ours.room().saturating_sub(10);
        let length = match self.rng.below(12) {
            0 => room,
            1 => room + 1,
            2 => 0,
            3 => u64::from(u32::MAX) - self.rng.below(3),
            4 | 5 => self.rng.near(ours.staging_size()),
            6 => self.rng.below(room + 1),
            _ => self.rng.below(room.min(60) + 1),
        };
        u32::try_from(length).unwrap_or(u32::MAX)
    }

    fn piece(&mut self, ours: &Ours) -> Vec<u8> {
        let (owed, free) = (ours.owed(), ours.staging_size() - ours.staged());
        let count = match self.rng.below(10) {
            0 => 0,
            1 => owed + 1 + self.rng.below(9),
            2 | 3 => owed,
            4 => self.rng.near(free),
            5 => self.rng.near(ours.staging_size()),
            _ => self.rng.below(owed + 1),
        };
        self.rng.bytes(count.min(1 << 17) as usize)
    }

    fn target(&mut self, ours: &Ours) -> u64 {
        match self.rng.below(7) {
            0 => ours.logical(),
            1 => ours.position(),
            2 => ours.synchronized(),
            3 => self.rng.near(ours.logical()),
            4 => self.rng.near(ours.position()),
            5 => u64::MAX,
            _ => self.rng.below(ours.image_size() + 2),
        }
    }

    fn place(&mut self, ours: &Ours) -> u64 {
        match self.rng.below(4) {
            0 => ours.image_size(),
            1 => self.rng.near(ours.image_size()),
            2 => u64::MAX,
            _ => self.rng.below(ours.image_size() + 1),
        }
    }

    fn offset(&mut self, ours: &Ours, from: u64) -> i64 {
        let (from, size) = (from as i64, ours.image_size() as i64);
        match self.rng.below(8) {
            0 => -from,
            1 => -from - 1,
            2 => size - from,
            3 => size - from + 1,
            4 => self.rng.pick(&[i64::MIN, i64::MIN + 1, i64::MAX, -1, 0, 1]),
            _ => self.rng.below(size as u64 + 1) as i64 - from,
        }
    }
}

impl Source for RandomCalls<'_> {
    fn next(&mut self, ours: &Ours) -> Option<WriterCall> {
        self.left = self.left.checked_sub(1)?;
        if self.rng.chance(1, 12) {
            return Some(self.any(ours));
        }
        let moment = ours.moment();
        debug_assert!(moment <= IN_CHUNK);
        Some(self.fitting(ours, moment))
    }
}
