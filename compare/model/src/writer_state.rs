//! A writer's state: its words, and which words are a state that later calls accept.

use crate::{IMAGE_LIMIT, INFO_BYTES, STAGING_LIMIT, U32_LIMIT, WRITER_WORDS};

#[derive(Debug, Clone)]
pub(crate) struct Writer {
    pub id: u64,
    pub info_length: u64,
    pub image_size: u64,
    pub staging_size: u64,
    pub file_length: u64,
    pub position: u64,
    pub staged: u64,
    pub synchronized: u64,
    pub last: Option<u64>,
    pub moment: Moment,
}

#[derive(Debug, Clone, Copy)]
pub(crate) enum Moment {
    Idle,
    Entry(OpenEntry),
    Chunk(OpenEntry, OpenChunk),
}

#[derive(Debug, Clone, Copy)]
pub(crate) struct OpenEntry {
    pub id: u64,
    pub start: u64,
}

#[derive(Debug, Clone, Copy)]
pub(crate) struct OpenChunk {
    pub length: u64,
    pub owed: u64,
    pub crc: u64,
}

impl Writer {
    /// The state that the words are, unless one of them is out of its range or a rule is broken.
    pub fn from_words(words: &[u64], image_size: usize, staging_size: usize) -> Option<Self> {
        let writer = Self {
            id: words[0],
            info_length: words[1],
            image_size: words[2],
            staging_size: words[3],
            file_length: words[4],
            position: words[5],
            staged: words[6],
            synchronized: words[7],
            last: last_from_words(words)?,
            moment: moment_from_words(words)?,
        };
        let sizes = writer.image_size == image_size as u64 && writer.staging_size == staging_size as u64;
        (sizes && writer.keeps_the_rules()).then_some(writer)
    }

    /// Every word, 0 where the moment does not use it.
    pub fn to_words(&self) -> [u64; WRITER_WORDS] {
        let (kind, entry, chunk) = match self.moment {
            Moment::Idle => (0, [0, 0], [0, 0, 0]),
            Moment::Entry(entry) => (1, [entry.id, entry.start], [0, 0, 0]),
            Moment::Chunk(entry, chunk) => (2, [entry.id, entry.start], [chunk.length, chunk.owed, chunk.crc]),
        };
        [
            self.id,
            self.info_length,
            self.image_size,
            self.staging_size,
            self.file_length,
            self.position,
            self.staged,
            self.synchronized,
            u64::from(self.last.is_some()),
            self.last.unwrap_or(0),
            kind,
            entry[0],
            entry[1],
            chunk[0],
            chunk[1],
            chunk[2],
        ]
    }

    /// The length of the logical segment. The rules keep it within the image.
    pub fn logical_position(&self) -> u64 {
        self.position + self.staged
    }

    fn keeps_the_rules(&self) -> bool {
        let logical = u128::from(self.position) + u128::from(self.staged);
        self.info_length <= INFO_BYTES as u64
            && self.image_size <= IMAGE_LIMIT
            && self.staging_size <= STAGING_LIMIT
            && self.staged <= self.staging_size
            && self.synchronized <= self.position
            && self.position <= self.file_length
            && self.file_length <= self.image_size
            && 5 + self.info_length <= self.image_size
            && logical + self.reserve() <= u128::from(self.image_size)
            && self.moment.stands_below(logical)
    }

    /// The bytes that must stay free behind the logical position.
    fn reserve(&self) -> u128 {
        match self.moment {
            Moment::Idle => 0,
            Moment::Entry(_) => 1,
            Moment::Chunk(_, chunk) => u128::from(chunk.owed) + 5,
        }
    }
}

impl Moment {
    /// An open entry's and chunk's bytes so far lie below the logical position.
    fn stands_below(self, logical: u128) -> bool {
        match self {
            Self::Idle => true,
            Self::Entry(entry) => u128::from(entry.start) + 9 <= logical,
            Self::Chunk(entry, chunk) => {
                chunk.owed <= chunk.length
                    && u128::from(entry.start) + 14 + u128::from(chunk.length - chunk.owed) <= logical
                    && u128::from(entry.start) + 9 <= logical
            }
        }
    }
}

fn last_from_words(words: &[u64]) -> Option<Option<u64>> {
    match words[8] {
        0 => Some(None),
        1 => Some(Some(words[9])),
        _ => None,
    }
}

fn moment_from_words(words: &[u64]) -> Option<Moment> {
    let entry = OpenEntry { id: words[11], start: words[12] };
    let chunk = OpenChunk { length: words[13], owed: words[14], crc: words[15] };
    match words[10] {
        0 => Some(Moment::Idle),
        1 => Some(Moment::Entry(entry)),
        2 if words[13..16].iter().all(|&word| word <= U32_LIMIT) => Some(Moment::Chunk(entry, chunk)),
        _ => None,
    }
}
