//! A reader's state: its words, and which words are a state that later calls accept.

use crate::{IMAGE_LIMIT, PLACE_LIMIT, READER_WORDS, U32_LIMIT};

#[derive(Debug, Clone)]
pub(crate) struct Reader {
    pub file_id: u64,
    pub image_size: u64,
    pub info_length: u64,
    pub place: u64,
    pub valid_until: u64,
    pub moment: Moment,
}

#[derive(Debug, Clone, Copy)]
pub(crate) enum Moment {
    NoEntry,
    Entry(u64),
    Chunk(u64, OpenChunk),
    Ended,
}

#[derive(Debug, Clone, Copy)]
pub(crate) struct OpenChunk {
    pub offset: u64,
    pub length: u64,
    pub owed: u64,
}

impl OpenChunk {
    /// Where the next mark stands: behind the 02, the length, the data and the sum.
    pub fn end(self) -> u64 {
        self.offset + 9 + self.length
    }
}

impl Reader {
    /// The state that the words are, unless one of them is out of its range or a rule is broken.
    pub fn from_words(words: &[u64], image_size: usize) -> Option<Self> {
        let reader = Self {
            file_id: words[0],
            image_size: words[1],
            info_length: words[2],
            place: words[3],
            valid_until: words[4],
            moment: moment_from_words(words)?,
        };
        let sizes = reader.image_size == image_size as u64 && reader.image_size <= IMAGE_LIMIT;
        (sizes && reader.place <= PLACE_LIMIT && reader.chunk_fits()).then_some(reader)
    }

    /// Every word, 0 where the moment does not use it.
    pub fn to_words(&self) -> [u64; READER_WORDS] {
        let (kind, entry, chunk) = match self.moment {
            Moment::NoEntry => (0, 0, [0, 0, 0]),
            Moment::Entry(entry) => (1, entry, [0, 0, 0]),
            Moment::Chunk(entry, chunk) => (2, entry, [chunk.offset, chunk.length, chunk.owed]),
            Moment::Ended => (3, 0, [0, 0, 0]),
        };
        [
            self.file_id,
            self.image_size,
            self.info_length,
            self.place,
            self.valid_until,
            kind,
            entry,
            chunk[0],
            chunk[1],
            chunk[2],
        ]
    }

    /// An open chunk's numbers agree with the place.
    fn chunk_fits(&self) -> bool {
        let Moment::Chunk(_, chunk) = self.moment else {
            return true;
        };
        chunk.owed <= chunk.length
            && u128::from(chunk.offset) + 5 + u128::from(chunk.length - chunk.owed) == u128::from(self.place)
    }
}

fn moment_from_words(words: &[u64]) -> Option<Moment> {
    let chunk = OpenChunk { offset: words[7], length: words[8], owed: words[9] };
    match words[5] {
        0 => Some(Moment::NoEntry),
        1 => Some(Moment::Entry(words[6])),
        2 if words[8] <= U32_LIMIT && words[9] <= U32_LIMIT => Some(Moment::Chunk(words[6], chunk)),
        3 => Some(Moment::Ended),
        _ => None,
    }
}
