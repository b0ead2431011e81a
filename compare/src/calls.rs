//! The calls of the boundary as data: what a trace is made of, and what both sides are asked.

/// The writer's calls and every number that each can answer, 0 for accepted.
pub const WRITER_NUMBERS: &[(&str, &[u64])] = &[
    ("writer_open", &[0, 12, 4, 5]),
    ("writer_begin", &[0, 12, 6, 7, 5]),
    ("writer_begin_chunk", &[0, 12, 6, 5]),
    ("writer_write", &[0, 12, 6]),
    ("writer_finish", &[0, 12, 6, 8]),
    ("writer_commit", &[0, 12, 6]),
    ("writer_rollback", &[0, 12, 6]),
    ("writer_recycle", &[0, 12, 6]),
    ("writer_flush", &[0, 12]),
    ("writer_sync", &[0, 12]),
    ("writer_land_start", &[0, 12, 11]),
    ("writer_land_end", &[0, 12, 11]),
    ("writer_land_current", &[0, 12, 11]),
];

/// The reader's.
pub const READER_NUMBERS: &[(&str, &[u64])] = &[
    ("reader_open", &[0, 12, 1, 2, 3]),
    ("reader_entry", &[0, 12, 9]),
    ("reader_chunk", &[0, 12, 6, 9]),
    ("reader_data", &[0, 12, 6]),
    ("reader_check_crc", &[0, 12, 6, 9]),
    ("reader_skip", &[0, 12, 6]),
    ("reader_whole", &[0, 12, 6, 9, 10]),
];

/// What a caller says to open a writer, as the boundary takes it.
#[derive(Debug, Clone, Default)]
pub struct Opening {
    pub version_info: Vec<u8>,
    pub id: u64,
    pub last_known: u64,
    pub last_id: u64,
    pub validated_length: u64,
    pub file_length: u64,
    pub preallocate: u64,
}

impl Opening {
    pub fn last(&self) -> Option<u64> {
        (self.last_known == 1).then_some(self.last_id)
    }
}

#[derive(Debug, Clone)]
pub enum WriterCall {
    Open(Opening),
    Begin(u64),
    BeginChunk(u32),
    Write(Vec<u8>),
    Finish,
    Commit,
    Rollback,
    Recycle(u64),
    Flush,
    Sync(u64),
    LandStart(u64),
    LandEnd(i64),
    LandCurrent(i64),
}

#[derive(Debug, Clone, Copy)]
pub enum ReaderCall {
    Open(u64),
    Entry,
    Chunk,
    Data(u64),
    CheckCrc,
    Skip,
    Whole,
}

impl WriterCall {
    pub fn name(&self) -> &'static str {
        match self {
            Self::Open(_) => "writer_open",
            Self::Begin(_) => "writer_begin",
            Self::BeginChunk(_) => "writer_begin_chunk",
            Self::Write(_) => "writer_write",
            Self::Finish => "writer_finish",
            Self::Commit => "writer_commit",
            Self::Rollback => "writer_rollback",
            Self::Recycle(_) => "writer_recycle",
            Self::Flush => "writer_flush",
            Self::Sync(_) => "writer_sync",
            Self::LandStart(_) => "writer_land_start",
            Self::LandEnd(_) => "writer_land_end",
            Self::LandCurrent(_) => "writer_land_current",
        }
    }
}

impl WriterCall {
    /// Whether the call reports words.
    pub fn has_answer(&self) -> bool {
        match self {
            Self::Write(_) | Self::Finish | Self::Commit => true,
            Self::LandStart(_) | Self::LandEnd(_) | Self::LandCurrent(_) => true,
            Self::Open(_) | Self::Begin(_) | Self::BeginChunk(_) | Self::Rollback => false,
            Self::Recycle(_) | Self::Flush | Self::Sync(_) => false,
        }
    }
}

impl ReaderCall {
    pub fn name(&self) -> &'static str {
        match self {
            Self::Open(_) => "reader_open",
            Self::Entry => "reader_entry",
            Self::Chunk => "reader_chunk",
            Self::Data(_) => "reader_data",
            Self::CheckCrc => "reader_check_crc",
            Self::Skip => "reader_skip",
            Self::Whole => "reader_whole",
        }
    }
}
