//! The two that can be asked every call of the boundary: the library and the model.

use crate::{
    calls::{Opening, ReaderCall, WriterCall},
    library::{self, Desk},
};

/// One implementation of okaywal_segment.h.
pub trait Side {
    fn writer(&self, desk: &mut Desk<'_>, call: &WriterCall, answer: &mut [u64]) -> u64;
    fn reader(&self, state: &mut [u64], image: &[u8], call: &ReaderCall, answer: &mut [u64]) -> u64;
    fn crc32c_append(&self, crc: u32, bytes: &[u8]) -> u32;
    fn position_write(&self, file_id: u64, offset: u64, buf: &mut [u8]) -> u64;
    fn position_read(&self, buf: &[u8], answer: &mut [u64]) -> u64;
}

/// The library that is linked.
pub struct Library;

/// The plain model of document 01.
pub struct Model;

impl Side for Library {
    fn writer(&self, desk: &mut Desk<'_>, call: &WriterCall, answer: &mut [u64]) -> u64 {
        match call {
            WriterCall::Open(opening) => library::writer_open(desk, opening),
            WriterCall::Begin(id) => library::writer_begin(desk, *id),
            WriterCall::BeginChunk(length) => library::writer_begin_chunk(desk, *length),
            WriterCall::Write(bytes) => library::writer_write(desk, bytes, answer),
            WriterCall::Finish => library::writer_finish(desk, answer),
            WriterCall::Commit => library::writer_commit(desk, answer),
            WriterCall::Rollback => library::writer_rollback(desk),
            WriterCall::Recycle(id) => library::writer_recycle(desk, *id),
            WriterCall::Flush => library::writer_flush(desk),
            WriterCall::Sync(target) => library::writer_sync(desk, *target),
            WriterCall::LandStart(place) => library::writer_land_start(desk, *place, answer),
            WriterCall::LandEnd(offset) => library::writer_land_end(desk, *offset, answer),
            WriterCall::LandCurrent(offset) => library::writer_land_current(desk, *offset, answer),
        }
    }

    fn reader(&self, state: &mut [u64], image: &[u8], call: &ReaderCall, answer: &mut [u64]) -> u64 {
        match call {
            ReaderCall::Open(file_id) => library::reader_open(state, image, *file_id),
            ReaderCall::Entry => library::reader_entry(state, image, answer),
            ReaderCall::Chunk => library::reader_chunk(state, image, answer),
            ReaderCall::Data(asked) => library::reader_data(state, image, *asked, answer),
            ReaderCall::CheckCrc => library::reader_check_crc(state, image, answer),
            ReaderCall::Skip => library::reader_skip(state, image),
            ReaderCall::Whole => library::reader_whole(state, image, answer),
        }
    }

    fn crc32c_append(&self, crc: u32, bytes: &[u8]) -> u32 {
        library::crc32c_append(crc, bytes)
    }

    fn position_write(&self, file_id: u64, offset: u64, buf: &mut [u8]) -> u64 {
        library::position_write(file_id, offset, buf)
    }

    fn position_read(&self, buf: &[u8], answer: &mut [u64]) -> u64 {
        library::position_read(buf, answer)
    }
}

impl Side for Model {
    fn writer(&self, desk: &mut Desk<'_>, call: &WriterCall, answer: &mut [u64]) -> u64 {
        use model::writer;
        let desk = &mut model_desk(desk);
        match call {
            WriterCall::Open(opening) => writer::open(desk, &model_opening(opening)),
            WriterCall::Begin(id) => writer::begin(desk, *id),
            WriterCall::BeginChunk(length) => writer::begin_chunk(desk, *length),
            WriterCall::Write(bytes) => writer::write(desk, bytes, answer),
            WriterCall::Finish => writer::finish(desk, answer),
            WriterCall::Commit => writer::commit(desk, answer),
            WriterCall::Rollback => writer::rollback(desk),
            WriterCall::Recycle(id) => writer::recycle(desk, *id),
            WriterCall::Flush => writer::flush(desk),
            WriterCall::Sync(target) => writer::sync(desk, *target),
            WriterCall::LandStart(place) => writer::land_start(desk, *place, answer),
            WriterCall::LandEnd(offset) => writer::land_end(desk, *offset, answer),
            WriterCall::LandCurrent(offset) => writer::land_current(desk, *offset, answer),
        }
    }

    fn reader(&self, state: &mut [u64], image: &[u8], call: &ReaderCall, answer: &mut [u64]) -> u64 {
        use model::reader;
        match call {
            ReaderCall::Open(file_id) => reader::open(state, image, *file_id),
            ReaderCall::Entry => reader::entry(state, image, answer),
            ReaderCall::Chunk => reader::chunk(state, image, answer),
            ReaderCall::Data(asked) => reader::data(state, image, *asked, answer),
            ReaderCall::CheckCrc => reader::check_crc(state, image, answer),
            ReaderCall::Skip => reader::skip(state, image),
            ReaderCall::Whole => reader::whole(state, image, answer),
        }
    }

    fn crc32c_append(&self, crc: u32, bytes: &[u8]) -> u32 {
        model::crc32c_append(crc, bytes)
    }

    fn position_write(&self, file_id: u64, offset: u64, buf: &mut [u8]) -> u64 {
        model::position::write(file_id, offset, buf)
    }

    fn position_read(&self, buf: &[u8], answer: &mut [u64]) -> u64 {
        model::position::read(buf, answer)
    }
}

fn model_desk<'a>(desk: &'a mut Desk<'_>) -> model::writer::Desk<'a> {
    model::writer::Desk { state: desk.state, info: desk.info, image: desk.image, staging: desk.staging }
}

fn model_opening(opening: &Opening) -> model::writer::Opening<'_> {
    model::writer::Opening {
        version_info: &opening.version_info,
        id: opening.id,
        last_known: opening.last_known,
        last_id: opening.last_id,
        validated_length: opening.validated_length,
        file_length: opening.file_length,
        preallocate: opening.preallocate,
    }
}
