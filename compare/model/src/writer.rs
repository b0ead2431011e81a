//! The writer's calls, as okaywal_segment.h gives them.

use crate::{
    mark, refusal, reply,
    staging::{flush as flush_staging, write as write_bytes, write_header, Buffers},
    sum::crc32c_append,
    words,
    writer_state::{Moment, OpenChunk, OpenEntry, Writer},
    Outcome, ANSWER_WORDS, IMAGE_LIMIT, INFO_BYTES, STAGING_LIMIT, U32_LIMIT, WRITER_WORDS,
};

/// What a caller lends to a writer's call.
pub struct Desk<'a> {
    pub state: &'a mut [u64],
    pub info: &'a mut [u8],
    pub image: &'a mut [u8],
    pub staging: &'a mut [u8],
}

/// What a caller says to open a writer.
pub struct Opening<'a> {
    pub version_info: &'a [u8],
    pub id: u64,
    pub last_known: u64,
    pub last_id: u64,
    pub validated_length: u64,
    pub file_length: u64,
    pub preallocate: u64,
}

pub fn open(desk: &mut Desk<'_>, opening: &Opening<'_>) -> u64 {
    if is_too_short(desk) {
        return refusal::RANGE;
    }
    desk.info[..INFO_BYTES].fill(0);
    match opened(desk, opening) {
        Ok(writer) => {
            desk.info[..opening.version_info.len()].copy_from_slice(opening.version_info);
            desk.state[..WRITER_WORDS].copy_from_slice(&writer.to_words());
            0
        }
        Err(number) => {
            desk.state[..WRITER_WORDS].fill(0);
            number
        }
    }
}

pub fn begin(desk: &mut Desk<'_>, entry_id: u64) -> u64 {
    change(desk, |writer, buffers, _| {
        if !matches!(writer.moment, Moment::Idle) {
            return Err(refusal::NOT_NOW);
        }
        if entry_id < writer.id {
            return Err(refusal::LOW_ID);
        }
        let start = writer.logical_position();
        if start + 10 > writer.image_size {
            return Err(refusal::NO_ROOM);
        }
        write_bytes(writer, buffers, &[mark::ENTRY]);
        write_bytes(writer, buffers, &entry_id.to_le_bytes());
        writer.moment = Moment::Entry(OpenEntry { id: entry_id, start });
        Ok(words(&[]))
    })
}

pub fn begin_chunk(desk: &mut Desk<'_>, length: u32) -> u64 {
    change(desk, |writer, buffers, _| {
        let Moment::Entry(entry) = writer.moment else {
            return Err(refusal::NOT_NOW);
        };
        if writer.logical_position() + u64::from(length) + 10 > writer.image_size {
            return Err(refusal::NO_ROOM);
        }
        write_bytes(writer, buffers, &[mark::CHUNK]);
        write_bytes(writer, buffers, &length.to_le_bytes());
        let length = u64::from(length);
        writer.moment = Moment::Chunk(entry, OpenChunk { length, owed: length, crc: 0 });
        Ok(words(&[]))
    })
}

pub fn write(desk: &mut Desk<'_>, bytes: &[u8], answer: &mut [u64]) -> u64 {
    change_and_answer(desk, answer, |writer, buffers, _| {
        let Moment::Chunk(entry, chunk) = writer.moment else {
            return Err(refusal::NOT_NOW);
        };
        let taken = (bytes.len() as u64).min(chunk.owed);
        let bytes = &bytes[..taken as usize];
        write_bytes(writer, buffers, bytes);
        let crc = u64::from(crc32c_append(chunk.crc as u32, bytes));
        writer.moment = Moment::Chunk(entry, OpenChunk { owed: chunk.owed - taken, crc, ..chunk });
        Ok(words(&[taken]))
    })
}

pub fn finish(desk: &mut Desk<'_>, answer: &mut [u64]) -> u64 {
    change_and_answer(desk, answer, |writer, buffers, _| {
        let Moment::Chunk(entry, chunk) = writer.moment else {
            return Err(refusal::NOT_NOW);
        };
        if chunk.owed > 0 {
            return Err(refusal::BYTES_OWED);
        }
        let offset = writer.logical_position() - chunk.length - 5;
        write_bytes(writer, buffers, &(chunk.crc as u32).to_le_bytes());
        writer.moment = Moment::Entry(entry);
        Ok(words(&[writer.id, offset, chunk.crc, chunk.length]))
    })
}

pub fn commit(desk: &mut Desk<'_>, answer: &mut [u64]) -> u64 {
    change_and_answer(desk, answer, |writer, buffers, _| {
        let Moment::Entry(entry) = writer.moment else {
            return Err(refusal::NOT_NOW);
        };
        write_bytes(writer, buffers, &[mark::END]);
        writer.moment = Moment::Idle;
        writer.last = Some(entry.id);
        Ok(words(&[entry.id, writer.logical_position()]))
    })
}

pub fn rollback(desk: &mut Desk<'_>) -> u64 {
    change(desk, |writer, _, _| {
        let start = match writer.moment {
            Moment::Idle => return Err(refusal::NOT_NOW),
            Moment::Entry(entry) | Moment::Chunk(entry, _) => entry.start,
        };
        writer.staged = start.saturating_sub(writer.position);
        writer.position = writer.position.min(start);
        writer.synchronized = writer.synchronized.min(start);
        writer.moment = Moment::Idle;
        Ok(words(&[]))
    })
}

pub fn recycle(desk: &mut Desk<'_>, new_id: u64) -> u64 {
    change(desk, |writer, buffers, info| {
        if !matches!(writer.moment, Moment::Idle) {
            return Err(refusal::NOT_NOW);
        }
        writer.id = new_id;
        writer.staged = 0;
        writer.position = 0;
        writer.synchronized = 0;
        writer.last = None;
        let length = writer.info_length as usize;
        write_header(writer, buffers, &info[..length]);
        Ok(words(&[]))
    })
}

pub fn flush(desk: &mut Desk<'_>) -> u64 {
    change(desk, |writer, buffers, _| {
        flush_staging(writer, buffers);
        Ok(words(&[]))
    })
}

pub fn sync(desk: &mut Desk<'_>, target: u64) -> u64 {
    change(desk, |writer, buffers, _| {
        if writer.synchronized >= target {
            return Ok(words(&[]));
        }
        if writer.position < target {
            flush_staging(writer, buffers);
        }
        writer.synchronized = writer.position;
        Ok(words(&[]))
    })
}

pub fn land_start(desk: &mut Desk<'_>, place: u64, answer: &mut [u64]) -> u64 {
    land(desk, answer, |_| i128::from(place))
}

pub fn land_end(desk: &mut Desk<'_>, offset: i64, answer: &mut [u64]) -> u64 {
    land(desk, answer, |writer| i128::from(writer.file_length) + i128::from(offset))
}

pub fn land_current(desk: &mut Desk<'_>, offset: i64, answer: &mut [u64]) -> u64 {
    land(desk, answer, |writer| i128::from(writer.logical_position()) + i128::from(offset))
}

fn land(desk: &mut Desk<'_>, answer: &mut [u64], place: impl FnOnce(&Writer) -> i128) -> u64 {
    if is_too_short(desk) || answer.len() < ANSWER_WORDS {
        return refusal::RANGE;
    }
    let Some(writer) = Writer::from_words(desk.state, desk.image.len(), desk.staging.len()) else {
        return reply(answer, Err(refusal::RANGE));
    };
    let place = place(&writer);
    let outcome = if (0..=i128::from(writer.image_size)).contains(&place) {
        Ok(words(&[place as u64]))
    } else {
        Err(refusal::SEEK)
    };
    reply(answer, outcome)
}

fn is_too_short(desk: &Desk<'_>) -> bool {
    desk.state.len() < WRITER_WORDS || desk.info.len() < INFO_BYTES
}

fn opened(desk: &mut Desk<'_>, opening: &Opening<'_>) -> Result<Writer, u64> {
    check_ranges(desk, opening)?;
    let info_length = opening.version_info.len() as u64;
    if info_length > INFO_BYTES as u64 {
        return Err(refusal::INFO_TOO_LONG);
    }
    let image_size = desk.image.len() as u64;
    let validated = opening.validated_length;
    let padded = validated.div_ceil(opening.preallocate).max(1) * opening.preallocate;
    if padded > image_size || 5 + info_length > image_size {
        return Err(refusal::NO_ROOM);
    }
    clear(desk.image, validated, opening.file_length, padded);
    let mut writer = Writer {
        id: opening.id,
        info_length,
        image_size,
        staging_size: desk.staging.len() as u64,
        file_length: opening.file_length.max(padded),
        position: validated,
        staged: 0,
        synchronized: validated,
        last: (opening.last_known == 1).then_some(opening.last_id),
        moment: Moment::Idle,
    };
    if validated == 0 {
        let mut buffers = Buffers { image: desk.image, staging: desk.staging };
        write_header(&mut writer, &mut buffers, opening.version_info);
        flush_staging(&mut writer, &mut buffers);
    }
    Ok(writer)
}

fn check_ranges(desk: &Desk<'_>, opening: &Opening<'_>) -> Result<(), u64> {
    let image_size = desk.image.len() as u64;
    let in_range = image_size <= IMAGE_LIMIT
        && desk.staging.len() as u64 <= STAGING_LIMIT
        && (1..=U32_LIMIT).contains(&opening.preallocate)
        && opening.validated_length <= opening.file_length
        && opening.file_length <= image_size
        && opening.last_known <= 1;
    in_range.then_some(()).ok_or(refusal::RANGE)
}

/// Preallocation: zeros from the file's end to the padded length, and as many from the validated length on.
fn clear(image: &mut [u8], validated: u64, file_length: u64, padded: u64) {
    if padded < file_length {
        return;
    }
    image[file_length as usize..padded as usize].fill(0);
    let count = padded - file_length;
    image[validated as usize..(validated + count) as usize].fill(0);
}

/// A call that changes the writer and reports nothing.
fn change(desk: &mut Desk<'_>, call: impl FnOnce(&mut Writer, &mut Buffers<'_>, &[u8]) -> Outcome) -> u64 {
    change_and_answer(desk, &mut [0; ANSWER_WORDS], call)
}

/// A call that changes the writer and reports words. The call refuses before it changes anything.
fn change_and_answer(
    desk: &mut Desk<'_>,
    answer: &mut [u64],
    call: impl FnOnce(&mut Writer, &mut Buffers<'_>, &[u8]) -> Outcome,
) -> u64 {
    if is_too_short(desk) || answer.len() < ANSWER_WORDS {
        return refusal::RANGE;
    }
    let Some(mut writer) = Writer::from_words(desk.state, desk.image.len(), desk.staging.len()) else {
        return reply(answer, Err(refusal::RANGE));
    };
    let mut buffers = Buffers { image: desk.image, staging: desk.staging };
    let outcome = call(&mut writer, &mut buffers, desk.info);
    if outcome.is_ok() {
        desk.state[..WRITER_WORDS].copy_from_slice(&writer.to_words());
    }
    reply(answer, outcome)
}
