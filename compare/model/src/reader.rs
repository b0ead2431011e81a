//! The reader's calls, as okaywal_segment.h gives them. No call writes to the image.

use crate::{
    mark,
    position::number,
    reader_state::{Moment, OpenChunk, Reader},
    refusal, reply,
    sum::crc32c_append,
    words, Outcome, ANSWER_WORDS, IMAGE_LIMIT, READER_WORDS,
};

const ENDED: u64 = 3;

pub fn open(state: &mut [u64], image: &[u8], file_id: u64) -> u64 {
    if state.len() < READER_WORDS {
        return refusal::RANGE;
    }
    match opened(image, file_id) {
        Ok(reader) => {
            state[..READER_WORDS].copy_from_slice(&reader.to_words());
            0
        }
        Err(number) => {
            state[..READER_WORDS].fill(0);
            state[5] = ENDED;
            number
        }
    }
}

pub fn entry(state: &mut [u64], image: &[u8], answer: &mut [u64]) -> u64 {
    change_and_answer(state, image, answer, |reader| {
        if let Moment::Ended = reader.moment {
            return Ok(words(&[0]));
        }
        leave_chunk(reader);
        if let Moment::Entry(_) = reader.moment {
            skip_chunks(reader, image)?;
        }
        reader.valid_until = reader.place;
        let found = entry_at(image, reader.place).filter(|&id| id >= reader.file_id);
        let Some(id) = found else {
            reader.moment = Moment::Ended;
            return Ok(words(&[0]));
        };
        reader.place += 9;
        reader.moment = Moment::Entry(id);
        Ok(words(&[1, id]))
    })
}

pub fn chunk(state: &mut [u64], image: &[u8], answer: &mut [u64]) -> u64 {
    change_and_answer(state, image, answer, |reader| {
        let id = current_entry(reader)?;
        leave_chunk(reader);
        match next_chunk(reader, image)? {
            Next::Chunk(chunk) => {
                reader.place = chunk.offset + 5;
                reader.moment = Moment::Chunk(id, chunk);
                Ok(words(&[1, chunk.offset, chunk.length]))
            }
            Next::End => Ok(words(&[2])),
            Next::Aborted => Ok(words(&[3])),
        }
    })
}

pub fn data(state: &mut [u64], image: &[u8], asked: u64, answer: &mut [u64]) -> u64 {
    change_and_answer(state, image, answer, |reader| {
        let Moment::Chunk(id, chunk) = reader.moment else {
            return Err(refusal::NOT_NOW);
        };
        let present = reader.image_size.saturating_sub(reader.place);
        let count = asked.min(chunk.owed).min(present);
        let part = words(&[reader.place, count]);
        reader.place += count;
        reader.moment = Moment::Chunk(id, OpenChunk { owed: chunk.owed - count, ..chunk });
        Ok(part)
    })
}

pub fn check_crc(state: &mut [u64], image: &[u8], answer: &mut [u64]) -> u64 {
    if state.len() < READER_WORDS || answer.len() < ANSWER_WORDS {
        return refusal::RANGE;
    }
    let Some(reader) = Reader::from_words(state, image.len()) else {
        return reply(answer, Err(refusal::RANGE));
    };
    let outcome = match reader.moment {
        Moment::Chunk(_, chunk) if chunk.owed == 0 => sum_is_right(image, chunk),
        _ => Err(refusal::NOT_NOW),
    };
    reply(answer, outcome.map(|right| words(&[u64::from(right)])))
}

pub fn skip(state: &mut [u64], image: &[u8]) -> u64 {
    change_and_answer(state, image, &mut [0; ANSWER_WORDS], |reader| {
        if !matches!(reader.moment, Moment::Chunk(..)) {
            return Err(refusal::NOT_NOW);
        }
        leave_chunk(reader);
        Ok(words(&[]))
    })
}

pub fn whole(state: &mut [u64], image: &[u8], answer: &mut [u64]) -> u64 {
    change_and_answer(state, image, answer, |reader| {
        current_entry(reader)?;
        leave_chunk(reader);
        let began = reader.place;
        let mut chunks = 0;
        loop {
            match next_chunk(reader, image)? {
                Next::Chunk(chunk) => {
                    reader.place = chunk.end();
                    if !sum_is_right(image, chunk)? {
                        return Err(refusal::WRONG_CRC);
                    }
                    chunks += 1;
                }
                Next::End => return Ok(words(&[1, began, chunks])),
                Next::Aborted => return Ok(words(&[2])),
            }
        }
    })
}

fn opened(image: &[u8], file_id: u64) -> Result<Reader, u64> {
    if image.len() as u64 > IMAGE_LIMIT {
        return Err(refusal::RANGE);
    }
    let [first, second, third, version, info_length, ..] = *image else {
        return Err(refusal::SHORT);
    };
    if [first, second, third] != *b"okw" {
        return Err(refusal::MAGIC);
    }
    if version != 0 {
        return Err(refusal::VERSION);
    }
    let place = 5 + u64::from(info_length);
    if place > image.len() as u64 {
        return Err(refusal::SHORT);
    }
    Ok(Reader {
        file_id,
        image_size: image.len() as u64,
        info_length: u64::from(info_length),
        place,
        valid_until: place,
        moment: Moment::NoEntry,
    })
}

/// The entry that is current, with or without an open chunk.
fn current_entry(reader: &Reader) -> Result<u64, u64> {
    match reader.moment {
        Moment::Entry(id) | Moment::Chunk(id, _) => Ok(id),
        Moment::NoEntry | Moment::Ended => Err(refusal::NOT_NOW),
    }
}

fn leave_chunk(reader: &mut Reader) {
    if let Moment::Chunk(id, chunk) = reader.moment {
        reader.place = chunk.end();
        reader.moment = Moment::Entry(id);
    }
}

enum Next {
    Chunk(OpenChunk),
    End,
    Aborted,
}

/// What stands at the place; a 03 is passed. A cut header leaves the reader at the image's end with no entry.
fn next_chunk(reader: &mut Reader, image: &[u8]) -> Result<Next, u64> {
    let rest = from(image, reader.place);
    match rest.first() {
        Some(&mark::CHUNK) if rest.len() < 5 => {
            reader.place = reader.image_size;
            reader.moment = Moment::NoEntry;
            Err(refusal::CUT)
        }
        Some(&mark::CHUNK) => {
            let length = number(&rest[1..5]);
            Ok(Next::Chunk(OpenChunk { offset: reader.place, length, owed: length }))
        }
        Some(&mark::END) => {
            reader.place += 1;
            Ok(Next::End)
        }
        _ => Ok(Next::Aborted),
    }
}

/// Passes the current entry's chunks, and a 03 if one is met behind them.
fn skip_chunks(reader: &mut Reader, image: &[u8]) -> Result<(), u64> {
    while let Next::Chunk(chunk) = next_chunk(reader, image)? {
        reader.place = chunk.end();
    }
    Ok(())
}

/// The id of the entry that begins at the place.
fn entry_at(image: &[u8], place: u64) -> Option<u64> {
    match from(image, place) {
        [mark::ENTRY, rest @ ..] if rest.len() >= 8 => Some(number(&rest[..8])),
        _ => None,
    }
}

/// Whether the sum behind a chunk's data is that of the data; refused where data or sum is cut.
fn sum_is_right(image: &[u8], chunk: OpenChunk) -> Result<bool, u64> {
    let body = from(image, chunk.offset + 5);
    if (body.len() as u64) < chunk.length + 4 {
        return Err(refusal::CUT);
    }
    let (data, rest) = body.split_at(chunk.length as usize);
    Ok(number(&rest[..4]) == u64::from(crc32c_append(0, data)))
}

/// The image's bytes from a place on, none where it lies past the end.
fn from(image: &[u8], place: u64) -> &[u8] {
    let start = place.min(image.len() as u64) as usize;
    &image[start..]
}

/// A call that moves the reader. A 9 or a 10 leaves it where the call put it; other refusals leave it as it was.
fn change_and_answer(
    state: &mut [u64],
    image: &[u8],
    answer: &mut [u64],
    call: impl FnOnce(&mut Reader) -> Outcome,
) -> u64 {
    if state.len() < READER_WORDS || answer.len() < ANSWER_WORDS {
        return refusal::RANGE;
    }
    let Some(mut reader) = Reader::from_words(state, image.len()) else {
        return reply(answer, Err(refusal::RANGE));
    };
    let outcome = call(&mut reader);
    if matches!(outcome, Ok(_) | Err(refusal::CUT | refusal::WRONG_CRC)) {
        state[..READER_WORDS].copy_from_slice(&reader.to_words());
    }
    reply(answer, outcome)
}
