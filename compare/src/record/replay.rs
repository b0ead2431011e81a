//! Replays a recorded list on the library: what a program without the Rust does with it.

use std::{fs, path::Path};

use super::text::{hex, joined, unhex, Words};
use crate::{
    calls::{Opening, ReaderCall, WriterCall},
    difference::{same, Difference, Verdict},
    library,
    reader::ours::Ours as OurReader,
    writer::ours::Ours as OurWriter,
};

/// The writer and the reader that the list is speaking of.
#[derive(Default)]
struct Replay {
    writer: Option<OurWriter>,
    reader: Option<([u64; 10], Vec<u8>)>,
}

pub fn run(path: &Path) -> Verdict {
    let text = fs::read_to_string(path)?;
    let mut replay = Replay::default();
    for (number, line) in text.lines().enumerate() {
        let (call, expected) =
            line.split_once(" = ").ok_or_else(|| Difference(format!("line {}: {line}", number + 1)))?;
        let answer = replay.answer(call).map_err(|err| err.within(format!("line {}", number + 1)))?;
        same(&format!("line {}: {call}", number + 1), answer.as_str(), expected)?;
    }
    println!("replayed {} calls, no difference", text.lines().count());
    Ok(())
}

impl Replay {
    fn answer(&mut self, line: &str) -> Verdict<String> {
        let mut words = Words::new(line);
        match words.next()? {
            "open" => self.open(&mut words),
            "reader" => self.open_reader(&mut words),
            "first" => first(&mut words),
            "bytes" => bytes(&mut words),
            "put" => put(&mut words),
            "get" => get(&mut words),
            "sum" => sum(&mut words),
            name => match writer_call(name, &mut words)? {
                Some(call) => self.writer(&call),
                None => self.reader(reader_call(name, &mut words)?),
            },
        }
    }

    fn open(&mut self, words: &mut Words<'_>) -> Verdict<String> {
        let mut opening = Opening {
            id: words.number()?,
            last_known: words.number()?,
            last_id: words.number()?,
            validated_length: words.number()?,
            file_length: words.number()?,
            preallocate: words.number()?,
            ..Opening::default()
        };
        let (image_size, staging_size): (usize, usize) = (words.number()?, words.number()?);
        opening.version_info = unhex(words.next()?)?;
        let mut image = unhex(words.next()?)?;
        image.resize(image_size, 0);
        self.writer = Some(OurWriter::new(image, vec![0; staging_size]));
        self.writer(&WriterCall::Open(opening))
    }

    fn writer(&mut self, call: &WriterCall) -> Verdict<String> {
        let ours = self.writer.as_mut().ok_or_else(|| Difference(String::from("no writer is open")))?;
        let (number, answer) = ours.call(call);
        let last = [u64::from(ours.last().is_some()), ours.last().unwrap_or(0)];
        let numbers = [ours.position(), ours.staged(), ours.file_length(), ours.synchronized()];
        let below = library::crc32c_append(0, &ours.image[..ours.position() as usize]);
        let sum = library::crc32c_append(below, &ours.staging[..ours.staged() as usize]);
        Ok(joined(&[&[number], answer.as_slice(), &numbers, &last, &[u64::from(sum)]].concat()))
    }

    fn open_reader(&mut self, words: &mut Words<'_>) -> Verdict<String> {
        let (file_id, image) = (words.number()?, unhex(words.next()?)?);
        self.reader = Some(([0; 10], image));
        self.reader(ReaderCall::Open(file_id))
    }

    fn reader(&mut self, call: ReaderCall) -> Verdict<String> {
        let (state, image) = self.reader.as_mut().ok_or_else(|| Difference(String::from("no reader is open")))?;
        let mut ours = OurReader { words: *state, image };
        let (number, answer) = ours.call(&call);
        *state = ours.words;
        if number != 0 && matches!(call, ReaderCall::Open(_)) {
            return Ok(number.to_string());
        }
        let owed = if state[5] == 2 { state[9] } else { 0 };
        let line = joined(&[&[number], answer.as_slice(), &[state[3], state[4], owed]].concat());
        match call {
            ReaderCall::Data(_) => {
                let [place, count] = [answer[0] as usize, answer[1] as usize];
                Ok(format!("{line} {}", hex(&image[place..place + count])))
            }
            _ => Ok(line),
        }
    }
}

/// The first entry and that entry whole, by the calls of the C interface.
fn first(words: &mut Words<'_>) -> Verdict<String> {
    let (file_id, image) = (words.number()?, unhex(words.next()?)?);
    let mut ours = OurReader { words: [0; 10], image: &image };
    let (opening, _) = ours.call(&ReaderCall::Open(file_id));
    if opening != 0 {
        return Ok(opening.to_string());
    }
    let (number, entry) = ours.call(&ReaderCall::Entry);
    let mut numbers = [&[0, number], entry.as_slice()].concat();
    if entry[0] == 1 {
        let (number, whole) = ours.call(&ReaderCall::Whole);
        numbers.push(number);
        numbers.extend(whole);
        numbers.extend([ours.words[3], ours.words[4]]);
    }
    Ok(joined(&numbers))
}

/// Bytes of the first chunk and its CRC's check, by the calls of the C interface.
fn bytes(words: &mut Words<'_>) -> Verdict<String> {
    let (file_id, image) = (words.number()?, unhex(words.next()?)?);
    let mut ours = OurReader { words: [0; 10], image: &image };
    ours.call(&ReaderCall::Open(file_id));
    ours.call(&ReaderCall::Entry);
    ours.call(&ReaderCall::Chunk);
    let (_, [place, count, ..]) = ours.call(&ReaderCall::Data(words.number()?));
    ours.call(&ReaderCall::Data(u64::from(u32::MAX)));
    let (number, check) = ours.call(&ReaderCall::CheckCrc);
    Ok(format!("{} {}", hex(&image[place as usize..(place + count) as usize]), joined(&[number, check[0]])))
}

fn put(words: &mut Words<'_>) -> Verdict<String> {
    let mut bytes = [0; 16];
    let number = library::position_write(words.number()?, words.number()?, &mut bytes);
    Ok(format!("{number} {}", hex(&bytes)))
}

fn get(words: &mut Words<'_>) -> Verdict<String> {
    let mut answer = [0; 4];
    let number = library::position_read(&unhex(words.next()?)?, &mut answer);
    Ok(joined(&[number, answer[0], answer[1]]))
}

fn sum(words: &mut Words<'_>) -> Verdict<String> {
    Ok(library::crc32c_append(words.number()?, &unhex(words.next()?)?).to_string())
}

fn writer_call(name: &str, words: &mut Words<'_>) -> Verdict<Option<WriterCall>> {
    Ok(Some(match name {
        "begin" => WriterCall::Begin(words.number()?),
        "chunk" => WriterCall::BeginChunk(words.number()?),
        "write" => WriterCall::Write(unhex(words.next()?)?),
        "finish" => WriterCall::Finish,
        "commit" => WriterCall::Commit,
        "rollback" => WriterCall::Rollback,
        "recycle" => WriterCall::Recycle(words.number()?),
        "flush" => WriterCall::Flush,
        "sync" => WriterCall::Sync(words.number()?),
        "start" => WriterCall::LandStart(words.number()?),
        "end" => WriterCall::LandEnd(words.number()?),
        "current" => WriterCall::LandCurrent(words.number()?),
        _ => return Ok(None),
    }))
}

fn reader_call(name: &str, words: &mut Words<'_>) -> Verdict<ReaderCall> {
    Ok(match name {
        "entry" => ReaderCall::Entry,
        "next" => ReaderCall::Chunk,
        "data" => ReaderCall::Data(words.number()?),
        "check" => ReaderCall::CheckCrc,
        "skip" => ReaderCall::Skip,
        "whole" => ReaderCall::Whole,
        _ => return Err(Difference(format!("no call is named `{name}`"))),
    })
}
