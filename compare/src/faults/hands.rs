//! What the named runs have in common: a writer of each kind, opened alike, and the Rust's numbers.

use std::{fs, io};

use okaywal::{
    log_file::{inside, LogFileWriter},
    EntryWriter, LogFile, SegmentReader,
};

use crate::{
    calls::{Opening, ReaderCall, WriterCall},
    difference::{same, Verdict},
    panics,
    reader::ours::Ours as OurReader,
    rust_writer::{Bench, Setup, Shown},
    writer::ours::Ours as OurWriter,
};

/// Document 01's fresh writer: id 1, preallocation 64.
pub fn fresh() -> Opening {
    Opening { id: 1, preallocate: 64, ..Opening::default() }
}

/// What is expected of a build whose sums are checked, and of a plain release build.
pub fn by_build<T>(checked: T, plain: T) -> T {
    if panics::sums_are_checked() {
        checked
    } else {
        plain
    }
}

/// The Rust's writer on an empty file.
pub fn their_writer(bench: &Bench, opening: &Opening, staging: usize) -> io::Result<LogFile> {
    let file = vec![0; opening.file_length as usize];
    bench.open(&Setup { opening, file: &file, staging })
}

/// Our writer before its opening, on an image of zeros.
pub fn unopened(image: usize, staging: usize) -> OurWriter {
    OurWriter::new(vec![0; image], vec![0; staging])
}

/// Our writer on an image of zeros.
pub fn our_writer(opening: &Opening, image: usize, staging: usize) -> Verdict<OurWriter> {
    let mut ours = unopened(image, staging);
    ask(&mut ours, &[WriterCall::Open(opening.clone())])?;
    Ok(ours)
}

/// Calls that ours accepts; the last one's answer.
pub fn ask(ours: &mut OurWriter, calls: &[WriterCall]) -> Verdict<[u64; 4]> {
    let mut last = [0; 4];
    for call in calls {
        let (number, answer) = ours.call(call);
        same(call.name(), number, 0)?;
        last = answer;
    }
    Ok(last)
}

/// The number that ours refuses a call with.
pub fn refused(ours: &mut OurWriter, call: &WriterCall) -> u64 {
    ours.call(call).0
}

pub fn their_entry<'b>(bench: &'b Bench, file: &LogFile, id: u64) -> io::Result<EntryWriter<'b>> {
    okaywal::entry::inside::begin(bench.log(), id, file.clone())
}

/// The Rust's private numbers.
pub fn numbers(file: &LogFile) -> Verdict<Shown> {
    Shown::read(&format!("{:?}", &*file.lock()))
}

/// The Rust's file position and staged bytes.
pub fn standing(writer: &LogFileWriter) -> Verdict<(u64, u64)> {
    let shown = Shown::read(&format!("{writer:?}"))?;
    Ok((shown.position, shown.buffer_write_position))
}

/// The bytes of the Rust's file.
pub fn disk(file: &LogFile) -> io::Result<Vec<u8>> {
    let path = file.lock().path().to_path_buf();
    fs::read(path)
}

/// The Rust's reader on a file of these bytes.
pub fn their_reader(bench: &Bench, image: &[u8]) -> io::Result<SegmentReader> {
    let path = bench.folder().join("segment");
    fs::write(&path, image)?;
    inside::open(&path, 1)
}

/// Our reader, opened.
pub fn our_reader(image: &[u8]) -> Verdict<OurReader<'_>> {
    let mut ours = OurReader::new(image);
    same("opening", ours.call(&ReaderCall::Open(1)).0, 0)?;
    Ok(ours)
}

/// The Rust's place in the image.
pub fn place(reader: &mut SegmentReader) -> io::Result<u64> {
    Ok(inside::numbers(reader)?.place)
}
