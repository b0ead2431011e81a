//! Differences that document 01 does not list.

use std::{
    env,
    io::{Read, Write},
    os::unix::process::ExitStatusExt,
    path::Path,
    process::{Command, Stdio},
    sync::mpsc,
    thread,
    time::Duration,
};

use okaywal::{entry::inside, EntryChunk, ReadChunkResult};

use super::{
    hands::{ask, by_build, fresh, numbers, our_reader, our_writer, place, their_entry, their_reader, their_writer},
    Fault, Shown,
    Source::Unlisted,
};
use crate::{
    calls::{ReaderCall, WriterCall},
    difference::{holds, same, same_bytes, Difference, Verdict},
    library,
    panics::caught,
    reader::images::Image,
    rust_writer::Bench,
};

pub const FAULTS: &[Fault] = &[
    Fault { name: "position-into-nine-bytes", source: Unlisted, run: position_into_nine_bytes },
    Fault { name: "read-stops-at-8-kib", source: Unlisted, run: read_stops_at_8_kib },
    Fault { name: "recycled-twice", source: Unlisted, run: recycled_twice },
    Fault { name: "chunk-dropped-with-bytes-owed", source: Unlisted, run: chunk_dropped_with_bytes_owed },
    Fault { name: "chunk-dropped-complete", source: Unlisted, run: chunk_dropped_complete },
    Fault { name: "sync-in-a-chunk", source: Unlisted, run: sync_in_a_chunk },
    Fault { name: "cut-data-in-a-whole-entry", source: Unlisted, run: cut_data_in_a_whole_entry },
    Fault { name: "crc-check-moves", source: Unlisted, run: crc_check_moves },
    Fault { name: "every-chunk-skipped-adds-4", source: Unlisted, run: every_chunk_skipped_adds_4 },
    Fault { name: "skip-ends-the-process", source: Unlisted, run: skip_ends_the_process },
    Fault { name: "whole-entry-reserves-memory", source: Unlisted, run: whole_entry_reserves_memory },
];

/// The hidden command whose process does not survive `skip_remaining_bytes` on a length from 2^32 - 4 on.
pub const FATAL: &str = "skip-and-die";

fn position_into_nine_bytes(_bench: &Bench) -> Verdict<Shown> {
    let (mut theirs, mut ours) = ([9; 9], [9; 9]);
    holds("the Rust fails", inside::position(1, 2).serialize_to(theirs.as_mut_slice()).is_err())?;
    same_bytes("what the Rust stored", &theirs, &[1, 0, 0, 0, 0, 0, 0, 0, 2])?;
    same("ours", library::position_write(1, 2, &mut ours), 5)?;
    same_bytes("what ours stored", &ours, &[9; 9])?;
    Ok(Shown {
        input: "position (1, 2) into 9 bytes",
        rust: String::from("fails, and has stored all 9 bytes"),
        ours: String::from("refused with 5, nothing is stored"),
    })
}

fn read_stops_at_8_kib(bench: &Bench) -> Verdict<Shown> {
    let image = Image::header(&[]).entry(1).chunk(&[7; 12_000]).end().0;
    let mut theirs = their_reader(bench, &image)?;
    let mut entry = theirs.read_entry()?.ok_or_else(|| Difference(String::from("no entry")))?;
    let ReadChunkResult::Chunk(mut chunk) = entry.read_chunk()? else {
        return Err(Difference(String::from("no chunk")));
    };
    same("the Rust's first read", chunk.read(&mut [0; 8000])?, 8000)?;
    let second = chunk.read(&mut [0; 4000])?;
    same("the Rust's second read", second, 173)?;

    let mut ours = our_reader(&image)?;
    ours.call(&ReaderCall::Entry);
    ours.call(&ReaderCall::Chunk);
    same("our first read", ours.call(&ReaderCall::Data(8000)), (0, [19, 8000, 0, 0]))?;
    same("our second read", ours.call(&ReaderCall::Data(4000)), (0, [8019, 4000, 0, 0]))?;
    Ok(Shown {
        input: "chunk of 12,000: 8,000 read, 4,000 asked",
        rust: format!("{second} come: the end of its 8 KiB buffer"),
        ours: String::from("4000 come: min(asked, owed, present)"),
    })
}

fn recycled_twice(bench: &Bench) -> Verdict<Shown> {
    let file = their_writer(bench, &fresh(), 64)?;
    file.lock().revert_to(0)?;
    their_entry(bench, &file, 2)?.commit()?;
    file.lock().revert_to(0)?;
    file.lock().flush()?;
    let theirs = numbers(&file)?.position;
    same("the Rust's position", theirs, 15)?;

    let mut ours = our_writer(&fresh(), 64, 64)?;
    use WriterCall::{Begin, Commit, Flush, Recycle};
    ask(&mut ours, &[Recycle(2), Begin(2), Commit, Recycle(3), Flush])?;
    same("our position", ours.position(), 5)?;
    Ok(Shown {
        input: "fresh, image and staging 64: recycle 2, begin 2, commit, recycle 3, flush",
        rust: format!("stands at {theirs}: the old tail counts, as in the staged rollback"),
        ours: format!("stands at {}", ours.position()),
    })
}

fn chunk_dropped_with_bytes_owed(bench: &Bench) -> Verdict<Shown> {
    let file = their_writer(bench, &fresh(), 64)?;
    let mut entry = their_entry(bench, &file, 1)?;
    let chunk = entry.begin_chunk(3)?;
    holds("the Rust panics", caught(|| drop(chunk)).is_err())?;
    entry.rollback()?;

    let mut ours = our_writer(&fresh(), 64, 64)?;
    ask(&mut ours, &[WriterCall::Begin(1), WriterCall::BeginChunk(3), WriterCall::Rollback])?;
    same("our logical position", ours.logical(), 5)?;
    Ok(Shown {
        input: "begin 1, chunk of 3, rollback from inside the chunk",
        rust: String::from("has no such call; leaving the chunk with bytes owed panics"),
        ours: String::from("rolled back to 5"),
    })
}

fn chunk_dropped_complete(bench: &Bench) -> Verdict<Shown> {
    let file = their_writer(bench, &fresh(), 64)?;
    let mut entry = their_entry(bench, &file, 1)?;
    let mut chunk = entry.begin_chunk(1)?;
    chunk.write_all(&[7])?;
    drop(chunk);
    let theirs = file.lock().position();
    same("the Rust's position", theirs, 24)?;
    entry.rollback()?;

    let mut ours = our_writer(&fresh(), 64, 64)?;
    ask(&mut ours, &[WriterCall::Begin(1), WriterCall::BeginChunk(1), WriterCall::Write(vec![7])])?;
    same("our logical position", ours.logical(), 20)?;
    ask(&mut ours, &[WriterCall::Rollback])?;
    Ok(Shown {
        input: "begin 1, chunk of 1, its byte, then the chunk is left without finish",
        rust: format!("writes the CRC in leaving: position {theirs}"),
        ours: String::from("a chunk is left by finish or rollback only: position 20 until then"),
    })
}

fn sync_in_a_chunk(bench: &Bench) -> Verdict<Shown> {
    let file = their_writer(bench, &fresh(), 64)?;
    let mut entry = their_entry(bench, &file, 1)?;
    let chunk = entry.begin_chunk(0)?;
    let (done, waiting) = mpsc::channel();
    let other = file.clone();
    let thread = thread::spawn(move || done.send(other.synchronize(19).is_ok()));
    let blocked = waiting.recv_timeout(Duration::from_millis(200)).is_err();
    chunk.finish()?;
    holds("the Rust waits while the chunk is open", blocked)?;
    same("and goes on behind it", waiting.recv_timeout(Duration::from_secs(20)).ok(), Some(true))?;
    holds("the thread ends", thread.join().is_ok())?;
    entry.rollback()?;

    let mut ours = our_writer(&fresh(), 64, 64)?;
    ask(&mut ours, &[WriterCall::Begin(1), WriterCall::BeginChunk(0), WriterCall::Sync(19)])?;
    same("our synchronized number", ours.synchronized(), 19)?;
    Ok(Shown {
        input: "begin 1, empty chunk, sync to 19 before its finish",
        rust: String::from("waits for the lock that the open chunk holds; on the same thread for ever"),
        ours: String::from("synchronized number 19"),
    })
}

fn cut_data_in_a_whole_entry(bench: &Bench) -> Verdict<Shown> {
    let image = Image::header(&[]).entry(1).announced(9).bytes(b"abc").0;
    let mut theirs = their_reader(bench, &image)?;
    let mut entry = theirs.read_entry()?.ok_or_else(|| Difference(String::from("no entry")))?;
    let text = entry.read_all_chunks().err().map(|err| err.to_string());
    same("the Rust's error", text.as_deref(), Some("crc cannot be checked before reading all chunk bytes"))?;
    same("the Rust's place", place(&mut theirs)?, 32)?;

    let mut ours = our_reader(&image)?;
    ours.call(&ReaderCall::Entry);
    same("ours", ours.call(&ReaderCall::Whole).0, 9)?;
    same("our place", ours.place(), 32)?;
    Ok(Shown {
        input: "entry 1, chunk of 9 with 3 bytes present: a call for the whole entry",
        rust: String::from("\"crc cannot be checked before reading all chunk bytes\", place 32"),
        ours: String::from("9, place 32"),
    })
}

fn crc_check_moves(bench: &Bench) -> Verdict<Shown> {
    let image = Image::header(&[]).entry(1).chunk(b"ab").end().0;
    let mut theirs = their_reader(bench, &image)?;
    let mut entry = theirs.read_entry()?.ok_or_else(|| Difference(String::from("no entry")))?;
    let ReadChunkResult::Chunk(mut chunk) = entry.read_chunk()? else {
        return Err(Difference(String::from("no chunk")));
    };
    chunk.read_all()?;
    let before = chunk_place(&mut chunk)?;
    holds("right there", chunk.check_crc()?)?;
    let after = chunk_place(&mut chunk)?;
    same("the Rust's places", (before, after), (21, 25))?;

    let mut ours = our_reader(&image)?;
    ours.call(&ReaderCall::Entry);
    ours.call(&ReaderCall::Chunk);
    ours.call(&ReaderCall::Data(2));
    same("right here", ours.call(&ReaderCall::CheckCrc), (0, [1, 0, 0, 0]))?;
    same("our place", ours.place(), 21)?;
    Ok(Shown {
        input: "entry 1, chunk \"ab\" at 14, read to its end, CRC checked",
        rust: format!("the check passes the CRC: place {before} becomes {after}; the next chunk is the same"),
        ours: String::from("the check moves nothing: place 21"),
    })
}

fn chunk_place(chunk: &mut EntryChunk<'_, '_>) -> Verdict<u64> {
    Ok(place(okaywal::log_file::inside::chunk_reader(chunk))?)
}

fn every_chunk_skipped_adds_4(bench: &Bench) -> Verdict<Shown> {
    let image = Image::header(&[]).entry(1).chunk(b"abcd").chunk(b"").end().entry(2).end().zeros(30).0;
    let mut theirs = their_reader(bench, &image)?;
    let mut entry = theirs.read_entry()?.ok_or_else(|| Difference(String::from("no entry")))?;
    let ReadChunkResult::Chunk(chunk) = entry.read_chunk()? else {
        return Err(Difference(String::from("no chunk")));
    };
    chunk.skip_remaining_bytes()?;
    let theirs = place(&mut theirs)?;
    same("the Rust's place", theirs, 31)?;

    let mut ours = our_reader(&image)?;
    ours.call(&ReaderCall::Entry);
    ours.call(&ReaderCall::Chunk);
    same("our skip", ours.call(&ReaderCall::Skip).0, 0)?;
    same("our place", ours.place(), 27)?;
    Ok(Shown {
        input: "entry 1, chunk \"abcd\" at 14: skip_remaining_bytes",
        rust: format!("place {theirs}: 4 too many, for this chunk and for each one skipped"),
        ours: String::from("place 27, the next 02"),
    })
}

fn skip_ends_the_process(bench: &Bench) -> Verdict<Shown> {
    const ABORTED: i32 = 6;
    let mut child = Command::new(env::current_exe()?);
    child.arg(FATAL).arg(bench.folder()).stdout(Stdio::null()).stderr(Stdio::null());
    let status = child.status()?;
    same("the signal that ended the process", status.signal(), by_build(Some(ABORTED), None))?;
    Ok(Shown {
        input: "skip_remaining_bytes on a chunk of length 2^32 - 4, in a process of its own",
        rust: String::from("panics, and again in dropping: the process is aborted (a plain release build goes on)"),
        ours: String::from("an exact place, as in overflow-in-skip"),
    })
}

/// What the hidden command does, in a folder that its parent removes.
pub fn skip_and_die(folder: &str) -> Verdict {
    let image = Image::header(&[]).entry(1).announced(u32::MAX - 3).0;
    let mut theirs = their_reader(&Bench::new(Path::new(folder))?, &image)?;
    let mut entry = theirs.read_entry()?.ok_or_else(|| Difference(String::from("no entry")))?;
    if let ReadChunkResult::Chunk(chunk) = entry.read_chunk()? {
        chunk.skip_remaining_bytes()?;
    }
    Ok(())
}

fn whole_entry_reserves_memory(bench: &Bench) -> Verdict<Shown> {
    let image = Image::header(&[]).entry(1).announced(1 << 28).0;
    let mut theirs = their_reader(bench, &image)?;
    let mut entry = theirs.read_entry()?.ok_or_else(|| Difference(String::from("no entry")))?;
    let ReadChunkResult::Chunk(mut chunk) = entry.read_chunk()? else {
        return Err(Difference(String::from("no chunk")));
    };
    let data = chunk.read_all()?;
    same("bytes read", data.len(), 0)?;
    holds("bytes reserved", data.capacity() >= 1 << 28)?;

    let mut ours = our_reader(&image)?;
    ours.call(&ReaderCall::Entry);
    same("ours", ours.call(&ReaderCall::Whole).0, 9)?;
    Ok(Shown {
        input: "an image of 19 bytes whose chunk announces 2^28 bytes: all of it is asked for",
        rust: format!("reserves {} bytes before it reads one; without them the process is aborted", data.capacity()),
        ours: String::from("9, no memory is asked for"),
    })
}
