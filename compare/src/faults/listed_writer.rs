//! Document 01's list, the writer's part: staged rollback, two overflows, and seven others.

use std::io::{SeekFrom, Write};

use okaywal::entry::inside;

use super::{
    hands::{ask, by_build, disk, fresh, numbers, our_writer, refused, standing, their_entry, their_writer, unopened},
    Fault, Shown,
    Source::Listed,
};
use crate::{
    calls::{Opening, WriterCall},
    difference::{holds, same, same_bytes, Verdict},
    panics::caught,
    rust_writer::{landed, Bench},
};

pub const FAULTS: &[Fault] = &[
    Fault { name: "staged-rollback", source: Listed, run: staged_rollback },
    Fault { name: "overflow-in-seek", source: Listed, run: overflow_in_seek },
    Fault { name: "preallocation-zero", source: Listed, run: preallocation_zero },
    Fault { name: "direct-write-length", source: Listed, run: direct_write_length },
    Fault { name: "short-finish-commits", source: Listed, run: short_finish_commits },
    Fault { name: "long-info-when-continued", source: Listed, run: long_info_when_continued },
    Fault { name: "long-info-leaves-okw", source: Listed, run: long_info_leaves_okw },
    Fault { name: "single-write-stops", source: Listed, run: single_write_stops },
    Fault { name: "empty-write-flushes", source: Listed, run: empty_write_flushes },
    Fault { name: "dropped-bytes-written", source: Listed, run: dropped_bytes_written },
];

fn staged_rollback(bench: &Bench) -> Verdict<Shown> {
    let file = their_writer(bench, &fresh(), 64)?;
    let mut entry = their_entry(bench, &file, 1)?;
    entry.write_chunk(&[])?;
    entry.rollback()?;
    their_entry(bench, &file, 2)?.commit()?;
    same("committed", bench.log().reported(), Some(15))?;
    file.synchronize(15)?;
    let theirs = numbers(&file)?;
    same("the Rust's position", theirs.position, 23)?;
    same_bytes("the Rust's bytes 15 to 22", &disk(&file)?[15..23], &[0; 8])?;

    let mut ours = our_writer(&fresh(), 64, 64)?;
    use WriterCall::{Begin, BeginChunk, Commit, Finish, Rollback, Sync};
    ask(&mut ours, &[Begin(1), BeginChunk(0), Finish, Rollback, Begin(2), Commit, Sync(15)])?;
    same("our position", (ours.position(), ours.synchronized()), (15, 15))?;
    Ok(Shown {
        input: "fresh, v = 0, staging 64: begin 1, empty chunk, rollback, begin 2, commit (15), sync to 15",
        rust: format!("stands at {}, bytes 15 to 22 are zeros", theirs.position),
        ours: format!("stands at {}", ours.position()),
    })
}

fn overflow_in_seek(_bench: &Bench) -> Verdict<Shown> {
    let mut ours = our_writer(&fresh(), 64, 64)?;
    for (to, call) in [
        (SeekFrom::Current(i64::MIN), WriterCall::LandCurrent(i64::MIN)),
        (SeekFrom::End(i64::MIN), WriterCall::LandEnd(i64::MIN)),
    ] {
        let text = caught(|| landed(64, 5, &[], to)).err().unwrap_or_default();
        let expected = by_build("attempt to negate with overflow", "called `Result::unwrap()` on an `Err` value");
        holds("the Rust panics in negating", text.starts_with(expected))?;
        same(call.name(), refused(&mut ours, &call), 11)?;
    }
    Ok(Shown {
        input: "seek by i64::MIN, from the position and from the end",
        rust: String::from("negates it and panics (a plain release build panics in the next step)"),
        ours: String::from("refused with 11"),
    })
}

fn preallocation_zero(bench: &Bench) -> Verdict<Shown> {
    let continued = Opening { preallocate: 0, validated_length: 5, file_length: 64, ..fresh() };
    let new = Opening { preallocate: 0, ..fresh() };
    let by_zero = "attempt to divide by zero";
    let cases = [(continued, by_zero), (new, by_build("attempt to subtract with overflow", by_zero))];
    for (opening, expected) in cases {
        let text = caught(|| their_writer(bench, &opening, 64).map(|_| ())).err();
        same("the Rust's panic", text.as_deref(), Some(expected))?;
        let mut ours = unopened(64, 64);
        same("ours", refused(&mut ours, &WriterCall::Open(opening)), 12)?;
    }
    Ok(Shown {
        input: "preallocation 0, with L = 5 and with L = 0",
        rust: String::from("panics: divides by zero (where sums are checked, L = 0 subtracts 1 from 0 before that)"),
        ours: String::from("refused with 12"),
    })
}

fn direct_write_length(bench: &Bench) -> Verdict<Shown> {
    let opening = Opening { preallocate: 20, ..fresh() };
    let file = their_writer(bench, &opening, 4)?;
    let mut entry = their_entry(bench, &file, 1)?;
    entry.write_chunk(&[7; 12])?;
    let theirs = numbers(&file)?;
    let on_disk = disk(&file)?.len();
    same("the Rust's length and the file's", (theirs.length, on_disk), (20, 31))?;

    let mut ours = our_writer(&opening, 64, 4)?;
    use WriterCall::{Begin, BeginChunk, Finish, Write};
    ask(&mut ours, &[Begin(1), BeginChunk(12), Write(vec![7; 12]), Finish])?;
    same("our file length", ours.file_length(), 31)?;
    Ok(Shown {
        input: "fresh, preallocation 20, staging 4: begin 1, chunk of 12 bytes",
        rust: format!("`length` {}, the file has {on_disk} bytes", theirs.length),
        ours: format!("file length {}", ours.file_length()),
    })
}

fn short_finish_commits(bench: &Bench) -> Verdict<Shown> {
    let file = their_writer(bench, &fresh(), 64)?;
    let mut entry = their_entry(bench, &file, 1)?;
    let mut chunk = entry.begin_chunk(3)?;
    chunk.write_all(&[7])?;
    holds("the Rust's finish fails", chunk.finish().is_err())?;
    entry.commit()?;
    file.synchronize(u64::MAX)?;
    same_bytes("the Rust's entry", &disk(&file)?[14..21], &[2, 3, 0, 0, 0, 7, 3])?;

    let mut ours = our_writer(&fresh(), 64, 64)?;
    ask(&mut ours, &[WriterCall::Begin(1), WriterCall::BeginChunk(3), WriterCall::Write(vec![7])])?;
    same("our finish", refused(&mut ours, &WriterCall::Finish), 8)?;
    same("our commit", refused(&mut ours, &WriterCall::Commit), 6)?;
    ask(&mut ours, &[WriterCall::Write(vec![8, 9]), WriterCall::Finish, WriterCall::Commit])?;
    Ok(Shown {
        input: "begin 1, chunk of 3, 1 byte, finish, commit",
        rust: String::from("finish fails, commit is taken: 02 03 00 00 00 07 03 stands in the file, no data, no CRC"),
        ours: String::from("finish refused with 8, commit with 6; the chunk stays open and can be completed"),
    })
}

fn long_info_when_continued(bench: &Bench) -> Verdict<Shown> {
    let info = vec![7; 256];
    let opening = Opening { version_info: info, validated_length: 5, file_length: 64, ..fresh() };
    let file = their_writer(bench, &opening, 64)?;
    same("the Rust's version info", numbers(&file)?.version_info.len(), 256)?;
    let mut ours = unopened(64, 64);
    same("ours", refused(&mut ours, &WriterCall::Open(opening)), 4)?;
    Ok(Shown {
        input: "version info of 256 bytes, L = 5, F = 64",
        rust: String::from("opens; a later recycling would fail"),
        ours: String::from("refused with 4"),
    })
}

fn long_info_leaves_okw(bench: &Bench) -> Verdict<Shown> {
    let opening = Opening { version_info: vec![7; 256], ..fresh() };
    let path = bench.folder().join("wal");
    holds("the Rust refuses", their_writer(bench, &opening, 3).is_err())?;
    same_bytes("what it left, staging 3", &std::fs::read(&path)?[..5], b"okw\0\0")?;
    holds("the Rust refuses", their_writer(bench, &opening, 4).is_err())?;
    same_bytes("what it left, staging 4", &std::fs::read(&path)?[..5], &[0; 5])?;
    let mut ours = unopened(300, 3);
    ours.image.fill(9);
    same("ours", refused(&mut ours, &WriterCall::Open(opening)), 4)?;
    holds("our image is untouched", ours.image == vec![9; 300])?;
    Ok(Shown {
        input: "fresh, version info of 256 bytes, staging 3",
        rust: String::from("fails and leaves a file of 64 bytes that begins with 6F 6B 77 00"),
        ours: String::from("refused with 4, no byte changes"),
    })
}

fn single_write_stops(bench: &Bench) -> Verdict<Shown> {
    let file = their_writer(bench, &fresh(), 16)?;
    let mut entry = their_entry(bench, &file, 1)?;
    let mut chunk = entry.begin_chunk(8)?;
    let taken = chunk.write(&[7; 8])?;
    same("the Rust's single write", taken, 2)?;
    inside::set_aside(chunk);

    let mut ours = our_writer(&fresh(), 64, 16)?;
    let answer = ask(&mut ours, &[WriterCall::Begin(1), WriterCall::BeginChunk(8), WriterCall::Write(vec![7; 8])])?;
    same("our piece", answer[0], 8)?;
    Ok(Shown {
        input: "staging 16, 14 bytes staged, chunk of 8: one write of 8 bytes",
        rust: format!("takes {taken}"),
        ours: format!("takes {}", answer[0]),
    })
}

fn empty_write_flushes(bench: &Bench) -> Verdict<Shown> {
    let file = their_writer(bench, &fresh(), 14)?;
    let mut entry = their_entry(bench, &file, 1)?;
    let mut chunk = entry.begin_chunk(0)?;
    same("position and staged bytes, full", standing(inside::writer(&mut chunk))?, (5, 14))?;
    same("taken of nothing", chunk.write(&[])?, 0)?;
    same("position and staged bytes after an empty write", standing(inside::writer(&mut chunk))?, (19, 0))?;
    inside::set_aside(chunk);

    let mut ours = our_writer(&fresh(), 64, 14)?;
    ask(&mut ours, &[WriterCall::Begin(1), WriterCall::BeginChunk(0), WriterCall::Write(Vec::new())])?;
    same("our position and staged bytes", (ours.position(), ours.staged()), (5, 14))?;
    Ok(Shown {
        input: "staging 14, just full: an empty write",
        rust: String::from("flushes: file position 5 becomes 19"),
        ours: String::from("takes 0 bytes, file position stays 5, 14 bytes stay staged"),
    })
}

fn dropped_bytes_written(bench: &Bench) -> Verdict<Shown> {
    let file = their_writer(bench, &fresh(), 64)?;
    let mut entry = their_entry(bench, &file, 1)?;
    file.lock().flush()?;
    entry.write_chunk(&[7; 3])?;
    entry.rollback()?;
    same("the Rust's position", numbers(&file)?.position, 5)?;
    same_bytes("dropped bytes in the file", &disk(&file)?[14..22], &[2, 3, 0, 0, 0, 7, 7, 7])?;
    their_entry(bench, &file, 1)?.commit()?;
    file.lock().revert_to(0)?;
    same_bytes("recycled-away bytes in the file", &disk(&file)?[5..7], &[1, 1])?;

    let mut ours = our_writer(&fresh(), 64, 64)?;
    use WriterCall::{Begin, BeginChunk, Finish, Flush, Rollback, Write};
    ask(&mut ours, &[Begin(1), Flush, BeginChunk(3), Write(vec![7; 3]), Finish, Rollback])?;
    same("our position", (ours.position(), ours.staged()), (5, 0))?;
    same_bytes("our bytes from 14 on", &ours.image[14..22], &[0; 8])?;
    Ok(Shown {
        input: "begin 1, flush, chunk of 3 bytes (staged), rollback; then begin 1, commit, recycle",
        rust: String::from("writes the dropped chunk at 14 to 25 of the file, then goes back; the recycling likewise"),
        ours: String::from("no image byte changes"),
    })
}
