//! Refusals that this port adds: what the Rust does with the same call.

use std::io::SeekFrom;

use super::{
    hands::{
        ask, by_build, disk, fresh, numbers, our_writer, refused, their_entry, their_reader, their_writer, unopened,
    },
    Fault, Shown,
    Source::Added,
};
use crate::{
    calls::{Opening, WriterCall},
    difference::{holds, same, Verdict},
    panics::caught,
    rust_writer::{landed, Bench},
};

pub const FAULTS: &[Fault] = &[
    Fault { name: "low-entry-id", source: Added, run: low_entry_id },
    Fault { name: "no-room", source: Added, run: no_room },
    Fault { name: "landing-past-the-image", source: Added, run: landing_past_the_image },
    Fault { name: "landing-below-zero", source: Added, run: landing_below_zero },
    Fault { name: "validated-past-the-file", source: Added, run: validated_past_the_file },
];

fn low_entry_id(bench: &Bench) -> Verdict<Shown> {
    let file = their_writer(bench, &fresh(), 64)?;
    their_entry(bench, &file, 0)?.commit()?;
    file.synchronize(u64::MAX)?;
    let mut reader = their_reader(bench, &disk(&file)?)?;
    holds("the Rust's own reader ends", reader.read_entry()?.is_none())?;
    let mut ours = our_writer(&fresh(), 64, 64)?;
    same("ours", refused(&mut ours, &WriterCall::Begin(0)), 7)?;
    Ok(Shown {
        input: "entry id 0 in segment 1",
        rust: String::from("is written and committed; its own reader then ends in front of it"),
        ours: String::from("refused with 7"),
    })
}

fn no_room(bench: &Bench) -> Verdict<Shown> {
    let opening = Opening { preallocate: 14, ..fresh() };
    let file = their_writer(bench, &opening, 64)?;
    their_entry(bench, &file, 1)?.commit()?;
    file.synchronize(u64::MAX)?;
    same("the Rust's file", disk(&file)?.len(), 15)?;
    let mut ours = our_writer(&opening, 14, 64)?;
    same("ours", refused(&mut ours, &WriterCall::Begin(1)), 5)?;
    Ok(Shown {
        input: "preallocation 14 (here also the image's size): begin 1, commit",
        rust: String::from("the file grows to 15 bytes"),
        ours: String::from("begin refused with 5: the image does not grow"),
    })
}

fn landing_past_the_image(_bench: &Bench) -> Verdict<Shown> {
    same("the Rust's landing", landed(64, 5, &[], SeekFrom::Start(65))?, 65)?;
    let mut ours = our_writer(&fresh(), 64, 64)?;
    same("ours", refused(&mut ours, &WriterCall::LandStart(65)), 11)?;
    same("ours, at the size", ask(&mut ours, &[WriterCall::LandStart(64)])?[0], 64)?;
    Ok(Shown {
        input: "seek to 65 with an image of 64",
        rust: String::from("lands at 65"),
        ours: String::from("refused with 11; 64 is accepted"),
    })
}

fn landing_below_zero(_bench: &Bench) -> Verdict<Shown> {
    let landing = caught(|| landed(64, 5, &[], SeekFrom::Current(-6)).unwrap_or(0));
    let expected = by_build(Err(String::from("attempt to subtract with overflow")), Ok(u64::MAX));
    same("the Rust's landing", landing, expected)?;
    let mut ours = our_writer(&fresh(), 64, 64)?;
    same("ours", refused(&mut ours, &WriterCall::LandCurrent(-6)), 11)?;
    Ok(Shown {
        input: "seek by -6 from position 5",
        rust: String::from("panics: attempt to subtract with overflow (a plain release build lands at 2^64 - 1)"),
        ours: String::from("refused with 11"),
    })
}

fn validated_past_the_file(bench: &Bench) -> Verdict<Shown> {
    let opening = Opening { validated_length: 10, ..fresh() };
    let file = their_writer(bench, &opening, 64)?;
    let (position, length) = (numbers(&file)?.position, disk(&file)?.len());
    same("the Rust's position and file", (position, length), (10, 74))?;
    let mut ours = unopened(128, 64);
    same("ours", refused(&mut ours, &WriterCall::Open(opening)), 12)?;
    Ok(Shown {
        input: "L = 10 on an empty file (F = 0), preallocation 64",
        rust: format!("opens at {position}; the zeros from L on make a file of {length} bytes, not 64"),
        ours: String::from("refused with 12"),
    })
}
