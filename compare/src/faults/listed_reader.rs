//! Document 01's list, the reader's part: double skip, one overflow, and three others.

use okaywal::{log_file::inside, ReadChunkResult};

use super::{
    hands::{by_build, our_reader, place, their_reader},
    Fault, Shown,
    Source::Listed,
};
use crate::{
    calls::ReaderCall::{CheckCrc, Chunk, Data, Entry, Whole},
    difference::{holds, same, Difference, Verdict},
    panics::caught,
    reader::images::Image,
    rust_writer::Bench,
};

pub const FAULTS: &[Fault] = &[
    Fault { name: "double-skip", source: Listed, run: double_skip },
    Fault { name: "overflow-in-skip", source: Listed, run: overflow_in_skip },
    Fault { name: "aborted-after-cut-header", source: Listed, run: aborted_after_cut_header },
    Fault { name: "reads-on-after-the-end", source: Listed, run: reads_on_after_the_end },
    Fault { name: "cut-crc-place", source: Listed, run: cut_crc_place },
];

/// An image of 64 bytes: entry 1 with an empty chunk, entry 2 with none, zeros.
fn two_entries() -> Vec<u8> {
    let image = Image::header(&[]).entry(1).chunk(&[]).end().entry(2).end();
    let zeros = 64 - image.0.len();
    image.zeros(zeros).0
}

fn double_skip(bench: &Bench) -> Verdict<Shown> {
    let image = two_entries();
    let mut theirs = their_reader(bench, &image)?;
    same("the Rust's first entry", theirs.read_entry()?.map(|entry| entry.id().0), Some(1))?;
    holds("the Rust ends", theirs.read_entry()?.is_none())?;
    let until = inside::numbers(&mut theirs)?.valid_until;
    same("the Rust's valid_until", until, 27)?;

    let mut ours = our_reader(&image)?;
    same("our first entry", ours.call(&Entry), (0, [1, 1, 0, 0]))?;
    same("our second entry", ours.call(&Entry), (0, [1, 2, 0, 0]))?;
    same("where it stands", ours.valid_until(), 24)?;
    same("our end", ours.call(&Entry), (0, [0; 4]))?;
    same("where it ends", ours.valid_until(), 34)?;
    Ok(Shown {
        input: "entry 1 (empty chunk), entry 2 (no chunk), zeros to 64; entry 1 is skipped",
        rust: format!("ends with valid_until {until}: 4 bytes too many for every chunk skipped, here into entry 2"),
        ours: String::from("finds entry 2 at 24, then ends at 34"),
    })
}

fn overflow_in_skip(bench: &Bench) -> Verdict<Shown> {
    let image = Image::header(&[]).entry(1).announced(u32::MAX - 3).zeros(8).0;
    let mut theirs = their_reader(bench, &image)?;
    let mut entry = theirs.read_entry()?.ok_or_else(|| Difference(String::from("no entry")))?;
    let ReadChunkResult::Chunk(chunk) = entry.read_chunk()? else {
        return Err(Difference(String::from("no chunk")));
    };
    let text = caught(|| drop(chunk)).err();
    same("the Rust's panic", text.as_deref(), by_build(Some("attempt to add with overflow"), None))?;
    same("the Rust's place", place(inside::entry_reader(&mut entry))?, 19)?;

    let mut ours = our_reader(&image)?;
    ours.call(&Entry);
    same("our chunk", ours.call(&Chunk), (0, [1, 14, (1 << 32) - 4, 0]))?;
    same("our next", ours.call(&Chunk), (0, [3, 0, 0, 0]))?;
    same("our place", ours.place(), 14 + 9 + (1 << 32) - 4)?;
    Ok(Shown {
        input: "a chunk of length 2^32 - 4 at 14, cut by the image's end, is left",
        rust: String::from("panics: attempt to add with overflow (a plain release build stays at 19)"),
        ours: format!("the place is {}, past the image; then aborted", ours.place()),
    })
}

fn aborted_after_cut_header(bench: &Bench) -> Verdict<Shown> {
    let image = Image::header(&[]).entry(1).bytes(&[2, 9]).0;
    let mut theirs = their_reader(bench, &image)?;
    let mut entry = theirs.read_entry()?.ok_or_else(|| Difference(String::from("no entry")))?;
    holds("the Rust fails at the cut header", entry.read_chunk().is_err())?;
    holds("then says aborted", matches!(entry.read_chunk()?, ReadChunkResult::AbortedEntry))?;

    let mut ours = our_reader(&image)?;
    ours.call(&Entry);
    same("ours at the cut header", ours.call(&Chunk).0, 9)?;
    same("ours then", ours.call(&Chunk).0, 6)?;
    same("our place", ours.place(), 16)?;
    Ok(Shown {
        input: "entry 1, then 02 09 and the image's end: two calls for a chunk",
        rust: String::from("an error, then aborted"),
        ours: String::from("9, then 6"),
    })
}

fn reads_on_after_the_end(bench: &Bench) -> Verdict<Shown> {
    let image = Image::header(&[]).entry(1).end().zeros(9).entry(2).end().0;
    let mut theirs = their_reader(bench, &image)?;
    let mut found = Vec::new();
    for _ in 0..3 {
        let id = theirs.read_entry()?.map(|entry| entry.id().0);
        found.push((id, place(&mut theirs)?));
    }
    same("the Rust's entries and places", &found, &vec![(Some(1), 14), (None, 24), (Some(2), 33)])?;

    let mut ours = our_reader(&image)?;
    same("our entry", ours.call(&Entry), (0, [1, 1, 0, 0]))?;
    for _ in 0..3 {
        same("our end", ours.call(&Entry), (0, [0; 4]))?;
        same("our place", (ours.place(), ours.valid_until()), (15, 15))?;
    }
    Ok(Shown {
        input: "entry 1, nine zeros, entry 2: calls for an entry",
        rust: String::from("1, none, 2: after the end it stands at 24, behind the nine bytes it tried, and reads on"),
        ours: String::from("1, ended, place 15, for ever"),
    })
}

fn cut_crc_place(bench: &Bench) -> Verdict<Shown> {
    let whole = Image::header(&[]).entry(1).chunk(b"ab").0;
    let behind = whole.len() as u64;
    let mut places = Vec::new();
    for lacking in 1..=4 {
        let image = &whole[..whole.len() - lacking];
        let mut theirs = their_reader(bench, image)?;
        let mut entry = theirs.read_entry()?.ok_or_else(|| Difference(String::from("no entry")))?;
        holds("the Rust fails", entry.read_all_chunks().is_err())?;
        places.push(place(&mut theirs)?);

        let mut ours = our_reader(image)?;
        ours.call(&Entry);
        same("ours, whole", ours.call(&Whole).0, 9)?;
        same("our place", ours.place(), behind)?;
        let mut ours = our_reader(image)?;
        ours.call(&Entry);
        ours.call(&Chunk);
        ours.call(&Data(2));
        same("ours, in the chunk", ours.call(&CheckCrc).0, 9)?;
        same("our place in the chunk", ours.place(), behind - 4)?;
    }
    same("the Rust's places", &places, &vec![behind + 3, behind + 2, behind + 1, behind])?;
    Ok(Shown {
        input: "entry 1, chunk \"ab\" at 14, its CRC cut to 3, 2, 1 and 0 bytes: a call for the whole entry",
        rust: format!("fails; its place is {places:?}, too far by the CRC bytes present"),
        ours: format!("9; the place is {behind} each time"),
    })
}
