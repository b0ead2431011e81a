//! A fixed list of calls with the Rust's own answers, as text, for a program that replays it without the Rust.
//!
//! One line for each call: the call, ` = `, the answer. Words are separated by one space, numbers are decimal, bytes
//! are pairs of hex digits, `-` stands for no bytes. The library has no part in it: calls are chosen from what the Rust
//! shows, and a trace ends before the first call at which a known fault of the Rust would show.
//!
//! | call | words |
//! |---|---|
//! | `open` | id, last id known, last id, L, F, preallocation, image size, staging size, version info, file bytes |
//! | `begin` `recycle` | id |
//! | `chunk` | length |
//! | `write` | bytes |
//! | `finish` `commit` `rollback` `flush` | |
//! | `sync` `start` `end` `current` | target; landing place; signed offsets |
//! | `reader` | file id, image |
//! | `entry` `next` `check` `skip` `whole` | (`next` is a call for a chunk) |
//! | `data` | bytes asked |
//! | `first` | file id, image: opening, the first entry, and that entry whole |
//! | `bytes` | file id, image, bytes asked: those of the first entry's first chunk, and its CRC's check |
//! | `put` / `get` | file id and offset / bytes of a position |
//! | `sum` | finished sum, bytes |
//!
//! A writer's answer: number, the four answer words, then file position, staged bytes, file length, synchronized
//! number, last id known, last id, and the sum of the logical segment. A reader's: number, four words, place,
//! `valid_until`, bytes owed (0 outside a chunk), and for `data` its bytes. A refused opening answers its number alone.
//! `first` answers the opening's number, and as far as the Rust came, number and words of the entry and of the whole
//! entry, then place and `valid_until`. `bytes` answers the bytes, and the check's number and word.
//! `put` answers number and bytes, `get` number, file id and offset, `sum` the sum.

mod first_side;
mod reader_side;
pub mod replay;
mod text;
mod writer_side;

use std::{fs, path::Path};

use okaywal::{entry::inside, LogPosition};

use self::text::{hex, joined};
use crate::{difference::Verdict, rng::Rng, rust_writer::Bench};

const SEED: u64 = 3720;
const WRITER_TRACES: u64 = 200;
const READER_TRACES: u64 = 300;
const FIRST_IMAGES: u64 = 300;
const SMALL_CALLS: u64 = 60;

pub fn run(bench: &Bench, path: &Path) -> Verdict {
    let mut lines = Vec::new();
    for number in 0..WRITER_TRACES {
        writer_side::record(bench, &mut Rng::for_trace(SEED, number), &mut lines)?;
    }
    for number in 0..READER_TRACES {
        reader_side::record(bench, &mut Rng::for_trace(!SEED, number), &mut lines)?;
    }
    for number in 0..FIRST_IMAGES {
        first_side::record(bench, &mut Rng::for_trace(SEED + 1, number), &mut lines)?;
    }
    small(&mut Rng::new(SEED), &mut lines)?;
    fs::write(path, lines.join("\n") + "\n")?;
    println!("recorded {} calls in {}", lines.len(), path.display());
    Ok(())
}

/// Positions and sums.
fn small(rng: &mut Rng, lines: &mut Vec<String>) -> Verdict {
    for _ in 0..SMALL_CALLS {
        let (file_id, offset) = (rng.next() >> rng.below(64), rng.next() >> rng.below(64));
        let mut bytes = Vec::new();
        inside::position(file_id, offset).serialize_to(&mut bytes)?;
        lines.push(format!("put {file_id} {offset} = 0 {}", hex(&bytes)));
        let size = rng.between(12, 20) as usize;
        let bytes = rng.bytes(size);
        let answer = match LogPosition::deserialize_from(bytes.as_slice()).map(inside::position_parts) {
            Ok((file_id, offset)) => joined(&[0, file_id, offset]),
            Err(_) => String::from("1 0 0"),
        };
        lines.push(format!("get {} = {answer}", hex(&bytes)));
        let (crc, size) = (rng.next() as u32, rng.below(70) as usize);
        let bytes = rng.bytes(size);
        lines.push(format!("sum {crc} {} = {}", hex(&bytes), crc32c::crc32c_append(crc, &bytes)));
    }
    Ok(())
}
