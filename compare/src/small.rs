//! The calls without a state: `LogPosition` both ways, and the sum continued from any finished sum.

use okaywal::{entry::inside, LogPosition};

use crate::{
    cover::Cover,
    difference::{same, same_bytes, Verdict},
    library,
    rng::Rng,
};

const ROWS: &[&str] = &[
    "position written",
    "position refused, the Rust has stored what fits, just as predicted",
    "position read",
    "position cut",
    "sum from a finished sum",
    "sum of no bytes",
    "example of RFC 3720",
];

pub fn cover() -> Cover {
    Cover::new("Positions and sums", ROWS.iter().map(ToString::to_string))
}

pub fn run(seed: u64, rounds: u64, cover: &mut Cover) -> Verdict {
    let mut rng = Rng::new(seed);
    examples(cover)?;
    for _ in 0..rounds {
        for size in 0..=20 {
            position(&mut rng, size, cover)?;
        }
        sum(&mut rng, cover)?;
    }
    Ok(())
}

fn position(rng: &mut Rng, size: usize, cover: &mut Cover) -> Verdict {
    let (file_id, offset) = (number(rng), number(rng));
    let before = rng.bytes(size);
    let (mut ours, mut theirs) = (before.clone(), before.clone());
    let refused = library::position_write(file_id, offset, &mut ours);
    let written = inside::position(file_id, offset).serialize_to(theirs.as_mut_slice());
    same("writing a position", refused, if written.is_ok() { 0 } else { 5 })?;
    if written.is_ok() {
        same_bytes("a position's bytes", &ours, &theirs)?;
        cover.count("position written");
    } else {
        same_bytes("a refused position stores nothing", &ours, &before)?;
        let all = [file_id.to_le_bytes(), offset.to_le_bytes()].concat();
        same_bytes("the Rust stores what fits", &all[..size], &theirs)?;
        cover.count("position refused, the Rust has stored what fits, just as predicted");
    }
    read_position(&before, cover)
}

fn read_position(bytes: &[u8], cover: &mut Cover) -> Verdict {
    let mut answer = [9; 4];
    let refused = library::position_read(bytes, &mut answer);
    match LogPosition::deserialize_from(bytes) {
        Ok(position) => {
            let (file_id, offset) = inside::position_parts(position);
            same("reading a position", (refused, answer), (0, [file_id, offset, 0, 0]))?;
            cover.count("position read");
        }
        Err(_) => {
            same("a cut position", (refused, answer), (1, [0; 4]))?;
            cover.count("position cut");
        }
    }
    Ok(())
}

fn sum(rng: &mut Rng, cover: &mut Cover) -> Verdict {
    let size = rng.pick(&[0, 1, 2, 3, 4, 7, 8, 9, 15, 16, 17, 31, 63, 64, 65, 255, 1000]);
    let (start, bytes) = (rng.next() as u32, rng.bytes(size));
    same("the sum", library::crc32c_append(start, &bytes), crc32c::crc32c_append(start, &bytes))?;
    let cut = rng.below(size as u64 + 1) as usize;
    let first = library::crc32c_append(start, &bytes[..cut]);
    same("the sum in two parts", library::crc32c_append(first, &bytes[cut..]), crc32c::crc32c_append(start, &bytes))?;
    cover.count(if size == 0 { "sum of no bytes" } else { "sum from a finished sum" });
    Ok(())
}

/// RFC 3720, B.4.
fn examples(cover: &mut Cover) -> Verdict {
    let rising: Vec<u8> = (0..32).collect();
    let falling: Vec<u8> = (0..32).rev().collect();
    let mut command = vec![0; 48];
    for (at, byte) in [(0, 0x01), (1, 0xC0), (16, 0x14), (22, 0x04), (27, 0x14), (31, 0x18), (32, 0x28), (40, 0x02)] {
        command[at] = byte;
    }
    let listed: [(&[u8], u32); 6] = [
        (&[0; 32], 0x8A91_36AA),
        (&[0xFF; 32], 0x62A8_AB43),
        (&rising, 0x46DD_794E),
        (&falling, 0x113F_DB5C),
        (&command, 0xD996_3A56),
        (b"123456789", 0xE306_9283),
    ];
    for (bytes, expected) in listed {
        same("an example's sum", library::crc32c_append(0, bytes), expected)?;
        same("an example's sum, the stand-in", crc32c::crc32c(bytes), expected)?;
        cover.count("example of RFC 3720");
    }
    Ok(())
}

fn number(rng: &mut Rng) -> u64 {
    if rng.chance(1, 4) {
        return rng.pick(&[0, 1, 255, 256, u64::MAX]);
    }
    rng.next()
}
