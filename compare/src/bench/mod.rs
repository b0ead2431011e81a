//! The benchmark: the Rust and ours in one process, as a table for the documents. Nothing here is a test.

mod measure;
mod segments;

use std::{fs, hint::black_box};

use self::{
    measure::{pair, single, Pair, REPEATS},
    segments::{ours_appends, ours_reads, ours_skips, rust_appends, rust_reads, rust_skips, Shape, STAGING},
};
use crate::{
    difference::{same, Difference, Verdict},
    library::{self, Desk},
    panics,
    rust_writer::Bench,
    writer::ours::Ours,
};

const LARGEST: usize = 1_048_576;
const SMALL: Shape = Shape { size: LARGEST, chunk: 64, chunks: 8 };
const PAGES: Shape = Shape { size: LARGEST, chunk: 4096, chunks: 4 };

pub fn run(bench: &Bench) -> Verdict {
    if panics::sums_are_checked() {
        return Err(Difference(String::from("this build checks its sums: use `cargo run --release`")));
    }
    println!(
        "Machine: {}. {REPEATS} repeats, both sides in turn; medians, smallest and largest in brackets.",
        machine()
    );
    let parent = bench.folder().parent().unwrap_or(bench.folder());
    println!("The Rust's file is in {}; its sum is the stand-in over Debian's `crc` 1.8.\n", parent.display());
    println!("| what | the Rust | ours | times faster |");
    println!("|---|---|---|---|");
    for (name, shape) in [("64-byte chunks", SMALL), ("4 KiB chunks", PAGES)] {
        reading(bench, name, shape)?;
        skipping(bench, name, shape)?;
        appending(bench, name, shape)?;
    }
    sums();
    println!("\n| one call through the boundary | nanoseconds |\n|---|---|");
    calls()?;
    println!("\n| 64-byte chunks | 64 KiB | 256 KiB | 1 MiB |\n|---|---|---|---|");
    growth(bench)
}

/// The processor's name, where the system tells it.
fn machine() -> String {
    let told = fs::read_to_string("/proc/cpuinfo").unwrap_or_default();
    let line = told.lines().find_map(|line| line.strip_prefix("model name"));
    line.map_or("not named", |line| line.trim_start_matches([' ', '\t', ':'])).to_string()
}

fn reading(bench: &Bench, name: &str, shape: Shape) -> Verdict {
    let image = shape.image();
    let path = bench.folder().join("read");
    fs::write(&path, &image)?;
    let chunks = shape.entries() * shape.chunks;
    same("chunks read", (ours_reads(&image)?, rust_reads(&path)?), (chunks, chunks))?;
    let found = pair(|| rust_reads(&path), || ours_reads(&image));
    row(&format!("reading 1 MiB whole with CRC checks, {name}"), &found, shape.size);
    Ok(())
}

fn skipping(bench: &Bench, name: &str, shape: Shape) -> Verdict {
    let image = shape.image();
    let path = bench.folder().join("read");
    same("entries passed", (ours_skips(&image)?, rust_skips(&path)?), (shape.entries(), shape.entries()))?;
    let found = pair(|| rust_skips(&path), || ours_skips(&image));
    row(&format!("skipping through 1 MiB, {name}"), &found, shape.size);
    Ok(())
}

fn appending(bench: &Bench, name: &str, shape: Shape) -> Verdict {
    row(&format!("appending 1 MiB, {name}, staging 16 KiB"), &appended(bench, shape)?, shape.size);
    Ok(())
}

fn appended(bench: &Bench, shape: Shape) -> Verdict<Pair> {
    let data = vec![7; shape.chunk];
    let (mut image, mut staging) = (vec![0; shape.size], vec![0; STAGING]);
    let ours = ours_appends(shape, &data, &mut image, &mut staging)?;
    same("bytes appended", ours, rust_appends(bench, shape, &data)?)?;
    Ok(pair(|| rust_appends(bench, shape, &data), || ours_appends(shape, &data, &mut image, &mut staging)))
}

fn sums() {
    let bytes: Vec<u8> = (0..LARGEST).map(|at| (at * 7) as u8).collect();
    let found = pair(|| crc32c::crc32c(black_box(&bytes)), || library::crc32c_append(0, black_box(&bytes)));
    row("the sum alone, 1 MiB", &found, LARGEST);
    let found = pair(
        || pieces(&bytes, |sum, piece| crc32c::crc32c_append(sum, piece)),
        || pieces(&bytes, |sum, piece| library::crc32c_append(sum, piece)),
    );
    row("the same in pieces of 64 bytes, each continued", &found, LARGEST);
    let found = pair(
        || pieces(&bytes, |sum, piece| sum ^ crc32c::crc32c(piece)),
        || pieces(&bytes, |sum, piece| sum ^ library::crc32c_append(0, piece)),
    );
    row("the same in pieces of 64 bytes, each begun anew", &found, LARGEST);
}

fn pieces(bytes: &[u8], next: impl Fn(u32, &[u8]) -> u32) -> u32 {
    black_box(bytes).chunks(64).fold(0, |sum, piece| next(sum, piece))
}

fn row(name: &str, found: &Pair, bytes: usize) {
    let (ratio, low, high) = found.ratio();
    println!(
        "| {name} | {} | {} | {ratio:.2} ({low:.2} to {high:.2}) |",
        speed(found.rust.median(), bytes),
        speed(found.ours.median(), bytes)
    );
}

fn speed(nanoseconds: f64, bytes: usize) -> String {
    format!("{:.0} MB/s", bytes as f64 * 1000.0 / nanoseconds)
}

/// Calls that do next to nothing: what remains is the boundary, the words and the checks.
fn calls() -> Verdict {
    let mut ours = Ours::new(vec![0; 64], vec![0; 64]);
    let opening = crate::calls::Opening { id: 1, preallocate: 64, ..Default::default() };
    let mut answer = [0; 4];
    let Desk { state, info, image, staging } = ours.desk();
    let mut desk = Desk { state, info, image, staging };
    same("opening", library::writer_open(&mut desk, &opening), 0)?;
    let found = single(|| library::writer_land_start(&mut desk, 5, &mut answer));
    call_row("a landing place (16 words and their rules)", &found);
    let found = single(|| library::writer_flush(&mut desk));
    call_row("a flush of nothing (words there and back)", &found);
    let image = segments::Shape { size: 200, chunk: 8, chunks: 1 }.image();
    let mut state = [0; 10];
    same("opening", library::reader_open(&mut state, &image, 1), 0)?;
    library::reader_entry(&mut state, &image, &mut answer);
    library::reader_chunk(&mut state, &image, &mut answer);
    let found = single(|| library::reader_data(&mut state, &image, 0, &mut answer));
    call_row("a data read of nothing (10 words there and back)", &found);
    let found = single(|| library::crc32c_append(1, black_box(&[])));
    call_row("the sum of no bytes", &found);
    Ok(())
}

fn call_row(name: &str, found: &measure::Series) {
    let (low, high) = found.spread();
    println!("| {name} | {:.1} ({low:.1} to {high:.1}) |", found.median());
}

/// How the cost of a byte grows with the segment.
fn growth(bench: &Bench) -> Verdict {
    let shapes = [1 << 16, 1 << 18, 1 << 20].map(|size| Shape { size, ..SMALL });
    let mut cells = [Vec::new(), Vec::new(), Vec::new(), Vec::new()];
    for shape in shapes {
        let image = shape.image();
        let path = bench.folder().join("read");
        fs::write(&path, &image)?;
        let read = pair(|| rust_reads(&path), || ours_reads(&image));
        let appended = appended(bench, shape)?;
        for (cell, series) in cells.iter_mut().zip([&read.rust, &read.ours, &appended.rust, &appended.ours]) {
            cell.push(format!("{:.2} ns a byte", series.median() / shape.size as f64));
        }
    }
    for (name, cell) in
        ["reading, the Rust", "reading, ours", "appending, the Rust", "appending, ours"].iter().zip(cells)
    {
        println!("| {name} | {} |", cell.join(" | "));
    }
    Ok(())
}
