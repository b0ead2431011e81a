//! The runs against the Rust: a short one for the gate and a long one with progress lines.

use std::time::{Duration, Instant};

use crate::{
    calls::ReaderCall,
    cover::Cover,
    difference::{Difference, Verdict},
    panics::caught,
    reader,
    rust_writer::Bench,
    small, writer,
};

const SHORT_TRACES: u64 = 40_000;
const SHORT_SEED: u64 = 20_240_601;
const PROGRESS: Duration = Duration::from_secs(10);

/// Counts of one run.
#[derive(Default)]
struct Counts {
    writer_traces: u64,
    reader_traces: u64,
    calls: u64,
}

pub struct Run {
    bench: Bench,
    writer: Cover,
    reader: Cover,
    small: Cover,
    counts: Counts,
}

impl Run {
    pub fn new(bench: Bench) -> Self {
        Self {
            bench,
            writer: writer::cover(),
            reader: reader::cover(),
            small: small::cover(),
            counts: Counts::default(),
        }
    }

    pub fn short(&mut self) -> Verdict {
        println!("seed {SHORT_SEED}");
        self.listed_writers()?;
        self.listed_readers()?;
        self.random(SHORT_SEED, SHORT_TRACES, SHORT_TRACES, |_| {})?;
        self.report()
    }

    /// `traces` random traces in all, half of them writers'.
    pub fn long(&mut self, traces: u64, seed: u64) -> Verdict {
        println!("seed {seed}");
        let start = Instant::now();
        let mut told = start;
        let writers = traces / 2;
        self.random(seed, writers, traces - writers, |done| {
            if told.elapsed() >= PROGRESS {
                told = Instant::now();
                println!("{done} of {traces} traces, {} s", start.elapsed().as_secs());
            }
        })?;
        self.report()
    }

    /// One random trace of a run, named as a difference names it.
    pub fn again(&mut self, side: &str, number: u64, seed: u64) -> Verdict {
        match side {
            "writer" => self.writer_trace(|bench, cover| writer::random(bench, seed, number, cover))?,
            "reader" => self.reader_trace(|bench, cover| reader::random(bench, seed, number, cover))?,
            _ => return Err(Difference(format!("`{side}` is neither writer nor reader"))),
        }
        println!("{} calls, no difference", self.counts.calls);
        Ok(())
    }

    fn random(&mut self, seed: u64, writers: u64, readers: u64, mut progress: impl FnMut(u64)) -> Verdict {
        small::run(seed, 2000, &mut self.small)?;
        for number in 0..writers.max(readers) {
            if number < writers {
                self.writer_trace(|bench, cover| writer::random(bench, seed, number, cover))
                    .map_err(|err| err.within(format!("writer trace {number} of seed {seed}")))?;
            }
            if number < readers {
                self.reader_trace(|bench, cover| reader::random(bench, seed, number, cover))
                    .map_err(|err| err.within(format!("reader trace {number} of seed {seed}")))?;
            }
            progress(self.counts.writer_traces + self.counts.reader_traces);
        }
        Ok(())
    }

    /// All short writer traces, over stagings at and beside the lengths of the writes.
    fn listed_writers(&mut self) -> Verdict {
        let all = writer::short::all(5);
        for staging in [0, 1, 4, 5, 7, 8, 9, 14, 64] {
            let setup = writer::short::setup(staging);
            for calls in &all {
                self.writer_trace(|bench, cover| writer::listed(bench, &setup, calls, cover))?;
            }
        }
        Ok(())
    }

    /// All short reader traces, every cut of some images, and all short rows of marks.
    fn listed_readers(&mut self) -> Verdict {
        let (ways, images) = (reader::short::ways(), reader::short::cut_images());
        for image in &images {
            for end in 0..=image.len() {
                self.read_each(&image[..end], &ways)?;
            }
        }
        let sequences = reader::short::sequences(4);
        for image in images.iter().take(3) {
            self.read_each(image, &sequences)?;
        }
        for length in 0..=6 {
            for image in reader::short::rows_of_marks(length) {
                self.read_each(&image, &ways[..2])?;
            }
        }
        Ok(())
    }

    fn read_each(&mut self, image: &[u8], traces: &[Vec<ReaderCall>]) -> Verdict {
        for calls in traces {
            self.reader_trace(|bench, cover| reader::listed(bench, image, 1, calls, cover))?;
        }
        Ok(())
    }

    fn writer_trace(&mut self, trace: impl FnOnce(&Bench, &mut Cover) -> Verdict<u64>) -> Verdict {
        self.counts.calls += quietly(|| trace(&self.bench, &mut self.writer))?;
        self.counts.writer_traces += 1;
        Ok(())
    }

    fn reader_trace(&mut self, trace: impl FnOnce(&Bench, &mut Cover) -> Verdict<u64>) -> Verdict {
        self.counts.calls += quietly(|| trace(&self.bench, &mut self.reader))?;
        self.counts.reader_traces += 1;
        Ok(())
    }

    fn report(&self) -> Verdict {
        print!("{}{}{}", self.writer, self.reader, self.small);
        for cover in [&self.writer, &self.reader, &self.small] {
            cover.check()?;
        }
        let Counts { writer_traces, reader_traces, calls } = self.counts;
        println!("compare: {writer_traces} writer traces, {reader_traces} reader traces, {calls} calls, no difference");
        Ok(())
    }
}

/// A panic that nothing predicted is a difference too.
fn quietly<T>(trace: impl FnOnce() -> Verdict<T>) -> Verdict<T> {
    caught(trace).unwrap_or_else(|text| Err(Difference(format!("a panic that nothing predicted: {text}"))))
}
