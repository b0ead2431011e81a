//! Demand 3 as a run: one story written twice, with other stagings, cuts, flushes, syncs and old bytes, and each chunk of the segment read twice with
//! other cuts. Nothing of that may show in the answers, the segment's bytes, the verdicts or the places.

use crate::{
    calls::Opening,
    cover::Cover,
    difference::{same, same_bytes, Difference, Verdict},
    library::{self, Desk},
    rng::Rng,
};

const ROWS: &[&str] = &[
    "stories written twice",
    "calls accepted in both",
    "calls refused in both",
    "pieces cut in other ways",
    "flushes and syncs in one run only",
    "chunks read out twice",
    "chunks with a wrong CRC, or cut",
];

enum Call {
    Begin(u64),
    BeginChunk(u32),
    Data(Vec<u8>),
    Finish,
    Commit,
    Rollback,
    Recycle(u64),
}

/// One of the two writers, with its own buffers and its own dice.
struct Side {
    state: [u64; 16],
    info: [u8; 255],
    image: Vec<u8>,
    staging: Vec<u8>,
    rng: Rng,
    pieces: u64,
    extra: u64,
}

impl Side {
    fn new(size: usize, seed: u64) -> Self {
        let mut rng = Rng::new(seed);
        let staging = rng.below(40) as usize;
        let (image, staging) = (rng.bytes(size), rng.bytes(staging));
        Self { state: [0; 16], info: [0; 255], image, staging, rng, pieces: 0, extra: 0 }
    }

    fn desk(&mut self) -> Desk<'_> {
        Desk { state: &mut self.state, info: &mut self.info, image: &mut self.image, staging: &mut self.staging }
    }

    fn open(&mut self, terms: &Opening) -> u64 {
        let file_length = self.rng.below(self.image.len() as u64 + 1);
        let opening = Opening { version_info: terms.version_info.clone(), file_length, ..*terms };
        library::writer_open(&mut self.desk(), &opening)
    }

    /// Flushes and syncs that the other side does not make.
    fn between(&mut self) {
        let target = self.rng.below(200);
        match self.rng.below(6) {
            0 => drop(library::writer_flush(&mut self.desk())),
            1 => drop(library::writer_sync(&mut self.desk(), target)),
            _ => return,
        }
        self.extra += 1;
    }

    /// The bytes in pieces: the bytes taken, or the number of the refusal.
    fn data(&mut self, bytes: &[u8]) -> (u64, [u64; 4]) {
        let (mut left, mut taken) = (bytes, 0);
        loop {
            let count = (self.rng.below(left.len() as u64 + 1)) as usize;
            let count = if self.rng.chance(1, 3) { left.len() } else { count };
            let mut answer = [0; 4];
            let refused = library::writer_write(&mut self.desk(), &left[..count], &mut answer);
            self.pieces += 1;
            if refused != 0 {
                return (refused, answer);
            }
            taken += answer[0];
            left = &left[count..];
            if left.is_empty() {
                return (0, [taken, 0, 0, 0]);
            }
            self.between();
        }
    }

    fn call(&mut self, call: &Call) -> (u64, [u64; 4]) {
        let mut answer = [0; 4];
        let number = match call {
            Call::Begin(id) => library::writer_begin(&mut self.desk(), *id),
            Call::BeginChunk(n) => library::writer_begin_chunk(&mut self.desk(), *n),
            Call::Data(bytes) => return self.data(bytes),
            Call::Finish => library::writer_finish(&mut self.desk(), &mut answer),
            Call::Commit => library::writer_commit(&mut self.desk(), &mut answer),
            Call::Rollback => library::writer_rollback(&mut self.desk()),
            Call::Recycle(id) => library::writer_recycle(&mut self.desk(), *id),
        };
        (number, answer)
    }

    /// The logical segment: the image below the file position, then the bytes staged.
    fn segment(&self) -> Vec<u8> {
        let (position, staged) = (self.state[5] as usize, self.state[6] as usize);
        [&self.image[..position], &self.staging[..staged]].concat()
    }
}

fn any_call(rng: &mut Rng) -> Call {
    match rng.below(13) {
        0..=2 => Call::Begin(rng.between(4, 9)),
        3..=4 => Call::BeginChunk(rng.below(20) as u32),
        5..=7 => {
            let count = rng.below(24) as usize;
            Call::Data(rng.bytes(count))
        }
        8..=9 => Call::Finish,
        10 => Call::Commit,
        11 => Call::Rollback,
        _ => Call::Recycle(rng.between(4, 6)),
    }
}

/// An entry as it should be, most of the time; else any call.
fn story(rng: &mut Rng) -> Vec<Call> {
    let mut calls = Vec::new();
    for _ in 0..rng.between(1, 5) {
        calls.push(Call::Begin(rng.between(5, 9)));
        for _ in 0..rng.below(3) {
            let bytes = rng.below(24) as usize;
            calls.extend([Call::BeginChunk(bytes as u32), Call::Data(rng.bytes(bytes)), Call::Finish]);
        }
        calls.push(if rng.chance(1, 5) { Call::Rollback } else { Call::Commit });
        if rng.chance(1, 2) {
            calls.push(any_call(rng));
        }
    }
    calls
}

fn written(rng: &mut Rng, cover: &mut Cover) -> Verdict<Vec<u8>> {
    let size = rng.between(20, 400) as usize;
    let info = rng.below(4) as usize;
    let terms = Opening {
        version_info: rng.bytes(info),
        id: 5,
        last_known: 0,
        last_id: 0,
        validated_length: 0,
        file_length: 0,
        preallocate: rng.between(1, 64),
    };
    let (mut one, mut other) = (Side::new(size, rng.next()), Side::new(size, rng.next()));
    same("opening", one.open(&terms), other.open(&terms))?;
    for call in story(rng) {
        one.between();
        other.between();
        let (answered, also) = (one.call(&call), other.call(&call));
        same("a call's number and answer", answered, also)?;
        same_bytes("the logical segments", &one.segment(), &other.segment())?;
        // segment id, last id, moment and its numbers
        for word in [0, 1, 8, 9, 10, 11, 12, 13, 14, 15] {
            same("a word of the states", one.state[word], other.state[word])?;
        }
        cover.count(if answered.0 == 0 { "calls accepted in both" } else { "calls refused in both" });
    }
    cover.count("stories written twice");
    cover.count_if("pieces cut in other ways", one.pieces != other.pieces);
    cover.count_if("flushes and syncs in one run only", one.extra != other.extra);
    Ok(one.segment())
}

/// A chunk read to its end in pieces: its bytes, the CRC check's number and answer, the place after leaving it, and `valid_until`.
fn read_out(before: &[u64; 10], image: &[u8], rng: &mut Rng) -> Verdict<(Vec<u8>, (u64, u64), u64, u64)> {
    let (mut state, mut bytes) = (*before, Vec::new());
    loop {
        let mut answer = [0; 4];
        let asked = rng.pick(&[0, 1, 2, 3, 7, 1 << 40]);
        same("data", library::reader_data(&mut state, image, asked, &mut answer), 0)?;
        let (from, count) = (answer[0] as usize, answer[1] as usize);
        bytes.extend_from_slice(image.get(from..from + count).unwrap_or(&[]));
        if asked > 0 && count == 0 {
            break;
        }
        if rng.chance(1, 4) {
            library::reader_check_crc(&mut state, image, &mut answer);
        }
    }
    let mut answer = [0; 4];
    let checked = library::reader_check_crc(&mut state, image, &mut answer);
    same("leaving", library::reader_skip(&mut state, image), 0)?;
    Ok((bytes, (checked, answer[0]), state[3], state[4]))
}

fn read(image: &[u8], rng: &mut Rng, cover: &mut Cover) -> Verdict {
    let (mut state, mut answer) = ([0; 10], [0; 4]);
    if library::reader_open(&mut state, image, 5) != 0 {
        return Ok(());
    }
    loop {
        let met = library::reader_entry(&mut state, image, &mut answer);
        if met != 0 || answer[0] == 0 {
            return Ok(());
        }
        while library::reader_chunk(&mut state, image, &mut answer) == 0 && answer[0] == 1 {
            let (one, other) = (read_out(&state, image, rng)?, read_out(&state, image, rng)?);
            cover.count("chunks read out twice");
            cover.count_if("chunks with a wrong CRC, or cut", one.1 != (0, 1));
            same("a chunk read out", one, other)?;
        }
    }
}

/// Writes so many stories twice, and reads each segment whole, cut and damaged.
pub fn run(stories: u64, seed: u64) -> Verdict {
    let mut cover = Cover::new("Two cuttings, two stagings", ROWS.iter().map(ToString::to_string));
    for number in 0..stories {
        let mut rng = Rng::for_trace(seed, number);
        let mut one = || -> Verdict {
            let mut segment = written(&mut rng, &mut cover)?;
            read(&segment, &mut rng, &mut cover)?;
            if !segment.is_empty() {
                let at = rng.below(segment.len() as u64) as usize;
                segment[at] ^= 1 << rng.below(8);
                read(&segment, &mut rng, &mut cover)?;
                segment.truncate(rng.below(segment.len() as u64 + 1) as usize);
                read(&segment, &mut rng, &mut cover)?;
            }
            Ok(())
        };
        one().map_err(|err: Difference| err.within(format!("story {number} of seed {seed}")))?;
    }
    println!("{cover}");
    cover.check()?;
    println!("cuts: {stories} stories, seed {seed}: no difference");
    Ok(())
}
