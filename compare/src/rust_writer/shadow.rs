//! What the numbers of the Rust's `Buffered` do, its known faults included: the prediction that every step is held to.
//!
//! Known faults here: a flush counts the whole buffer, with the tail that a rollback left behind the write position; a
//! direct write does not raise `length`; a seek below the buffer writes the dropped bytes out first.

#[derive(Debug, Clone, PartialEq, Eq)]
pub struct Shadow {
    pub capacity: u64,
    pub position: u64,
    pub staged: u64,
    /// The buffer's length: the staged bytes, and the tail behind them.
    pub buffered: u64,
    /// The field `length`.
    pub length: u64,
    /// The file's length without dropped bytes that were written out: document 01's file length.
    pub true_length: u64,
    /// Where the furthest dropped bytes that were written out end; 0 for none.
    pub dropped_end: u64,
    /// How often a full buffer was flushed, and how often bytes went past it.
    pub full_flushes: u64,
    pub direct_stores: u64,
}

impl Shadow {
    pub fn new(capacity: u64, position: u64, file_length: u64) -> Self {
        Self {
            capacity,
            position,
            staged: 0,
            buffered: 0,
            length: file_length,
            true_length: file_length,
            dropped_end: 0,
            full_flushes: 0,
            direct_stores: 0,
        }
    }

    pub fn logical(&self) -> u64 {
        self.position + self.staged
    }

    /// The bytes behind the write position that the next flush would count.
    pub fn tail(&self) -> u64 {
        self.buffered - self.staged
    }

    /// The length that the file on disk has.
    pub fn real_length(&self) -> u64 {
        self.true_length.max(self.dropped_end)
    }

    pub fn flush(&mut self) {
        if self.buffered == 0 {
            return;
        }
        if self.tail() > 0 {
            self.dropped_end = self.dropped_end.max(self.position + self.buffered);
        }
        self.true_length = self.true_length.max(self.logical());
        self.position += self.buffered;
        self.length = self.length.max(self.position);
        self.staged = 0;
        self.buffered = 0;
    }

    /// One `write`: what it takes of `count` bytes.
    pub fn write_once(&mut self, count: u64) -> u64 {
        if self.capacity == self.staged {
            self.full_flushes += u64::from(self.staged > 0);
            self.flush();
        }
        if count > self.capacity {
            self.flush();
            self.position += count;
            self.true_length = self.true_length.max(self.position);
            self.direct_stores += 1;
            return count;
        }
        let taken = count.min(self.capacity - self.staged);
        self.staged += taken;
        self.buffered = self.buffered.max(self.staged);
        taken
    }

    /// One `write_all`.
    pub fn write(&mut self, count: u64) {
        let mut rest = count;
        while rest > 0 {
            rest -= self.write_once(rest);
        }
    }

    /// The writes of a header.
    pub fn write_header(&mut self, info_length: usize) {
        self.write(4);
        self.write(1);
        self.write(info_length as u64);
    }

    /// A seek to a place at or below the logical position.
    pub fn seek(&mut self, place: u64) {
        if self.finds_in_buffer(place) {
            self.staged = place - self.position;
            return;
        }
        if self.buffered > 0 {
            self.dropped_end = self.dropped_end.max(self.position + self.buffered);
            self.length = self.length.max(self.position + self.buffered);
        }
        self.position = place;
        self.staged = 0;
        self.buffered = 0;
    }

    pub fn finds_in_buffer(&self, place: u64) -> bool {
        place >= self.position && place - self.position < self.buffered
    }

    /// Whether these writes would flush a tail, which puts the Rust in the wrong place.
    pub fn would_flush_tail(&self, writes: &[u64]) -> bool {
        let mut ahead = self.clone();
        writes.iter().any(|&count| {
            let tail = ahead.tail();
            let direct = tail > 0 && count > ahead.capacity;
            ahead.write(count);
            direct
        })
    }
}
