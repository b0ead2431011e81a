//! What the Rust's reader does to an image's bytes, its known faults included: the predictions that it is held to.

/// From here on `bytes_remaining + 4` does not fit 32 bits.
pub const OVERFLOW: u64 = (1 << 32) - 4;

/// What a call for an entry comes to.
#[derive(Debug, Clone, Copy, PartialEq, Eq)]
pub enum Entry {
    Found {
        id: u64,
        valid_until: u64,
        place: u64,
    },
    Ended {
        valid_until: u64,
        place: u64,
    },
    /// A chunk header is cut; the place is the image's end.
    Cut,
    /// A skipped chunk's sum does not fit: the Rust panics twice, which ends the process.
    Fatal,
}

/// `read_entry` with an entry current: every chunk is skipped with 4 bytes too many.
pub fn entry_after_double_skips(image: &[u8], place: u64, file_id: u64) -> Entry {
    let mut at = place;
    loop {
        match byte(image, at) {
            Some(2) if at + 5 > image.len() as u64 => return Entry::Cut,
            Some(2) if length(image, at) >= OVERFLOW => return Entry::Fatal,
            Some(2) => at += 5 + length(image, at) + 4 + 4,
            Some(3) => return next_entry(image, at + 1, file_id),
            _ => return next_entry(image, at, file_id),
        }
    }
}

/// `read_next_entry`: the nine bytes are passed even where they are no entry.
pub fn next_entry(image: &[u8], place: u64, file_id: u64) -> Entry {
    let end = image.len() as u64;
    if place + 9 > end {
        return Entry::Ended { valid_until: place, place: place.max(end) };
    }
    let bytes = &image[place as usize..place as usize + 9];
    let id = u64::from_le_bytes(bytes[1..].try_into().expect("nine bytes"));
    let place = place + 9;
    let valid_until = place - 9;
    if bytes[0] != 1 || id < file_id {
        return Entry::Ended { valid_until, place };
    }
    Entry::Found { id, valid_until, place }
}

/// Where a call for a whole entry ends.
#[derive(Debug, Clone, Copy, PartialEq, Eq)]
pub enum Whole {
    Complete,
    Aborted,
    CutHeader,
    /// Bytes of the chunk at `offset` are lacking; `owed` of its data.
    CutData {
        offset: u64,
        length: u64,
        owed: u64,
    },
    /// `present` bytes of the sum are there.
    CutSum {
        offset: u64,
        length: u64,
        present: u64,
    },
    WrongSum {
        offset: u64,
        length: u64,
    },
}

/// The chunks that stand at a place, each tested before the next.
pub fn whole_entry(image: &[u8], place: u64) -> Whole {
    let end = image.len() as u64;
    let mut at = place;
    loop {
        match byte(image, at) {
            Some(2) if at + 5 > end => return Whole::CutHeader,
            Some(2) => {}
            Some(3) => return Whole::Complete,
            _ => return Whole::Aborted,
        }
        let (offset, length) = (at, length(image, at));
        let data_end = offset + 5 + length;
        if data_end > end {
            return Whole::CutData { offset, length, owed: data_end - end };
        }
        if data_end + 4 > end {
            return Whole::CutSum { offset, length, present: end - data_end };
        }
        let sum = crc32c::crc32c(&image[offset as usize + 5..data_end as usize]);
        if image[data_end as usize..data_end as usize + 4] != sum.to_le_bytes() {
            return Whole::WrongSum { offset, length };
        }
        at = data_end + 4;
    }
}

pub fn byte(image: &[u8], place: u64) -> Option<u8> {
    usize::try_from(place).ok().and_then(|place| image.get(place)).copied()
}

/// The length in the chunk header at an offset.
pub fn length(image: &[u8], offset: u64) -> u64 {
    let at = offset as usize + 1;
    u64::from(u32::from_le_bytes(image[at..at + 4].try_into().expect("four bytes")))
}
