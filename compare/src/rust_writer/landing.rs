//! Where the Rust's `seek` lands, tried on a `Buffered` of its own over a file that is only numbers: a seek moves.

use std::io::{self, Seek, SeekFrom, Write};

use okaywal::buffered::{Bufferable, Buffered};

/// A file of a given length that forgets what is written.
struct Numbers {
    length: u64,
    position: u64,
}

impl Write for Numbers {
    fn write(&mut self, buf: &[u8]) -> io::Result<usize> {
        self.position += buf.len() as u64;
        Ok(buf.len())
    }

    fn flush(&mut self) -> io::Result<()> {
        Ok(())
    }
}

impl Seek for Numbers {
    fn seek(&mut self, to: SeekFrom) -> io::Result<u64> {
        match to {
            SeekFrom::Start(place) => self.position = place,
            SeekFrom::Current(0) => {}
            _ => return Err(io::ErrorKind::Unsupported.into()),
        }
        Ok(self.position)
    }
}

impl Bufferable for Numbers {
    fn len(&self) -> io::Result<u64> {
        Ok(self.length)
    }

    fn set_len(&self, _length: u64) -> io::Result<()> {
        Err(io::ErrorKind::Unsupported.into())
    }
}

/// The place that a seek of the Rust reports, from a file length, a file position and staged bytes.
pub fn landed(length: u64, position: u64, staged: &[u8], to: SeekFrom) -> io::Result<u64> {
    let mut file = Buffered::with_capacity(Numbers { length, position }, staged.len() + 1)?;
    file.write_all(staged)?;
    file.seek(to)
}
