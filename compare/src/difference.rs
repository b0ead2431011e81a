//! What ends a run: a difference between two sides that nothing predicted.

use std::{fmt, io};

#[derive(Debug)]
pub struct Difference(pub String);

pub type Verdict<T = ()> = Result<T, Difference>;

impl fmt::Display for Difference {
    fn fmt(&self, f: &mut fmt::Formatter<'_>) -> fmt::Result {
        f.write_str(&self.0)
    }
}

impl From<io::Error> for Difference {
    fn from(err: io::Error) -> Self {
        Self(format!("a file or the Rust failed: {err}"))
    }
}

impl Difference {
    /// Says in which trace or case the difference was met.
    #[must_use]
    pub fn within(self, place: impl fmt::Display) -> Self {
        Self(format!("{place}\n  {self}"))
    }
}

/// Both must be the same.
pub fn same<T: PartialEq + fmt::Debug>(what: &str, ours: T, theirs: T) -> Verdict {
    if ours == theirs {
        return Ok(());
    }
    Err(Difference(format!("{what}: {ours:?} here, {theirs:?} there")))
}

/// Both must hold the same bytes; the first that differs is named.
pub fn same_bytes(what: &str, ours: &[u8], theirs: &[u8]) -> Verdict {
    if ours == theirs {
        return Ok(());
    }
    let at = ours.iter().zip(theirs).position(|(a, b)| a != b).unwrap_or(ours.len().min(theirs.len()));
    Err(Difference(format!(
        "{what}: {} bytes here, {} there; they differ from byte {at} on: {:02X?} here, {:02X?} there",
        ours.len(),
        theirs.len(),
        window(ours, at),
        window(theirs, at)
    )))
}

pub fn holds(what: &str, is_so: bool) -> Verdict {
    if is_so {
        return Ok(());
    }
    Err(Difference(format!("{what}: not so")))
}

fn window(bytes: &[u8], at: usize) -> &[u8] {
    let start = at.min(bytes.len());
    &bytes[start..(start + 16).min(bytes.len())]
}
