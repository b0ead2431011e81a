//! The Rust writer's private numbers, read from its derived Debug text.

use crate::difference::{Difference, Verdict};

/// What `LogFileWriter`'s Debug text shows.
#[derive(Debug, Clone, PartialEq, Eq)]
pub struct Shown {
    pub id: u64,
    pub buffer: Vec<u8>,
    pub position: u64,
    pub buffer_write_position: u64,
    pub length: u64,
    pub last_entry_id: Option<u64>,
    pub version_info: Vec<u8>,
    pub synchronized_through: u64,
}

impl Shown {
    pub fn read(text: &str) -> Verdict<Self> {
        let mut rest = text;
        Ok(Self {
            id: number(field(&mut rest, "LogFileWriter { id: ")?)?,
            buffer: bytes(field(&mut rest, "file: Buffered { buffer: [")?)?,
            position: number(field(&mut rest, "], position: ")?)?,
            buffer_write_position: number(field(&mut rest, ", buffer_write_position: ")?)?,
            length: number(field(&mut rest, ", length: ")?)?,
            last_entry_id: optional_id(field(&mut rest, "last_entry_id: ")?)?,
            version_info: bytes(field(&mut rest, ", version_info: [")?)?,
            synchronized_through: number(field(&mut rest, "], synchronized_through: ")?)?,
        })
    }
}

/// The text behind the next `name`.
fn field<'a>(rest: &mut &'a str, name: &str) -> Verdict<&'a str> {
    let at = rest.find(name).ok_or_else(|| unreadable(rest))?;
    *rest = &rest[at + name.len()..];
    Ok(rest)
}

fn number(text: &str) -> Verdict<u64> {
    let end = text.find(|c: char| !c.is_ascii_digit()).unwrap_or(text.len());
    text[..end].parse().map_err(|_| unreadable(text))
}

fn optional_id(text: &str) -> Verdict<Option<u64>> {
    match text.strip_prefix("Some(EntryId(") {
        Some(id) => number(id).map(Some),
        None if text.starts_with("None") => Ok(None),
        None => Err(unreadable(text)),
    }
}

/// The numbers up to the next bracket.
fn bytes(text: &str) -> Verdict<Vec<u8>> {
    let end = text.find(']').ok_or_else(|| unreadable(text))?;
    let inner = &text[..end];
    if inner.is_empty() {
        return Ok(Vec::new());
    }
    inner.split(", ").map(|byte| byte.parse().map_err(|_| unreadable(text))).collect()
}

fn unreadable(text: &str) -> Difference {
    let start: String = text.chars().take(80).collect();
    Difference(format!("the Rust's Debug text has another shape at: {start}"))
}
