//! Words of the recorded lines.

use std::str::{FromStr, SplitAsciiWhitespace};

use crate::difference::{Difference, Verdict};

/// Pairs of hex digits; `-` for no bytes.
pub fn hex(bytes: &[u8]) -> String {
    if bytes.is_empty() {
        return String::from("-");
    }
    bytes.iter().map(|byte| format!("{byte:02x}")).collect()
}

/// The bytes that `hex` wrote.
pub fn unhex(text: &str) -> Verdict<Vec<u8>> {
    if text == "-" {
        return Ok(Vec::new());
    }
    let pairs =
        (0..text.len()).step_by(2).map(|at| text.get(at..at + 2).and_then(|pair| u8::from_str_radix(pair, 16).ok()));
    pairs.collect::<Option<_>>().ok_or_else(|| Difference(format!("`{text}` is not pairs of hex digits")))
}

/// Numbers with one space between them.
pub fn joined(numbers: &[u64]) -> String {
    let words: Vec<String> = numbers.iter().map(ToString::to_string).collect();
    words.join(" ")
}

/// The words of a line, taken one by one.
pub struct Words<'a>(SplitAsciiWhitespace<'a>);

impl<'a> Words<'a> {
    pub fn new(line: &'a str) -> Self {
        Self(line.split_ascii_whitespace())
    }

    pub fn next(&mut self) -> Verdict<&'a str> {
        self.0.next().ok_or_else(|| Difference(String::from("a word is missing")))
    }

    pub fn number<T: FromStr>(&mut self) -> Verdict<T> {
        let word = self.next()?;
        word.parse().map_err(|_| Difference(format!("`{word}` is not a number here")))
    }
}
