//! What a run has covered: a table of named rows. A row that stays at zero fails the run.

use std::{collections::HashMap, fmt};

use crate::difference::{Difference, Verdict};

pub struct Cover {
    title: &'static str,
    rows: Vec<(String, u64)>,
    index: HashMap<String, usize>,
}

impl Cover {
    pub fn new(title: &'static str, rows: impl IntoIterator<Item = String>) -> Self {
        let rows: Vec<_> = rows.into_iter().map(|name| (name, 0)).collect();
        let index = rows.iter().enumerate().map(|(at, (name, _))| (name.clone(), at)).collect();
        Self { title, rows, index }
    }

    /// Counts one for the row. A row that the table lacks is a mistake of the harness.
    pub fn count(&mut self, row: &str) {
        self.add(row, 1);
    }

    pub fn add(&mut self, row: &str, times: u64) {
        let at = *self.index.get(row).unwrap_or_else(|| panic!("the table has no row `{row}`"));
        self.rows[at].1 += times;
    }

    pub fn count_if(&mut self, row: &str, is_so: bool) {
        self.add(row, u64::from(is_so));
    }

    /// Counts a call by its number: 0 is accepted.
    pub fn count_call(&mut self, name: &str, number: u64) {
        self.count(&call_row(name, number));
    }

    pub fn check(&self) -> Verdict {
        let empty: Vec<_> = self.rows.iter().filter(|(_, times)| *times == 0).map(|(name, _)| name.as_str()).collect();
        if empty.is_empty() {
            return Ok(());
        }
        Err(Difference(format!("{}: not covered: {}", self.title, empty.join(", "))))
    }
}

/// The row of a call that was accepted, or refused with a number.
pub fn call_row(name: &str, number: u64) -> String {
    match number {
        0 => format!("{name}, accepted"),
        _ => format!("{name}, refused {number}"),
    }
}

/// A row for each call and each of its numbers.
pub fn call_rows<'a>(calls: &'a [(&str, &[u64])]) -> impl Iterator<Item = String> + 'a {
    calls.iter().flat_map(|(name, numbers)| numbers.iter().map(|&number| call_row(name, number)))
}

impl fmt::Display for Cover {
    fn fmt(&self, f: &mut fmt::Formatter<'_>) -> fmt::Result {
        writeln!(f, "{}", self.title)?;
        for (name, times) in &self.rows {
            writeln!(f, "  {times:>12}  {name}")?;
        }
        Ok(())
    }
}
