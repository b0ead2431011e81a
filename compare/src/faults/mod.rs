//! Every known difference from the Rust as a named run: the input, what the Rust does, what ours does. Each run checks
//! both, so that the texts cannot go stale.

mod added;
mod hands;
mod listed_reader;
mod listed_writer;
mod unlisted;

pub use self::unlisted::{skip_and_die, FATAL};
use crate::{
    difference::{Difference, Verdict},
    panics::caught,
    rust_writer::Bench,
};

/// Where a difference is written down.
#[derive(Clone, Copy, PartialEq, Eq)]
pub enum Source {
    /// Document 01, "Where the Rust goes wrong".
    Listed,
    /// Found by reading and by running.
    Unlisted,
    /// A refusal that this port adds.
    Added,
}

/// What a run has shown.
pub struct Shown {
    pub input: &'static str,
    pub rust: String,
    pub ours: String,
}

pub struct Fault {
    pub name: &'static str,
    pub source: Source,
    pub run: fn(&Bench) -> Verdict<Shown>,
}

const LISTED: usize = 15;

pub fn run(bench: &Bench) -> Verdict {
    let groups = [listed_writer::FAULTS, listed_reader::FAULTS, unlisted::FAULTS, added::FAULTS];
    let all: Vec<&Fault> = groups.into_iter().flatten().collect();
    for fault in &all {
        let shown = caught(|| (fault.run)(bench))
            .unwrap_or_else(|text| Err(Difference(format!("a panic that nothing predicted: {text}"))))
            .map_err(|err| err.within(fault.name))?;
        println!("{} ({})", fault.name, described(fault.source));
        println!("  input     {}", shown.input);
        println!("  the Rust  {}", shown.rust);
        println!("  ours      {}", shown.ours);
    }
    let listed = all.iter().filter(|fault| fault.source == Source::Listed).count();
    if listed != LISTED {
        return Err(Difference(format!("{listed} named runs for the {LISTED} faults that document 01 lists")));
    }
    println!("faults: {listed} that document 01 lists, {} more, all as told", all.len() - listed);
    Ok(())
}

fn described(source: Source) -> &'static str {
    match source {
        Source::Listed => "listed by document 01",
        Source::Unlisted => "not listed there",
        Source::Added => "a refusal that this port adds",
    }
}
