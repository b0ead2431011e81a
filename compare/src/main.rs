//! okaywal's unchanged segment code beside the proved library, call by call.

mod bench;
mod calls;
mod check_model;
mod cover;
mod cuts;
mod difference;
mod faults;
mod library;
mod panics;
mod reader;
mod record;
mod rng;
mod runs;
mod rust_reader;
mod rust_writer;
mod scratch;
mod sides;
mod small;
mod writer;

use std::{env, path::Path, process::ExitCode};

use self::{
    difference::{Difference, Verdict},
    runs::Run,
    rust_writer::Bench,
    scratch::Scratch,
};

const USAGE: &str = "compare short               the gate's run
compare long TRACES SEED    random traces, with progress lines
compare again writer|reader NUMBER SEED
                            one random trace of such a run
compare faults              every known difference as a named run
compare check-model [CALLS SEED]
                            the library against the model: any words, any slices, any order
compare cuts [STORIES SEED] one story written and read twice, cut and staged in other ways
compare record FILE         a fixed list of calls with the Rust's answers
compare replay FILE         such a list, replayed on the library
compare bench               the benchmark's tables";

const CHECK_MODEL_CALLS: u64 = 5_000_000;
const CHECK_MODEL_SEED: u64 = 7;
const STORIES: u64 = 100_000;
const STORIES_SEED: u64 = 11;

fn main() -> ExitCode {
    panics::hush();
    let words: Vec<String> = env::args().skip(1).collect();
    let words: Vec<&str> = words.iter().map(String::as_str).collect();
    let verdict = match words.as_slice() {
        [] | ["help"] => {
            println!("{USAGE}");
            return ExitCode::SUCCESS;
        }
        [faults::FATAL, folder] => faults::skip_and_die(folder),
        words => run(words),
    };
    match verdict {
        Ok(()) => ExitCode::SUCCESS,
        Err(err) => {
            println!("FAILED: {err}");
            ExitCode::FAILURE
        }
    }
}

fn run(words: &[&str]) -> Verdict {
    let scratch = Scratch::new()?;
    let bench = Bench::new(scratch.folder())?;
    match words {
        ["short"] => checked(|| Run::new(bench).short()),
        ["long", traces, seed] => checked(|| Run::new(bench).long(number(traces)?, number(seed)?)),
        ["again", side, trace, seed] => checked(|| Run::new(bench).again(side, number(trace)?, number(seed)?)),
        ["check-model"] => check_model::run(CHECK_MODEL_CALLS, CHECK_MODEL_SEED),
        ["check-model", calls, seed] => check_model::run(number(calls)?, number(seed)?),
        ["cuts"] => cuts::run(STORIES, STORIES_SEED),
        ["cuts", stories, seed] => cuts::run(number(stories)?, number(seed)?),
        ["record", file] => checked(|| record::run(&bench, Path::new(file))),
        ["replay", file] => record::replay::run(Path::new(file)),
        ["bench"] => bench::run(&bench),
        ["faults"] => faults::run(&bench),
        _ => Err(Difference(format!("no such command\n{USAGE}"))),
    }
}

/// Traces want a build whose sums are checked: where the Rust's do not fit, it must panic.
fn checked(run: impl FnOnce() -> Verdict) -> Verdict {
    if !panics::sums_are_checked() {
        return Err(Difference(String::from("this build's sums wrap: use `cargo run --profile checked`")));
    }
    run()
}

fn number(text: &str) -> Verdict<u64> {
    text.parse().map_err(|_| Difference(format!("`{text}` is not a number")))
}
