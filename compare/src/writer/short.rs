//! Every short trace over a small alphabet: the calls that belong to the moment, to a given depth.

use super::{
    ours::{Ours, IDLE, IN_CHUNK, IN_ENTRY},
    setups::Trace,
    Source,
};
use crate::calls::{Opening, WriterCall};

/// A trace as letters: which of the moment's calls is taken.
type Letters = Vec<WriterCall>;

pub struct Listed<'a>(pub std::slice::Iter<'a, WriterCall>);

impl Source for Listed<'_> {
    fn next(&mut self, _ours: &Ours) -> Option<WriterCall> {
        self.0.next().cloned()
    }
}

/// All traces of `depth` calls.
pub fn all(depth: usize) -> Vec<Letters> {
    let mut found = Vec::new();
    extend(&mut Vec::new(), IDLE, depth, &mut found);
    found
}

/// The fresh writer of these traces: no room for everything, so that some end in a refusal.
pub fn setup(staging: usize) -> Trace {
    let opening = Opening { id: 1, preallocate: 40, ..Opening::default() };
    Trace { opening, image: vec![0xEE; 48], staging: vec![0xDD; staging] }
}

fn extend(trace: &mut Letters, moment: u64, depth: usize, found: &mut Vec<Letters>) {
    if depth == 0 {
        found.push(trace.clone());
        return;
    }
    for (call, next) in alphabet(moment) {
        trace.push(call);
        extend(trace, next, depth - 1, found);
        trace.pop();
    }
}

/// The calls of a moment, and the moment that they lead to.
fn alphabet(moment: u64) -> Vec<(WriterCall, u64)> {
    let mut calls = vec![(WriterCall::Flush, moment), (WriterCall::Sync(u64::MAX), moment)];
    match moment {
        IDLE => {
            calls.push((WriterCall::Begin(1), IN_ENTRY));
            calls.push((WriterCall::Recycle(1), IDLE));
        }
        IN_ENTRY => {
            calls.push((WriterCall::BeginChunk(0), IN_CHUNK));
            calls.push((WriterCall::BeginChunk(2), IN_CHUNK));
            calls.push((WriterCall::Commit, IDLE));
            calls.push((WriterCall::Rollback, IDLE));
        }
        _ => {
            calls.push((WriterCall::Write(vec![7, 8]), IN_CHUNK));
            calls.push((WriterCall::Write(vec![9]), IN_CHUNK));
            calls.push((WriterCall::Finish, IN_ENTRY));
            calls.push((WriterCall::Rollback, IDLE));
        }
    }
    calls
}
