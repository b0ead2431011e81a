//! One reader's call asked of the library and of the model, on equal slices of any length and content.

use std::fmt;

use super::{guarded::Guarded, shortened};
use crate::{
    calls::ReaderCall,
    difference::{holds, same, same_bytes, Verdict},
    sides::{Library, Model, Side},
};

#[derive(Debug, Clone)]
pub struct ReaderCase {
    pub state: Vec<u64>,
    pub image: Vec<u8>,
    pub answer: Vec<u64>,
}

impl ReaderCase {
    /// Asks both, compares every word and byte, and goes on from what they left. The number of the call.
    pub fn ask(&mut self, call: &ReaderCall) -> Verdict<u64> {
        let mut state = Guarded::new(&self.state, 0xAAAA_AAAA_AAAA_AAAA);
        let mut answer = Guarded::new(&self.answer, 0xAAAA_AAAA_AAAA_AAAA);
        let image = Guarded::new(&self.image, 0xAA);
        let number = Library.reader(state.slice(), image.content(), call, answer.slice());
        let expected = Model.reader(&mut self.state, &self.image, call, &mut self.answer);
        same("number", number, expected)?;
        same("state", state.content(), &self.state)?;
        same("answer", answer.content(), &self.answer)?;
        same_bytes("image", image.content(), &self.image)?;
        let intact = state.is_intact() && answer.is_intact() && image.is_intact();
        holds("nothing is written beside the slices", intact)?;
        Ok(number)
    }
}

impl fmt::Display for ReaderCase {
    fn fmt(&self, f: &mut fmt::Formatter<'_>) -> fmt::Result {
        writeln!(f)?;
        writeln!(f, "    state, {} items: {}", self.state.len(), shortened(&format!("{:?}", self.state)))?;
        writeln!(f, "    image, {} items: {}", self.image.len(), shortened(&format!("{:?}", self.image)))?;
        writeln!(f, "    answer, {} items: {}", self.answer.len(), shortened(&format!("{:?}", self.answer)))?;
        Ok(())
    }
}
