//! One writer's call asked of the library and of the model, on equal slices of any length and content.

use std::fmt;

use super::{guarded::Guarded, shortened};
use crate::{
    calls::WriterCall,
    difference::{holds, same, same_bytes, Verdict},
    library::Desk,
    sides::{Library, Model, Side},
};

#[derive(Debug, Clone)]
pub struct WriterCase {
    pub state: Vec<u64>,
    pub info: Vec<u8>,
    pub image: Vec<u8>,
    pub staging: Vec<u8>,
    pub answer: Vec<u64>,
}

/// The library's slices, each with bands on both sides.
struct Bands {
    state: Guarded<u64>,
    info: Guarded<u8>,
    image: Guarded<u8>,
    staging: Guarded<u8>,
    answer: Guarded<u64>,
}

impl WriterCase {
    /// Asks both, compares every word and byte, and goes on from what they left. The number of the call.
    pub fn ask(&mut self, call: &WriterCall) -> Verdict<u64> {
        let mut bands = self.bands();
        let number = bands.ask(call);
        let mut desk =
            Desk { state: &mut self.state, info: &mut self.info, image: &mut self.image, staging: &mut self.staging };
        let expected = Model.writer(&mut desk, call, &mut self.answer);
        same("number", number, expected)?;
        same("state", bands.state.content(), &self.state)?;
        same("answer", bands.answer.content(), &self.answer)?;
        same_bytes("info", bands.info.content(), &self.info)?;
        same_bytes("image", bands.image.content(), &self.image)?;
        same_bytes("staging", bands.staging.content(), &self.staging)?;
        holds("nothing is written beside the slices", bands.are_intact())?;
        Ok(number)
    }

    fn bands(&self) -> Bands {
        Bands {
            state: Guarded::new(&self.state, 0xAAAA_AAAA_AAAA_AAAA),
            info: Guarded::new(&self.info, 0xAA),
            image: Guarded::new(&self.image, 0xAA),
            staging: Guarded::new(&self.staging, 0xAA),
            answer: Guarded::new(&self.answer, 0xAAAA_AAAA_AAAA_AAAA),
        }
    }
}

impl Bands {
    fn ask(&mut self, call: &WriterCall) -> u64 {
        let mut desk = Desk {
            state: self.state.slice(),
            info: self.info.slice(),
            image: self.image.slice(),
            staging: self.staging.slice(),
        };
        Library.writer(&mut desk, call, self.answer.slice())
    }

    fn are_intact(&self) -> bool {
        self.state.is_intact()
            && self.info.is_intact()
            && self.image.is_intact()
            && self.staging.is_intact()
            && self.answer.is_intact()
    }
}

impl fmt::Display for WriterCase {
    fn fmt(&self, f: &mut fmt::Formatter<'_>) -> fmt::Result {
        writeln!(f)?;
        writeln!(f, "    state, {} items: {}", self.state.len(), shortened(&format!("{:?}", self.state)))?;
        writeln!(f, "    info, {} items: {}", self.info.len(), shortened(&format!("{:?}", self.info)))?;
        writeln!(f, "    image, {} items: {}", self.image.len(), shortened(&format!("{:?}", self.image)))?;
        writeln!(f, "    staging, {} items: {}", self.staging.len(), shortened(&format!("{:?}", self.staging)))?;
        writeln!(f, "    answer, {} items: {}", self.answer.len(), shortened(&format!("{:?}", self.answer)))?;
        Ok(())
    }
}
