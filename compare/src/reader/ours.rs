//! Our reader: its words and the image, called through the library.

use crate::{
    calls::ReaderCall,
    sides::{Library, Side},
};

#[derive(Debug, Clone)]
pub struct Ours<'a> {
    pub words: [u64; 10],
    pub image: &'a [u8],
}

pub const NO_ENTRY: u64 = 0;
pub const IN_ENTRY: u64 = 1;
pub const IN_CHUNK: u64 = 2;
pub const ENDED: u64 = 3;

impl<'a> Ours<'a> {
    /// A reader before its opening: its words are garbage, nothing may lean on them.
    pub fn new(image: &'a [u8]) -> Self {
        Self { words: [0x5A; 10], image }
    }

    /// The call's number, and its answer's words.
    pub fn call(&mut self, call: &ReaderCall) -> (u64, [u64; 4]) {
        let mut answer = [0; 4];
        let number = Library.reader(&mut self.words, self.image, call, &mut answer);
        (number, answer)
    }

    pub fn place(&self) -> u64 {
        self.words[3]
    }

    pub fn valid_until(&self) -> u64 {
        self.words[4]
    }

    pub fn moment(&self) -> u64 {
        self.words[5]
    }

    pub fn owed(&self) -> u64 {
        self.words[9]
    }
}
