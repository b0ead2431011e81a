//! Our writer: its words, its info and its two buffers, called through the library.

use crate::{
    calls::WriterCall,
    library::Desk,
    sides::{Library, Side},
};

#[derive(Debug, Clone, PartialEq, Eq)]
pub struct Ours {
    pub words: [u64; 16],
    pub info: [u8; 255],
    pub image: Vec<u8>,
    pub staging: Vec<u8>,
}

impl Ours {
    /// A writer before its opening: its words and its info are garbage, nothing may lean on them.
    pub fn new(image: Vec<u8>, staging: Vec<u8>) -> Self {
        Self { words: [0x5A; 16], info: [0x5A; 255], image, staging }
    }

    /// The call's number, and its answer's words.
    pub fn call(&mut self, call: &WriterCall) -> (u64, [u64; 4]) {
        let mut answer = [0; 4];
        let number = Library.writer(&mut self.desk(), call, &mut answer);
        (number, answer)
    }

    pub fn desk(&mut self) -> Desk<'_> {
        Desk { state: &mut self.words, info: &mut self.info, image: &mut self.image, staging: &mut self.staging }
    }

    pub fn id(&self) -> u64 {
        self.words[0]
    }

    pub fn info_length(&self) -> u64 {
        self.words[1]
    }

    pub fn image_size(&self) -> u64 {
        self.words[2]
    }

    pub fn staging_size(&self) -> u64 {
        self.words[3]
    }

    pub fn file_length(&self) -> u64 {
        self.words[4]
    }

    pub fn position(&self) -> u64 {
        self.words[5]
    }

    pub fn staged(&self) -> u64 {
        self.words[6]
    }

    pub fn synchronized(&self) -> u64 {
        self.words[7]
    }

    pub fn last(&self) -> Option<u64> {
        (self.words[8] == 1).then_some(self.words[9])
    }

    pub fn moment(&self) -> u64 {
        self.words[10]
    }

    pub fn owed(&self) -> u64 {
        self.words[14]
    }

    pub fn logical(&self) -> u64 {
        self.position() + self.staged()
    }

    /// The bytes free behind the logical position.
    pub fn room(&self) -> u64 {
        self.image_size() - self.logical()
    }
}

pub const IDLE: u64 = 0;
pub const IN_ENTRY: u64 = 1;
pub const IN_CHUNK: u64 = 2;
