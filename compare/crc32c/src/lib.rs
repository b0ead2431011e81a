//! A stand-in for the crate `crc32c`, which Debian does not have: the two functions that okaywal names, over the
//! Castagnoli table of Debian's `crc` 1.8. (The crate that okaywal ships with uses the processor's instruction.)

use crc::crc32::{update, CASTAGNOLI_TABLE};

/// Continues the finished sum `crc` over `data`.
pub fn crc32c_append(crc: u32, data: &[u8]) -> u32 {
    update(crc, &CASTAGNOLI_TABLE, data)
}

/// The sum of `data`.
pub fn crc32c(data: &[u8]) -> u32 {
    crc32c_append(0, data)
}
