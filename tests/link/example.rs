//! Reads the segment of document 01's case P2 (one entry, an empty chunk) whole. From the project's root, after tests/archive:
//!   rustc --edition 2021 tests/link/example.rs -L target/staticlib -l static=okaywal_segment -o target/example && target/example
//! compare/src/library.rs wraps every function of include/okaywal_segment.h.

extern "C" {
    fn okw_reader_open(state: *mut u64, state_len: usize, image: *const u8, image_len: usize, id: u64) -> u64;
    fn okw_reader_entry(state: *mut u64, state_len: usize, image: *const u8, image_len: usize, answer: *mut u64, answer_len: usize) -> u64;
    fn okw_reader_whole(state: *mut u64, state_len: usize, image: *const u8, image_len: usize, answer: *mut u64, answer_len: usize) -> u64;
}

fn main() {
    let image = [0x6F, 0x6B, 0x77, 0, 0, 1, 1, 0, 0, 0, 0, 0, 0, 0, 2, 0, 0, 0, 0, 0, 0, 0, 0, 3];
    let (mut state, mut answer) = ([0u64; 10], [0u64; 4]);
    let (s, i, a) = (state.as_mut_ptr(), image.as_ptr(), answer.as_mut_ptr());
    // each pointer is valid for the length beside it
    let opened = unsafe { okw_reader_open(s, 10, i, image.len(), 1) };
    let met = unsafe { okw_reader_entry(s, 10, i, image.len(), a, 4) };
    println!("opened {opened}, entry {} with {met}", answer[1]);
    let whole = unsafe { okw_reader_whole(s, 10, i, image.len(), a, 4) };
    println!("whole {} with {whole}, {} chunk from {} on", answer[0], answer[2], answer[1]);
}
