//! The library behind okaywal_segment.h, as safe functions over slices. This is the harness's only `unsafe`.
//!
//! Every function passes the slices that it is given as pointer and length. A slice's pointer is valid, aligned and not
//! null for its length, and Rust's borrows keep the slices apart: that is all that the header asks of a caller.

use crate::calls::Opening;

/// What a writer's call is lent.
pub struct Desk<'a> {
    pub state: &'a mut [u64],
    pub info: &'a mut [u8],
    pub image: &'a mut [u8],
    pub staging: &'a mut [u8],
}

extern "C" {
    fn okw_crc32c_append(crc: u32, bytes: *const u8, len: usize) -> u32;
    fn okw_position_write(file_id: u64, offset: u64, buf: *mut u8, buf_len: usize) -> u64;
    fn okw_position_read(buf: *const u8, buf_len: usize, answer: *mut u64, answer_len: usize) -> u64;
}

/// Declares writer's functions: the desk, then their own parameters.
macro_rules! declare_writer {
    ($(fn $name:ident($($arg:ident: $type:ty),*);)*) => {
        extern "C" {
            $(fn $name(
                state: *mut u64, state_len: usize,
                info: *mut u8, info_len: usize,
                image: *mut u8, image_len: usize,
                staging: *mut u8, staging_len: usize,
                $($arg: $type),*
            ) -> u64;)*
        }
    };
}

/// Declares reader's functions: state and image, then their own parameters.
macro_rules! declare_reader {
    ($(fn $name:ident($($arg:ident: $type:ty),*);)*) => {
        extern "C" {
            $(fn $name(
                state: *mut u64, state_len: usize,
                image: *const u8, image_len: usize,
                $($arg: $type),*
            ) -> u64;)*
        }
    };
}

declare_writer! {
    fn okw_writer_open(version_info: *const u8, version_info_len: usize, id: u64, last_known: u64, last_id: u64,
                       validated_length: u64, file_length: u64, preallocate: u64);
    fn okw_writer_begin(entry_id: u64);
    fn okw_writer_begin_chunk(length: u32);
    fn okw_writer_write(bytes: *const u8, len: usize, answer: *mut u64, answer_len: usize);
    fn okw_writer_finish(answer: *mut u64, answer_len: usize);
    fn okw_writer_commit(answer: *mut u64, answer_len: usize);
    fn okw_writer_rollback();
    fn okw_writer_recycle(new_id: u64);
    fn okw_writer_flush();
    fn okw_writer_sync(target: u64);
    fn okw_writer_land_start(place: u64, answer: *mut u64, answer_len: usize);
    fn okw_writer_land_end(offset: i64, answer: *mut u64, answer_len: usize);
    fn okw_writer_land_current(offset: i64, answer: *mut u64, answer_len: usize);
}

declare_reader! {
    fn okw_reader_open(file_id: u64);
    fn okw_reader_entry(answer: *mut u64, answer_len: usize);
    fn okw_reader_chunk(answer: *mut u64, answer_len: usize);
    fn okw_reader_data(asked: u64, answer: *mut u64, answer_len: usize);
    fn okw_reader_check_crc(answer: *mut u64, answer_len: usize);
    fn okw_reader_skip();
    fn okw_reader_whole(answer: *mut u64, answer_len: usize);
}

/// Calls a writer's function with the desk's slices, then its own arguments.
macro_rules! call_writer {
    ($name:ident, $desk:ident $(, $arg:expr)*) => {
        // SAFETY: pointers and lengths are those of slices that the borrow checker keeps apart; see the top.
        unsafe {
            $name(
                $desk.state.as_mut_ptr(), $desk.state.len(),
                $desk.info.as_mut_ptr(), $desk.info.len(),
                $desk.image.as_mut_ptr(), $desk.image.len(),
                $desk.staging.as_mut_ptr(), $desk.staging.len(),
                $($arg),*
            )
        }
    };
}

/// Calls a reader's function with the state and the image, then its own arguments.
macro_rules! call_reader {
    ($name:ident, $state:ident, $image:ident $(, $arg:expr)*) => {
        // SAFETY: as above.
        unsafe { $name($state.as_mut_ptr(), $state.len(), $image.as_ptr(), $image.len(), $($arg),*) }
    };
}

pub fn crc32c_append(crc: u32, bytes: &[u8]) -> u32 {
    // SAFETY: a slice's own pointer and length.
    unsafe { okw_crc32c_append(crc, bytes.as_ptr(), bytes.len()) }
}

pub fn position_write(file_id: u64, offset: u64, buf: &mut [u8]) -> u64 {
    // SAFETY: a slice's own pointer and length.
    unsafe { okw_position_write(file_id, offset, buf.as_mut_ptr(), buf.len()) }
}

pub fn position_read(buf: &[u8], answer: &mut [u64]) -> u64 {
    // SAFETY: two slices' own pointers and lengths.
    unsafe { okw_position_read(buf.as_ptr(), buf.len(), answer.as_mut_ptr(), answer.len()) }
}

pub fn writer_open(desk: &mut Desk<'_>, opening: &Opening) -> u64 {
    let info = opening.version_info.as_slice();
    call_writer!(
        okw_writer_open,
        desk,
        info.as_ptr(),
        info.len(),
        opening.id,
        opening.last_known,
        opening.last_id,
        opening.validated_length,
        opening.file_length,
        opening.preallocate
    )
}

pub fn writer_begin(desk: &mut Desk<'_>, entry_id: u64) -> u64 {
    call_writer!(okw_writer_begin, desk, entry_id)
}

pub fn writer_begin_chunk(desk: &mut Desk<'_>, length: u32) -> u64 {
    call_writer!(okw_writer_begin_chunk, desk, length)
}

pub fn writer_write(desk: &mut Desk<'_>, bytes: &[u8], answer: &mut [u64]) -> u64 {
    call_writer!(okw_writer_write, desk, bytes.as_ptr(), bytes.len(), answer.as_mut_ptr(), answer.len())
}

pub fn writer_finish(desk: &mut Desk<'_>, answer: &mut [u64]) -> u64 {
    call_writer!(okw_writer_finish, desk, answer.as_mut_ptr(), answer.len())
}

pub fn writer_commit(desk: &mut Desk<'_>, answer: &mut [u64]) -> u64 {
    call_writer!(okw_writer_commit, desk, answer.as_mut_ptr(), answer.len())
}

pub fn writer_rollback(desk: &mut Desk<'_>) -> u64 {
    call_writer!(okw_writer_rollback, desk)
}

pub fn writer_recycle(desk: &mut Desk<'_>, new_id: u64) -> u64 {
    call_writer!(okw_writer_recycle, desk, new_id)
}

pub fn writer_flush(desk: &mut Desk<'_>) -> u64 {
    call_writer!(okw_writer_flush, desk)
}

pub fn writer_sync(desk: &mut Desk<'_>, target: u64) -> u64 {
    call_writer!(okw_writer_sync, desk, target)
}

pub fn writer_land_start(desk: &mut Desk<'_>, place: u64, answer: &mut [u64]) -> u64 {
    call_writer!(okw_writer_land_start, desk, place, answer.as_mut_ptr(), answer.len())
}

pub fn writer_land_end(desk: &mut Desk<'_>, offset: i64, answer: &mut [u64]) -> u64 {
    call_writer!(okw_writer_land_end, desk, offset, answer.as_mut_ptr(), answer.len())
}

pub fn writer_land_current(desk: &mut Desk<'_>, offset: i64, answer: &mut [u64]) -> u64 {
    call_writer!(okw_writer_land_current, desk, offset, answer.as_mut_ptr(), answer.len())
}

pub fn reader_open(state: &mut [u64], image: &[u8], file_id: u64) -> u64 {
    call_reader!(okw_reader_open, state, image, file_id)
}

pub fn reader_entry(state: &mut [u64], image: &[u8], answer: &mut [u64]) -> u64 {
    call_reader!(okw_reader_entry, state, image, answer.as_mut_ptr(), answer.len())
}

pub fn reader_chunk(state: &mut [u64], image: &[u8], answer: &mut [u64]) -> u64 {
    call_reader!(okw_reader_chunk, state, image, answer.as_mut_ptr(), answer.len())
}

pub fn reader_data(state: &mut [u64], image: &[u8], asked: u64, answer: &mut [u64]) -> u64 {
    call_reader!(okw_reader_data, state, image, asked, answer.as_mut_ptr(), answer.len())
}

pub fn reader_check_crc(state: &mut [u64], image: &[u8], answer: &mut [u64]) -> u64 {
    call_reader!(okw_reader_check_crc, state, image, answer.as_mut_ptr(), answer.len())
}

pub fn reader_skip(state: &mut [u64], image: &[u8]) -> u64 {
    call_reader!(okw_reader_skip, state, image)
}

pub fn reader_whole(state: &mut [u64], image: &[u8], answer: &mut [u64]) -> u64 {
    call_reader!(okw_reader_whole, state, image, answer.as_mut_ptr(), answer.len())
}
