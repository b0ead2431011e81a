//! The model's functions under the C names of okaywal_segment.h, so that it can stand in for the proved library.

use std::slice;

use crate::{
    crc32c_append, position, reader,
    writer::{self, Desk, Opening},
};

/// # Safety
/// `at` is valid and aligned for `len` items, for the length of the call.
unsafe fn lent<'a, T>(at: *const T, len: usize) -> &'a [T] {
    unsafe { slice::from_raw_parts(at, len) }
}

/// # Safety
/// As for `lent`, and nobody else uses the items meanwhile.
unsafe fn lent_mut<'a, T>(at: *mut T, len: usize) -> &'a mut [T] {
    unsafe { slice::from_raw_parts_mut(at, len) }
}

/// # Safety
/// The caller owes what okaywal_segment.h says; so for every function below.
#[no_mangle]
pub unsafe extern "C" fn okw_crc32c_append(crc: u32, bytes: *const u8, len: usize) -> u32 {
    crc32c_append(crc, unsafe { lent(bytes, len) })
}

#[no_mangle]
pub unsafe extern "C" fn okw_position_write(file_id: u64, offset: u64, buf: *mut u8, buf_len: usize) -> u64 {
    position::write(file_id, offset, unsafe { lent_mut(buf, buf_len) })
}

#[no_mangle]
pub unsafe extern "C" fn okw_position_read(buf: *const u8, buf_len: usize, answer: *mut u64, answer_len: usize) -> u64 {
    unsafe { position::read(lent(buf, buf_len), lent_mut(answer, answer_len)) }
}

/// One writer's function: the desk, then its own parameters.
macro_rules! writer_call {
    ($name:ident($($arg:ident: $type:ty),*) $desk:ident => $call:expr) => {
        #[no_mangle]
        pub unsafe extern "C" fn $name(
            state: *mut u64,
            state_len: usize,
            info: *mut u8,
            info_len: usize,
            image: *mut u8,
            image_len: usize,
            staging: *mut u8,
            staging_len: usize,
            $($arg: $type),*
        ) -> u64 {
            unsafe {
                let $desk = &mut Desk {
                    state: lent_mut(state, state_len),
                    info: lent_mut(info, info_len),
                    image: lent_mut(image, image_len),
                    staging: lent_mut(staging, staging_len),
                };
                $call
            }
        }
    };
}

writer_call!(okw_writer_open(
    version_info: *const u8, version_info_len: usize, id: u64, last_known: u64, last_id: u64,
    validated_length: u64, file_length: u64, preallocate: u64
) desk => writer::open(desk, &Opening {
    version_info: lent(version_info, version_info_len),
    id,
    last_known,
    last_id,
    validated_length,
    file_length,
    preallocate,
}));
writer_call!(okw_writer_begin(entry_id: u64) desk => writer::begin(desk, entry_id));
writer_call!(okw_writer_begin_chunk(length: u32) desk => writer::begin_chunk(desk, length));
writer_call!(okw_writer_write(bytes: *const u8, len: usize, answer: *mut u64, answer_len: usize) desk =>
    writer::write(desk, lent(bytes, len), lent_mut(answer, answer_len)));
writer_call!(okw_writer_finish(answer: *mut u64, answer_len: usize) desk =>
    writer::finish(desk, lent_mut(answer, answer_len)));
writer_call!(okw_writer_commit(answer: *mut u64, answer_len: usize) desk =>
    writer::commit(desk, lent_mut(answer, answer_len)));
writer_call!(okw_writer_rollback() desk => writer::rollback(desk));
writer_call!(okw_writer_recycle(new_id: u64) desk => writer::recycle(desk, new_id));
writer_call!(okw_writer_flush() desk => writer::flush(desk));
writer_call!(okw_writer_sync(target: u64) desk => writer::sync(desk, target));
writer_call!(okw_writer_land_start(place: u64, answer: *mut u64, answer_len: usize) desk =>
    writer::land_start(desk, place, lent_mut(answer, answer_len)));
writer_call!(okw_writer_land_end(offset: i64, answer: *mut u64, answer_len: usize) desk =>
    writer::land_end(desk, offset, lent_mut(answer, answer_len)));
writer_call!(okw_writer_land_current(offset: i64, answer: *mut u64, answer_len: usize) desk =>
    writer::land_current(desk, offset, lent_mut(answer, answer_len)));

/// One reader's function: state and image, then its own parameters.
macro_rules! reader_call {
    ($name:ident($($arg:ident: $type:ty),*) $lent_state:ident, $lent_image:ident => $call:expr) => {
        #[no_mangle]
        pub unsafe extern "C" fn $name(
            state: *mut u64,
            state_len: usize,
            image: *const u8,
            image_len: usize,
            $($arg: $type),*
        ) -> u64 {
            unsafe {
                let ($lent_state, $lent_image) = (lent_mut(state, state_len), lent(image, image_len));
                $call
            }
        }
    };
}

reader_call!(okw_reader_open(file_id: u64) state, image => reader::open(state, image, file_id));
reader_call!(okw_reader_entry(answer: *mut u64, answer_len: usize) state, image =>
    reader::entry(state, image, lent_mut(answer, answer_len)));
reader_call!(okw_reader_chunk(answer: *mut u64, answer_len: usize) state, image =>
    reader::chunk(state, image, lent_mut(answer, answer_len)));
reader_call!(okw_reader_data(asked: u64, answer: *mut u64, answer_len: usize) state, image =>
    reader::data(state, image, asked, lent_mut(answer, answer_len)));
reader_call!(okw_reader_check_crc(answer: *mut u64, answer_len: usize) state, image =>
    reader::check_crc(state, image, lent_mut(answer, answer_len)));
reader_call!(okw_reader_skip() state, image => reader::skip(state, image));
reader_call!(okw_reader_whole(answer: *mut u64, answer_len: usize) state, image =>
    reader::whole(state, image, lent_mut(answer, answer_len)));
