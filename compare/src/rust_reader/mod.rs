//! The Rust's reader, driven call by call and held to the prediction of its known faults.
//!
//! Where a known fault has put the Rust in the wrong place, or would end the process, it is led around or put back, so
//! that the calls that follow can be compared.

mod chunks;
mod driver;
mod entries;
pub mod faulty;
mod view;
mod wholes;

use std::{
    io::{self, ErrorKind},
    path::Path,
};

use okaywal::log_file::inside;

use self::driver::Driver;
pub use self::view::{Answer, Client, Moment, View};
use crate::difference::{Difference, Verdict};

/// Opens the Rust's reader on a file with the image's bytes and takes the client's calls until there are no more.
pub fn drive(path: &Path, image: &[u8], file_id: u64, client: &mut dyn Client) -> Verdict {
    let mut reader = match inside::open(path, file_id) {
        Ok(reader) => reader,
        Err(err) => return client.opened(opening_number(&err)?, &[]),
    };
    client.opened(0, inside::version_info(&reader))?;
    Driver::new(image, file_id, client).outside(&mut reader)
}

/// The number of refusal that the Rust's error stands for.
fn opening_number(err: &io::Error) -> Verdict<u64> {
    match (err.kind(), err.to_string().as_str()) {
        (ErrorKind::UnexpectedEof, _) => Ok(1),
        (_, "segment file did not contain magic code") => Ok(2),
        (_, "segment file was written with a newer version") => Ok(3),
        _ => Err(Difference(format!("an opening that fails in a new way: {err}"))),
    }
}
