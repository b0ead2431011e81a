//! The Rust's writer, driven call by call and held to the prediction of its known faults.
//!
//! `drive` opens a file as the Rust does and then asks a client for calls. After every call the private numbers must be
//! those of the shadow; where a known fault has put the Rust in the wrong place, its own `revert_to` puts it back, so
//! that the calls that follow can be compared.

mod debug_text;
mod driver;
mod grip;
mod landing;
mod shadow;
mod steps;
mod view;

use std::{
    fs::{self, File},
    io,
    path::{Path, PathBuf},
    sync::Arc,
};

use okaywal::{Configuration, EntryId, LogFile, WriteAheadLog};

pub use self::{
    debug_text::Shown,
    landing::landed,
    view::{Client, Events, Moment, View},
};
use self::{driver::Driver, shadow::Shadow};
use crate::{calls::Opening, difference::Verdict};

/// What the Rust needs beside a trace: a folder, a log to hand files back to, and a file whose lock can stand in.
pub struct Bench {
    folder: PathBuf,
    log: WriteAheadLog,
    spare: LogFile,
}

/// A file before its opening, and how it is opened.
pub struct Setup<'a> {
    pub opening: &'a Opening,
    pub file: &'a [u8],
    pub staging: usize,
}

impl Bench {
    pub fn new(folder: &Path) -> io::Result<Self> {
        let config = configuration(folder, 1, 0, &[]);
        let spare = LogFile::write(0, folder.join("spare"), 0, None, &config)?;
        Ok(Self { folder: folder.to_path_buf(), log: WriteAheadLog::default(), spare })
    }

    pub fn folder(&self) -> &Path {
        &self.folder
    }

    pub fn log(&self) -> &WriteAheadLog {
        &self.log
    }

    pub fn spare(&self) -> &LogFile {
        &self.spare
    }

    /// Opens a file as the Rust does.
    pub fn open(&self, setup: &Setup<'_>) -> io::Result<LogFile> {
        let path = self.folder.join("wal");
        fs::write(&path, setup.file)?;
        let opening = setup.opening;
        let preallocate = u32::try_from(opening.preallocate).map_err(io::Error::other)?;
        let config = configuration(&self.folder, preallocate, setup.staging, &opening.version_info);
        LogFile::write(opening.id, path, opening.validated_length, opening.last().map(EntryId), &config)
    }
}

/// Opens the Rust's writer and takes the client's calls until there are no more.
pub fn drive(bench: &Bench, setup: &Setup<'_>, client: &mut dyn Client) -> Verdict {
    let file = bench.open(setup)?;
    let path = file.lock().path().to_path_buf();
    let mut driver = Driver {
        bench,
        file: &file,
        disk: File::open(&path)?,
        shadow: predicted_opening(setup),
        view: View::default(),
        recyclings: 0,
    };
    driver.look_first()?;
    client.opened(&driver.view, &fs::read(&path)?)?;
    driver.view.events = Events::default();
    driver.idle(client)
}

/// What the Rust reads of its configuration.
pub fn configuration(folder: &Path, preallocate: u32, staging: usize, info: &[u8]) -> Configuration {
    Configuration {
        directory: folder.to_path_buf(),
        preallocate_bytes: preallocate,
        buffer_bytes: staging,
        version_info: Arc::new(info.to_vec()),
    }
}

fn predicted_opening(setup: &Setup<'_>) -> Shadow {
    let opening = setup.opening;
    let padded = opening.validated_length.div_ceil(opening.preallocate).max(1) * opening.preallocate;
    let length = padded.max(setup.file.len() as u64);
    let mut shadow = Shadow::new(setup.staging as u64, opening.validated_length, length);
    if opening.validated_length == 0 {
        shadow.write_header(opening.version_info.len());
        shadow.flush();
    }
    shadow
}
