//! What a command reads: a file by its name, whatever its bytes are, or standard input.

use crate::end::{Failure, Status};
use std::ffi::OsStr;
use std::fs::{File, Metadata};
use std::io::{self, Read};
use std::os::fd::AsFd;
use std::os::unix::fs::MetadataExt;
use std::path::Path;

/// No file and no text form comes near a mebibyte.
const LONGEST: u64 = 1 << 20;

/// The name that means standard input or standard output.
pub const STANDARD: &str = "-";

/// Device and inode: alike just where two names are of one file.
pub type Identity = (u64, u64);

/// What was read.
pub struct Input {
    /// The name for messages.
    pub name: String,
    pub bytes: Vec<u8>,
    /// None for what is no regular file: writing does not harm it.
    pub identity: Option<Identity>,
}

/// The identity of a regular file.
pub fn identity(metadata: &Metadata) -> Option<Identity> {
    metadata.is_file().then(|| (metadata.dev(), metadata.ino()))
}

/// Standard input or standard output as a file.
pub fn standard(stream: impl AsFd) -> io::Result<File> {
    stream.as_fd().try_clone_to_owned().map(File::from)
}

fn open(name: &OsStr) -> io::Result<File> {
    match name == STANDARD {
        true => standard(io::stdin()),
        false => File::open(name),
    }
}

/// The name for messages.
pub fn shown(name: &OsStr) -> String {
    match name == STANDARD {
        true => "standard input".to_string(),
        false => Path::new(name).display().to_string(),
    }
}

/// All bytes of a file, or one more than the longest that is taken.
pub fn bytes_of(file: File) -> io::Result<Vec<u8>> {
    let mut bytes = Vec::new();
    file.take(LONGEST + 1).read_to_end(&mut bytes)?;
    Ok(bytes)
}

/// Reads the file of this name.
pub fn read(name: &OsStr) -> Result<Input, Failure> {
    let shown = shown(name);
    let cannot = |error| Failure::other(Status::Wrong, &shown, format!("cannot be read: {error}"));
    let file = open(name).map_err(cannot)?;
    let identity = identity(&file.metadata().map_err(cannot)?);
    let bytes = bytes_of(file).map_err(cannot)?;
    if u64::try_from(bytes.len()).is_ok_and(|length| length <= LONGEST) {
        return Ok(Input { name: shown, bytes, identity });
    }
    let words = format!("longer than {LONGEST} bytes: no survey, vehicle, yard or text form is");
    Err(Failure::other(Status::RefusedFile, &shown, words))
}
