//! What a command writes: whole or not at all, never over its own input, and over another file
//! only where that is asked for.

use crate::end::{Failure, Status};
use crate::input::{bytes_of, identity, standard, Input, STANDARD};
use std::ffi::OsStr;
use std::fmt;
use std::fs::{self, File, Metadata, OpenOptions};
use std::io::{self, ErrorKind, Write};
use std::os::unix::fs::{fchown, MetadataExt, OpenOptionsExt};
use std::path::{Path, PathBuf};
use tbr::form::{look, Look};
use tbr::Which;

/// What a file holds.
#[derive(Clone, Copy, PartialEq, Eq)]
pub enum Sort {
    /// A survey or a vehicle, as a file or as a text form.
    One(Which),
    /// Vehicles joined.
    Yard,
}

impl fmt::Display for Sort {
    fn fmt(&self, f: &mut fmt::Formatter) -> fmt::Result {
        match self {
            Sort::One(which) => write!(f, "{which}"),
            Sort::Yard => f.write_str("yard"),
        }
    }
}

/// A file to be written.
pub struct Output<'a> {
    pub name: &'a OsStr,
    pub holds: Sort,
    /// May another file be written over?
    pub force: bool,
}

/// Where the bytes go.
enum Place {
    Standard,
    /// A device or a pipe: it has no old bytes to lose.
    Special,
    New(PathBuf),
    Old(PathBuf, Metadata),
}

/// The name behind a chain of symbolic links, which need not be there yet.
fn behind_links(path: &Path) -> io::Result<PathBuf> {
    // As many as the system follows.
    const MOST_LINKS: usize = 40;
    let mut path = path.to_path_buf();
    for _ in 0..MOST_LINKS {
        let Ok(next) = fs::read_link(&path) else { return Ok(path) };
        path = path.parent().unwrap_or(Path::new("")).join(next);
    }
    Err(io::Error::other("too many symbolic links"))
}

/// A file beside the one to be written, removed unless it takes its name.
struct Temporary {
    path: PathBuf,
    file: File,
}

impl Temporary {
    /// A new file in this folder. A replaced file may be private, so its successor begins so.
    fn new(folder: &Path, private: bool) -> io::Result<Temporary> {
        let mut options = OpenOptions::new();
        options.write(true).create_new(true).mode(if private { 0o600 } else { 0o666 });
        let mut number = 0;
        loop {
            let path = folder.join(format!(".tbr-{}-{number}.tmp", std::process::id()));
            match options.open(&path) {
                Err(error) if error.kind() == ErrorKind::AlreadyExists => number += 1,
                opened => return opened.map(|file| Temporary { path, file }),
            }
        }
    }

    /// All bytes, on the disk.
    fn fill(&mut self, bytes: &[u8], old: Option<&Metadata>) -> io::Result<()> {
        self.file.write_all(bytes)?;
        if let Some(old) = old {
            // Only the superuser can give a file away; who cannot keeps its own.
            let _ = fchown(&self.file, Some(old.uid()), Some(old.gid()));
            self.file.set_permissions(old.permissions())?;
        }
        self.file.sync_all()
    }
}

impl Drop for Temporary {
    fn drop(&mut self) {
        let _ = fs::remove_file(&self.path);
    }
}

/// The bytes under a new name, or in place of an old file, at one stroke.
fn put(path: &Path, bytes: &[u8], old: Option<&Metadata>) -> io::Result<()> {
    let folder = path.parent().filter(|folder| *folder != Path::new(""));
    let folder = folder.unwrap_or(Path::new("."));
    let mut temporary = Temporary::new(folder, old.is_some())?;
    temporary.fill(bytes, old)?;
    match old {
        Some(_) => fs::rename(&temporary.path, path)?,
        // A link, unlike a new name, does not replace what came there meanwhile; some file systems
        // have none.
        None => match fs::hard_link(&temporary.path, path) {
            Err(error) if error.kind() != ErrorKind::AlreadyExists => {
                fs::rename(&temporary.path, path)?;
            }
            linked => linked?,
        },
    }
    // The name is as durable as the folder; not every file system can say so.
    let _ = File::open(folder).and_then(|folder| folder.sync_all());
    Ok(())
}

impl Output<'_> {
    /// The name for messages.
    pub fn shown(&self) -> String {
        match self.name == STANDARD {
            true => "standard output".to_string(),
            false => Path::new(self.name).display().to_string(),
        }
    }

    fn wrong(&self, words: impl Into<String>) -> Failure {
        Failure::other(Status::Wrong, &self.shown(), words)
    }

    fn cannot(&self, error: io::Error) -> Failure {
        self.wrong(format!("cannot be written: {error}"))
    }

    /// Where the bytes go: not to an input, by whatever name.
    fn place(&self, inputs: &[Input]) -> Result<Place, Failure> {
        let is_input = |found: &Metadata| {
            let found = identity(found);
            found.is_some() && inputs.iter().any(|input| input.identity == found)
        };
        let out = standard(io::stdout()).and_then(|out| out.metadata());
        let out = out.map_err(|error| self.cannot(error))?;
        let same =
            |one: &Metadata, other: &Metadata| (one.dev(), one.ino()) == (other.dev(), other.ino());
        let found = match self.name == STANDARD {
            true => Ok(out.clone()),
            false => fs::metadata(self.name),
        };
        let path = || behind_links(Path::new(self.name)).map_err(|error| self.cannot(error));
        match found {
            Ok(old) if is_input(&old) => {
                Err(self.wrong("this is the input itself, which is not written over"))
            }
            Ok(old) if same(&old, &out) => Ok(Place::Standard),
            Ok(old) if old.is_dir() => Err(self.cannot(ErrorKind::IsADirectory.into())),
            Ok(old) if !old.is_file() => Ok(Place::Special),
            Ok(old) => Ok(Place::Old(path()?, old)),
            Err(error) if error.kind() == ErrorKind::NotFound => Ok(Place::New(path()?)),
            Err(error) => Err(self.cannot(error)),
        }
    }

    /// May this file be replaced? Never by a file of another sort.
    fn may_replace(&self, path: &Path) -> Result<(), Failure> {
        if !self.force {
            return Err(self.wrong("there is such a file; --force writes over it"));
        }
        let old = File::open(path).and_then(bytes_of).map_err(|error| self.cannot(error))?;
        let sort = match look(&old) {
            Look::File(which) | Look::Text(which) => Sort::One(which),
            Look::Yard => Sort::Yard,
            Look::OtherText | Look::Other => self.holds,
        };
        if sort != self.holds {
            let words = format!("this is a {sort}; a {} does not take its place", self.holds);
            return Err(self.wrong(words).hint("remove it first, or give another name"));
        }
        Ok(())
    }

    /// Writes the bytes; those for standard output are handed back.
    pub fn write(&self, bytes: Vec<u8>, inputs: &[Input]) -> Result<Option<Vec<u8>>, Failure> {
        let cannot = |error| self.cannot(error);
        match self.place(inputs)? {
            Place::Standard => return Ok(Some(bytes)),
            Place::Special => {
                let file = OpenOptions::new().write(true).open(self.name);
                file.and_then(|mut file| file.write_all(&bytes)).map_err(cannot)?;
            }
            Place::New(path) => put(&path, &bytes, None).map_err(cannot)?,
            Place::Old(path, old) => {
                self.may_replace(&path)?;
                put(&path, &bytes, Some(&old)).map_err(cannot)?;
            }
        }
        Ok(None)
    }
}
