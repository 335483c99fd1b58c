//! What the tests of the command line share: folders, the samples, and running `tbr`.
#![allow(dead_code)]

use std::ffi::OsStr;
use std::path::{Path, PathBuf};
use std::process::{Command, Output, Stdio};

/// A folder of a test's own, removed at its end.
pub struct Folder(PathBuf);

impl Folder {
    pub fn new(name: &str) -> Folder {
        let path = Path::new(env!("CARGO_TARGET_TMPDIR")).join(name);
        let _ = std::fs::remove_dir_all(&path);
        std::fs::create_dir_all(&path).unwrap();
        Folder(path)
    }

    pub fn folder(&self) -> &Path {
        &self.0
    }

    pub fn path(&self, name: &str) -> String {
        self.0.join(name).to_str().unwrap().to_string()
    }

    pub fn file(&self, name: &str, bytes: impl AsRef<[u8]>) -> String {
        std::fs::write(self.path(name), bytes).unwrap();
        self.path(name)
    }

    /// All names in it, sorted.
    pub fn names(&self) -> Vec<String> {
        let entries = std::fs::read_dir(&self.0).unwrap();
        let name = |entry: std::fs::DirEntry| entry.file_name().to_string_lossy().into_owned();
        let mut names: Vec<String> = entries.map(|entry| name(entry.unwrap())).collect();
        names.sort();
        names
    }
}

impl Drop for Folder {
    fn drop(&mut self) {
        let _ = std::fs::remove_dir_all(&self.0);
    }
}

pub fn samples() -> PathBuf {
    Path::new(env!("CARGO_MANIFEST_DIR")).join("../samples")
}

pub fn sample(name: &str) -> Vec<u8> {
    std::fs::read(samples().join(name)).unwrap()
}

/// The samples' text forms.
pub fn text(name: &str) -> String {
    String::from_utf8(sample(name)).unwrap()
}

/// `tbr` with these arguments, in the samples' folder.
pub fn tbr<T: AsRef<OsStr>>(words: &[T]) -> Command {
    let mut command = Command::new(env!("CARGO_BIN_EXE_tbr"));
    command.args(words).current_dir(samples()).stdin(Stdio::null());
    command
}

/// Exit status, standard output, standard error.
pub fn answer(command: &mut Command) -> (i32, String, String) {
    let Output { status, stdout, stderr } = command.output().unwrap();
    let text = |bytes| String::from_utf8(bytes).unwrap();
    (status.code().unwrap(), text(stdout), text(stderr))
}

pub fn run<T: AsRef<OsStr>>(words: &[T]) -> (i32, String, String) {
    answer(&mut tbr(words))
}

/// The same with standard input from this file.
pub fn run_with_input(words: &[&str], input: impl AsRef<Path>) -> (i32, String, String) {
    let input = std::fs::File::open(samples().join(input)).unwrap();
    answer(tbr(words).stdin(input))
}
