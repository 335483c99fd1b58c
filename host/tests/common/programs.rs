//! The programs of the repository, run on a standard input.

use std::collections::BTreeMap;
use std::io::{ErrorKind, Write};
use std::path::{Path, PathBuf};
use std::process::{Command, Stdio};
use std::sync::{Mutex, PoisonError};

/// Where the program is: by TBR_BRIDGE or TBR_CASES where that is set, else the repository's own,
/// made by `rt run` where it is missing. That also runs it, here on no input.
fn found(name: &str) -> PathBuf {
    if let Some(path) = std::env::var_os(format!("TBR_{}", name.to_uppercase())) {
        return PathBuf::from(path);
    }
    let folder = Path::new(env!("CARGO_MANIFEST_DIR")).join("../crates").join(name);
    let path = folder.join("out").join(name);
    if !path.exists() {
        let mut rt = Command::new("rt");
        rt.arg("run").current_dir(folder).stdin(Stdio::null()).stdout(Stdio::null());
        let status = rt.status().expect("rt cannot be run");
        assert!(path.exists(), "rt run made no {name}: {status}");
    }
    path
}

/// The same, looked for once; tests that run at the same time wait for it.
fn program(name: &str) -> PathBuf {
    static PROGRAMS: Mutex<BTreeMap<String, PathBuf>> = Mutex::new(BTreeMap::new());
    let mut programs = PROGRAMS.lock().unwrap_or_else(PoisonError::into_inner);
    programs.entry(name.to_string()).or_insert_with(|| found(name)).clone()
}

/// What a program prints for this standard input; bytes that are no text are shown as such.
pub fn printed(name: &str, input: &[u8]) -> String {
    let mut command = Command::new(program(name));
    command.stdin(Stdio::piped()).stdout(Stdio::piped());
    let mut child = command.spawn().expect("the program cannot be run");
    // It reads all of its input, but may not be held to that here.
    let sent = child.stdin.take().expect("its standard input").write_all(input);
    if let Err(error) = sent {
        assert_eq!(error.kind(), ErrorKind::BrokenPipe, "{error}");
    }
    let output = child.wait_with_output().expect("the program's output");
    assert!(output.status.success(), "{}", output.status);
    String::from_utf8_lossy(&output.stdout).into_owned()
}
