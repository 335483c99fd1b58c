//! Has the proved libraries made by `rt`, and links them.
//!
//! TBR_LIB_DIR names the folder of libraries made before, which are then taken as they are; set to
//! nothing, it has no library linked, for a check that builds no program. There is no other way to
//! a judgement: what is missing is an error.

use std::env;
use std::path::{Path, PathBuf};
use std::process::{exit, Command};

/// The libraries that are linked, and of each the crate whose exported functions it has.
const LIBRARIES: [(&str, &str); 2] = [("judgement", "judgement_c"), ("exports", "exports")];

/// The file that has a library of this name.
fn archive(name: &str) -> String {
    format!("lib{name}.a")
}

/// Has `rt` make a crate's library, and gives the file that it made.
fn make(root: &Path, exporting: &str) -> Result<PathBuf, String> {
    let folder = root.join("crates").join(exporting);
    match Command::new("rt").arg("lib").current_dir(&folder).status() {
        Ok(status) if status.success() => Ok(folder.join("out").join(archive(exporting))),
        Ok(status) => Err(format!("rt lib failed in {}: {status}", folder.display())),
        Err(error) => Err(format!("rt cannot be run: {error}")),
    }
}

/// The file that names the kit: the kit's folder is RATTLE_HOME, or the one above the folder that
/// the command `rt` really stands in.
fn kit_id() -> Option<PathBuf> {
    let home = match env::var_os("RATTLE_HOME") {
        Some(home) => PathBuf::from(home),
        None => {
            let folders = env::var_os("PATH")?;
            let rt = env::split_paths(&folders).map(|folder| folder.join("rt"));
            let rt = rt.into_iter().find(|rt| rt.is_file())?.canonicalize().ok()?;
            rt.parent()?.parent()?.to_path_buf()
        }
    };
    Some(home.join("KIT-ID")).filter(|file| file.is_file())
}

/// The libraries are made anew when a crate or the kit changes; what `rt` keeps beside a crate's
/// own files is not looked at, since making a library changes it.
fn watch(root: &Path) -> std::io::Result<()> {
    let mut files = vec![root.join("crates.txt")];
    for entry in std::fs::read_dir(root.join("crates"))? {
        let folder = entry?.path();
        let parts = ["src", "specs", "proofs"].map(|part| folder.join(part));
        files.extend(parts.into_iter().filter(|part| part.exists()));
    }
    for file in files.into_iter().chain(kit_id()) {
        println!("cargo:rerun-if-changed={}", file.display());
    }
    for name in ["TBR_LIB_DIR", "RATTLE_HOME", "PATH"] {
        println!("cargo:rerun-if-env-changed={name}");
    }
    Ok(())
}

/// Links a copy, so that the build does not lose its library when a crate's out/ is cleared.
fn link(name: &str, library: &Path, out: &Path) -> Result<(), String> {
    std::fs::copy(library, out.join(archive(name)))
        .map_err(|error| format!("no library at {}: {error}", library.display()))?;
    println!("cargo:rustc-link-lib=static={name}");
    Ok(())
}

fn build(root: &Path, out: &Path) -> Result<(), String> {
    watch(root).map_err(|error| format!("the crates cannot be listed: {error}"))?;
    let named = env::var_os("TBR_LIB_DIR").map(PathBuf::from);
    if named.as_ref().is_some_and(|folder| folder.as_os_str().is_empty()) {
        return Ok(());
    }
    println!("cargo:rustc-link-search=native={}", out.display());
    for (name, exporting) in LIBRARIES {
        let library = match &named {
            Some(folder) => {
                let library = folder.join(archive(name));
                println!("cargo:rerun-if-changed={}", library.display());
                library
            }
            None => make(root, exporting)?,
        };
        link(name, &library, out)?;
    }
    Ok(())
}

fn main() {
    let folder = |name| PathBuf::from(env::var_os(name).expect("set by cargo"));
    let package = folder("CARGO_MANIFEST_DIR");
    let root = package.parent().expect("the package stands in the repository");
    if let Err(message) = build(root, &folder("OUT_DIR")) {
        eprintln!("{message}");
        exit(1);
    }
}
