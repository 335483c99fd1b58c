//! The README's section 'From a text form to a verdict': what it shows is what is printed. And
//! where the README and the documents point, there is something.

mod cli;

use cli::{samples, Folder};
use std::path::{Path, PathBuf};
use std::process::Command;

/// The commands of the section's first block, each with the lines that it shows below.
fn shown() -> Vec<(String, String)> {
    let readme = concat!(env!("CARGO_MANIFEST_DIR"), "/../README.md");
    let readme = std::fs::read_to_string(readme).unwrap();
    let (_, section) = readme.split_once("\n## From a text form to a verdict\n\n").unwrap();
    let block = section.lines().take_while(|line| line.is_empty() || line.starts_with("    "));
    let mut commands: Vec<(String, String)> = Vec::new();
    for line in block {
        let line = line.strip_prefix("    ").unwrap_or(line);
        match (line.strip_prefix("$ "), commands.last_mut()) {
            (Some(command), _) => commands.push((command.to_string(), String::new())),
            (None, Some((_, printed))) => *printed += &format!("{line}\n"),
            (None, None) => panic!("{line} stands before any command"),
        }
    }
    commands
}

/// All but the build, by a shell, in a folder with a copy of the samples.
#[test]
fn the_section_shows_what_is_printed() {
    let folder = Folder::new("readme");
    std::fs::create_dir(folder.path("samples")).unwrap();
    for entry in std::fs::read_dir(samples()).unwrap() {
        let name = entry.unwrap().file_name();
        std::fs::copy(samples().join(&name), folder.folder().join("samples").join(&name)).unwrap();
    }
    let shown = shown();
    assert!(shown.len() >= 4, "{shown:?}");
    assert!(shown[0].0.starts_with("cargo build "), "{shown:?}");
    for (command, expected) in &shown[1..] {
        let command = command.replace("host/target/release/tbr", env!("CARGO_BIN_EXE_tbr"));
        let mut shell = Command::new("sh");
        let output = shell.args(["-c", &command]).current_dir(folder.folder()).output().unwrap();
        assert_eq!(String::from_utf8(output.stderr).unwrap(), "", "{command}");
        let printed = String::from_utf8(output.stdout).unwrap();
        assert_eq!(printed.trim_end(), expected.trim_end(), "{command}");
    }
}

/// The README and the documents.
fn documents() -> Vec<PathBuf> {
    let root = Path::new(env!("CARGO_MANIFEST_DIR")).join("..");
    let docs = root.join("docs");
    let mut all = vec![root.join("README.md")];
    for folder in [docs.join("changes"), docs] {
        let entries = std::fs::read_dir(folder).unwrap().map(|entry| entry.unwrap().path());
        all.extend(entries.filter(|path| path.extension().is_some_and(|end| end == "md")));
    }
    all
}

/// Every relative link names a file or a folder, from where its document stands.
#[test]
fn links_lead_somewhere() {
    let mut links = 0;
    for document in documents() {
        let text = std::fs::read_to_string(&document).unwrap();
        let targets = text.split("](").skip(1).filter_map(|rest| rest.split_once(')'));
        for target in targets.map(|(target, _)| target.split('#').next().unwrap_or("")) {
            if target.is_empty() || target.contains("://") {
                continue;
            }
            let path = document.parent().unwrap().join(target);
            assert!(path.exists(), "{}: {target}", document.display());
            links += 1;
        }
    }
    assert!(links >= 40, "{links} links");
}
