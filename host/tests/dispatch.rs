//! The README's section 'How a host calls it': its example is examples/dispatch.rs, and that does
//! what the section says.

mod cli;

use cli::{answer, sample, Folder};
use std::path::Path;
use std::process::Command;

const HOST: &str = env!("CARGO_MANIFEST_DIR");

fn text(path: &str) -> String {
    std::fs::read_to_string(Path::new(HOST).join(path)).unwrap()
}

/// The text between a fence of this kind and the next one.
fn block(text: &str, fence: &str) -> String {
    let (_, rest) = text.split_once(fence).unwrap();
    rest.split_once("```").unwrap().0.to_string()
}

fn section() -> String {
    let readme = text("../README.md");
    let (_, section) = readme.split_once("\n## How a host calls it\n").unwrap();
    section.split("\n## ").next().unwrap().to_string()
}

/// Runs the example, built as this test is, in a folder.
fn dispatch(folder: &Path) -> (i32, String, String) {
    let mut cargo = Command::new(env!("CARGO"));
    cargo.args(["run", "--quiet", "--offline", "--example", "dispatch", "--manifest-path"]);
    cargo.arg(Path::new(HOST).join("Cargo.toml")).current_dir(folder);
    if !cfg!(debug_assertions) {
        cargo.arg("--release");
    }
    answer(&mut cargo)
}

#[test]
fn the_section_has_the_example() {
    let example = text("examples/dispatch.rs");
    let (_, code) = example.split_once("\n\n").unwrap();
    assert_eq!(block(&section(), "```rust\n"), code);
}

#[test]
fn the_section_shows_what_it_prints() {
    let (status, printed, errors) = dispatch(&Path::new(HOST).join(".."));
    assert_eq!((status, errors.as_str()), (0, ""));
    assert_eq!(block(&section(), "```text\n"), printed);
}

/// `?` in main says a refusal in words.
#[test]
fn a_refusal_is_said_in_words() {
    let folder = Folder::new("dispatch");
    std::fs::create_dir(folder.path("samples")).unwrap();
    let mut survey = sample("forest-road.tbr");
    survey[6] = 9;
    folder.file("samples/forest-road.tbr", &survey);
    folder.file("samples/lorry.tbv", sample("lorry.tbv"));
    let (status, printed, errors) = dispatch(folder.folder());
    assert_eq!((status, printed.as_str()), (1, ""));
    let refusal = tbr::judge(&survey, &sample("lorry.tbv")).unwrap_err();
    assert_eq!(errors, format!("Error: {refusal}\n"));
    assert!(errors.contains("survey refused, number 4 at member 1: "), "{errors}");
}
