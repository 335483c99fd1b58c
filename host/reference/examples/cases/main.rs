//! Writes what the programs `cases` and `bridge` read in the gate and what they must print, by the
//! reference:
//!
//!     cargo run --release -p reference --example cases -- ../crates

mod between;
mod close_stringers;
mod coupled;
mod crescents;
mod document;
mod edges;
mod gauge;
mod heavier;
mod joined;
mod longer;
mod margins;
mod order;
mod records;
mod state;
mod survey_faults;
mod vehicle_faults;
mod yard;

use reference::script::Script;
use std::path::PathBuf;

/// All cases, in the order of the script.
fn script() -> Script {
    let mut script = Script::default();
    document::cases(&mut script);
    state::cases(&mut script);
    survey_faults::cases(&mut script);
    vehicle_faults::cases(&mut script);
    edges::cases(&mut script);
    crescents::cases(&mut script);
    close_stringers::cases(&mut script);
    yard::cases(&mut script);
    margins::cases(&mut script);
    between::cases(&mut script);
    order::cases(&mut script);
    heavier::cases(&mut script);
    joined::cases(&mut script);
    gauge::cases(&mut script);
    longer::cases(&mut script);
    coupled::cases(&mut script);
    script
}

/// What a program reads and prints.
struct Stored {
    program: &'static str,
    stdin: Vec<u8>,
    stdout: String,
}

/// Of both programs: the script, and the longest survey with a lorry.
fn stored() -> [Stored; 2] {
    let Script { bytes, text, .. } = script();
    let bridge = longer::bridge();
    let lines = reference::lines::printed(&bridge);
    [
        Stored { program: "cases", stdin: bytes, stdout: text },
        Stored { program: "bridge", stdin: bridge, stdout: lines },
    ]
}

fn main() -> std::io::Result<()> {
    let crates = std::env::args().nth(1).expect("the folder of the crates");
    for Stored { program, stdin, stdout } in stored() {
        let folder = PathBuf::from(&crates).join(program);
        std::fs::write(folder.join("stdin"), stdin)?;
        std::fs::write(folder.join("stdout"), stdout)?;
    }
    Ok(())
}

/// The files of both crates are what this program writes, byte by byte.
#[test]
fn the_stored_files_are_these() {
    for Stored { program, stdin, stdout } in stored() {
        let crates = concat!(env!("CARGO_MANIFEST_DIR"), "/../../crates");
        let folder = PathBuf::from(crates).join(program);
        let stored = |name| std::fs::read(folder.join(name)).expect("a stored file");
        assert!(stored("stdin") == stdin, "{program}: another input is stored");
        assert!(stored("stdout") == stdout.as_bytes(), "{program}: other answers are stored");
    }
    assert!(script().bytes.len() < reference::script::SPACE, "cases has no room for its script");
}
