//! `make install`: what it installs runs wherever it is put, with nothing of the repository and an
//! empty environment.

mod cli;

use cli::{answer, sample, Folder};
use std::path::Path;
use std::process::Command;

fn install(prefix: &Path) {
    let root = Path::new(env!("CARGO_MANIFEST_DIR")).join("..");
    let mut make = Command::new("make");
    make.arg("install").arg(format!("PREFIX={}", prefix.display())).current_dir(root);
    // The options of a make that this test may run under are not this one's.
    make.env_remove("MAKEFLAGS").env_remove("MAKELEVEL");
    let (status, _, errors) = answer(&mut make);
    assert_eq!(status, 0, "{errors}");
}

#[test]
fn it_runs_from_another_place() {
    let folder = Folder::new("installed");
    let prefix = folder.folder().join("prefix");
    install(&prefix);
    for file in ["include/tbr.h", "lib/libjudgement.a", "lib/libexports.a"] {
        assert!(prefix.join(file).is_file(), "{file}");
    }
    let elsewhere = folder.folder().join("elsewhere");
    std::fs::create_dir(&elsewhere).unwrap();
    std::fs::copy(prefix.join("bin/tbr"), elsewhere.join("tbr-copy")).unwrap();
    std::fs::remove_dir_all(&prefix).unwrap();
    let survey = folder.file("elsewhere/a.tbr", sample("case-a.tbr"));
    let vehicle = folder.file("elsewhere/l.tbv", sample("case-l.tbv"));
    let mut copy = Command::new(elsewhere.join("tbr-copy"));
    copy.args(["judge", &survey, &vehicle]).env_clear().current_dir("/");
    let (status, table, errors) = answer(&mut copy);
    assert_eq!((status, errors.as_str()), (0, ""));
    assert!(table.contains("figure     1720 kgf/m\n"), "{table}");
    assert!(table.contains("  1720           1200 "), "{table}");
}

/// No path of the repository is compiled in.
#[test]
fn it_names_no_path_of_the_repository() {
    let program = std::fs::read(env!("CARGO_BIN_EXE_tbr")).unwrap();
    let root = Path::new(env!("CARGO_MANIFEST_DIR")).parent().unwrap();
    let root = root.to_str().unwrap().as_bytes();
    assert!(!program.windows(root.len()).any(|window| window == root));
}
