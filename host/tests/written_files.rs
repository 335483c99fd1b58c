//! `tbr make`: no file is lost. What is written is written whole or not at all, never over the
//! input, and over another file only where that is asked for.

mod cli;

use cli::{answer, run, run_with_input, sample, samples, tbr, text, Folder};
use std::ffi::{OsStr, OsString};
use std::fs::{self, hard_link, Permissions};
use std::os::unix::ffi::{OsStrExt, OsStringExt};
use std::os::unix::fs::{symlink, MetadataExt, PermissionsExt};
use std::os::unix::process::ExitStatusExt;
use std::path::Path;
use std::process::{Child, Command, Output, Stdio};

/// Exit status 3, nothing on standard output, and these words.
fn not_written<T: AsRef<OsStr> + std::fmt::Debug>(words: &[T], why: &str) {
    let (status, out, error) = run(words);
    assert_eq!((status, out.as_str()), (3, ""), "{words:?}: {error}");
    assert!(error.contains(why), "{words:?}: {error}");
}

const ITS_INPUT: &str = "this is the input itself, which is not written over";

#[test]
fn the_input_is_never_written_over() {
    let folder = Folder::new("input");
    let (form, file) = (text("case-a.txt"), sample("case-a.tbr"));
    let (text, binary) = (folder.file("a.txt", &form), folder.file("a.tbr", &file));
    for (input, name) in [(&text, "txt"), (&binary, "tbr")] {
        hard_link(input, folder.path(&format!("hard.{name}"))).unwrap();
        symlink(input, folder.path(&format!("soft.{name}"))).unwrap();
        symlink(format!("soft.{name}"), folder.path(&format!("far.{name}"))).unwrap();
    }
    fs::create_dir(folder.path("below")).unwrap();
    for alias in ["a", "hard", "soft", "far", "./a", "below/../a"] {
        for force in [&[][..], &["--force"]] {
            let make = ["make", &text, &folder.path(&format!("{alias}.txt"))];
            not_written(&[&make, force].concat(), ITS_INPUT);
            let back = ["make", "--back", &binary, &folder.path(&format!("{alias}.tbr"))];
            not_written(&[&back, force].concat(), ITS_INPUT);
            // The other way round: read by the other name.
            let back = ["make", "--back", &folder.path(&format!("{alias}.tbr")), &binary];
            not_written(&[&back, force].concat(), ITS_INPUT);
        }
    }
    assert_eq!(fs::read_to_string(&text).unwrap(), form);
    assert_eq!(fs::read(&binary).unwrap(), file);
}

/// Standard input and standard output may be the input too.
#[test]
fn streams_of_the_input_are_not_written_over() {
    let folder = Folder::new("streams");
    let form = text("case-a.txt");
    let text = folder.file("a.txt", &form);
    let (status, _, error) = run_with_input(&["make", "--force", "-", &text], &text);
    assert!(status == 3 && error.contains(ITS_INPUT), "{error}");
    let append = fs::OpenOptions::new().append(true).open(&text).unwrap();
    let output = tbr(&["make", &text, "-"]).stdout(append).output().unwrap();
    let error = String::from_utf8(output.stderr).unwrap();
    assert!(output.status.code() == Some(3) && error.contains(ITS_INPUT), "{error}");
    assert_eq!(fs::read_to_string(&text).unwrap(), form);
}

#[test]
fn another_file_only_by_force() {
    let folder = Folder::new("force");
    let old = sample("forest-road.tbr");
    let file = folder.file("old.tbr", &old);
    let why = "old.tbr: there is such a file; --force writes over it";
    not_written(&["make", "case-a.txt", &file], why);
    assert_eq!(fs::read(&file).unwrap(), old);
    let (status, said, _) = run(&["make", "--force", "case-a.txt", &file]);
    assert_eq!((status, said), (0, format!("{file}: survey of 1 member, version 1\n")));
    assert_eq!(fs::read(&file).unwrap(), sample("case-a.tbr"));

    let notes = folder.file("notes.txt", "notes of a walk\n");
    not_written(&["make", "--back", "case-a.tbr", &notes], "--force writes over it");
    assert_eq!(fs::read_to_string(&notes).unwrap(), "notes of a walk\n");
    assert_eq!(run(&["make", "--back", "case-a.tbr", &notes, "--force"]).0, 0);
    assert!(fs::read_to_string(&notes).unwrap().starts_with("survey\nstringer"));
    assert_eq!(folder.names(), ["notes.txt", "old.tbr"], "nothing else is left");
}

const TRAILER: &str = "transformer-trailer.tbv";

/// A vehicle replaces another, of whatever versions.
#[test]
fn vehicles_of_both_versions_replace_each_other() {
    let folder = Folder::new("replaced");
    for (old, new) in [("lorry", "transformer-trailer"), ("transformer-trailer", "lorry")] {
        let [old_file, new_file] = [old, new].map(|name| sample(&format!("{name}.tbv")));
        let file = folder.file("old.tbv", &old_file);
        not_written(&["make", &format!("{new}.txt"), &file], "--force writes over it");
        assert_eq!(fs::read(&file).unwrap(), old_file);
        assert_eq!(run(&["make", "--force", &format!("{new}.txt"), &file]).0, 0);
        assert_eq!(fs::read(&file).unwrap(), new_file);
    }
}

/// Not even by force, be they files or text forms.
#[test]
fn a_vehicle_does_not_replace_a_survey() {
    let folder = Folder::new("sorts");
    for (other, from, back, what) in [
        ("case-a.tbr", "lorry.txt", "lorry.tbv", "this is a survey; a vehicle does not"),
        ("case-a.txt", "lorry.txt", "lorry.tbv", "this is a survey; a vehicle does not"),
        ("lorry.tbv", "case-a.txt", "case-a.tbr", "this is a vehicle; a survey does not"),
        ("lorry.txt", "case-a.txt", "case-a.tbr", "this is a vehicle; a survey does not"),
        (TRAILER, "case-a.txt", "case-a.tbr", "this is a vehicle; a survey does not"),
        ("transformer-trailer.txt", "ordered.txt", "ordered.tbr", "this is a vehicle; a survey"),
        ("ordered.tbr", "transformer-trailer.txt", TRAILER, "this is a survey; a vehicle does not"),
        ("yard.tby", "transformer-trailer.txt", TRAILER, "this is a yard; a vehicle does not"),
    ] {
        let old = folder.file("old", sample(other));
        not_written(&["make", "--force", from, &old], what);
        not_written(&["make", "--force", "--back", back, &old], what);
        assert_eq!(fs::read(&old).unwrap(), sample(other));
    }
}

#[test]
fn the_old_files_permissions_stay() {
    let folder = Folder::new("permissions");
    for mode in [0o600, 0o640, 0o664, 0o444] {
        let file = folder.file("old.tbr", sample("forest-road.tbr"));
        fs::set_permissions(&file, Permissions::from_mode(mode)).unwrap();
        let before = fs::metadata(&file).unwrap();
        assert_eq!(run(&["make", "--force", "case-a.txt", &file]).0, 0);
        let after = fs::metadata(&file).unwrap();
        assert_eq!(after.permissions().mode() & 0o7777, mode);
        assert_eq!((after.uid(), after.gid()), (before.uid(), before.gid()));
        assert_eq!(fs::read(&file).unwrap(), sample("case-a.tbr"));
        fs::remove_file(&file).unwrap();
    }
    // A new file has those of any other new file.
    let (new, other) = (folder.path("new.tbr"), folder.file("other", ""));
    assert_eq!(run(&["make", "case-a.txt", &new]).0, 0);
    let mode = |name: &str| fs::metadata(name).unwrap().permissions().mode();
    assert_eq!(mode(&new), mode(&other));
}

/// The link stays a link, and its target is replaced beside itself.
#[test]
fn symbolic_links_are_followed() {
    let folder = Folder::new("links");
    fs::create_dir(folder.path("store")).unwrap();
    let target = folder.file("store/old.tbr", sample("forest-road.tbr"));
    let link = folder.path("link.tbr");
    symlink("store/old.tbr", &link).unwrap();
    not_written(&["make", "case-a.txt", &link], "--force writes over it");
    assert_eq!(run(&["make", "--force", "case-a.txt", &link]).0, 0);
    assert!(fs::symlink_metadata(&link).unwrap().is_symlink());
    assert_eq!(fs::read(&target).unwrap(), sample("case-a.tbr"));

    // A link to what is not there yet.
    let link = folder.path("new.tbr");
    symlink("store/new.tbr", &link).unwrap();
    assert_eq!(run(&["make", "case-a.txt", &link]).0, 0);
    assert!(fs::symlink_metadata(&link).unwrap().is_symlink());
    assert_eq!(fs::read(folder.path("store/new.tbr")).unwrap(), sample("case-a.tbr"));

    let round = folder.path("round");
    symlink("round", &round).unwrap();
    not_written(&["make", "case-a.txt", &round], "cannot be written");
}

#[test]
fn folders_and_missing_folders() {
    let folder = Folder::new("folders");
    let path = folder.folder().to_str().unwrap();
    not_written(&["make", "--force", "case-a.txt", path], "cannot be written: is a directory");
    not_written(&["make", "case-a.txt", &folder.path("no/such.tbr")], "cannot be written");
    not_written(&["make", "case-a.txt", &folder.path("new.tbr/")], "cannot be written");
    assert_eq!(folder.names(), [""; 0]);
}

/// A name without a folder is of the current one.
#[test]
fn a_bare_name() {
    let folder = Folder::new("bare");
    let text = folder.file("a.txt", text("case-a.txt"));
    for words in [&["make", &text, "a.tbr"][..], &["make", "--force", &text, "a.tbr"]] {
        let said = answer(tbr(words).current_dir(folder.folder()));
        assert_eq!(said, (0, "a.tbr: survey of 1 member, version 1\n".to_string(), String::new()));
        assert_eq!(fs::read(folder.path("a.tbr")).unwrap(), sample("case-a.tbr"));
        assert_eq!(folder.names(), ["a.tbr", "a.txt"]);
    }
}

/// Of several that make a new file at once, one does; the others find it there.
#[test]
fn one_of_several_at_once() {
    let folder = Folder::new("at-once");
    for round in 0..10 {
        let file = folder.path(&format!("{round}.tbr"));
        let start = |_| {
            let mut command = tbr(&["make", "case-a.txt", &file]);
            command.stdout(Stdio::null()).stderr(Stdio::null()).spawn().unwrap()
        };
        let children: Vec<Child> = (0..6).map(start).collect();
        let done = children.into_iter().map(|mut child| child.wait().unwrap().success());
        assert_eq!(done.filter(|done| *done).count(), 1);
        assert_eq!(fs::read(&file).unwrap(), sample("case-a.tbr"));
    }
    assert_eq!(folder.names().len(), 10, "no temporary file is left");
}

/// `tbr` in a shell that lets no file grow: as on a full disk, the write fails, and where the
/// signal is not ignored, the program is killed in the middle of it.
fn without_room(ignored: bool, words: &[&str]) -> Output {
    let script = match ignored {
        true => "trap '' XFSZ; ulimit -f 0; exec \"$@\"",
        false => "ulimit -c 0; ulimit -f 0; exec \"$@\"",
    };
    let mut command = Command::new("sh");
    command.args(["-c", script, "sh", env!("CARGO_BIN_EXE_tbr")]).args(words);
    command.current_dir(samples()).output().unwrap()
}

#[test]
fn without_room_the_old_file_stays() {
    let folder = Folder::new("full");
    let old = sample("forest-road.tbr");
    let file = folder.file("old.tbr", &old);
    let new = folder.path("new.tbr");
    for words in [["make", "--force", "case-a.txt", &file], ["make", "--force", "case-a.txt", &new]]
    {
        let output = without_room(true, &words);
        let error = String::from_utf8(output.stderr).unwrap();
        assert_eq!((output.status.code(), output.stdout.len()), (Some(3), 0), "{error}");
        assert!(error.contains("cannot be written: File too large"), "{error}");
        assert_eq!(fs::read(&file).unwrap(), old);
        assert_eq!(folder.names(), ["old.tbr"], "no temporary file is left");
    }
    let text = folder.file("old.txt", text("forest-road.txt"));
    let output = without_room(true, &["make", "--back", "--force", "case-a.tbr", &text]);
    assert_eq!(output.status.code(), Some(3));
    assert_eq!(fs::read(&text).unwrap(), sample("forest-road.txt"));
}

#[test]
fn killed_while_writing_the_old_file_stays() {
    let folder = Folder::new("killed");
    let old = sample("forest-road.tbr");
    let file = folder.file("old.tbr", &old);
    let output = without_room(false, &["make", "--force", "case-a.txt", &file]);
    assert!(output.status.signal().is_some(), "{:?}", output.status);
    assert_eq!(fs::read(&file).unwrap(), old);
}

/// A name that is no UTF-8 is opened and written as it is.
#[test]
fn names_of_any_bytes() {
    let folder = Folder::new("names");
    let name = |bytes: &[u8]| folder.folder().join(OsStr::from_bytes(bytes)).into_os_string();
    let [file, text, again] =
        [&b"br\xfccke.tbr"[..], b"br\xfccke.txt", b"br\xff\n\"ke.tbr"].map(name);
    let words = |words: &[&str], names: &[&OsString]| -> Vec<OsString> {
        let words = words.iter().map(OsString::from);
        words.chain(names.iter().map(|name| name.to_os_string())).collect()
    };
    let (status, said, _) = run(&words(&["make", "case-a.txt"], &[&file]));
    assert_eq!(status, 0);
    assert!(said.ends_with("br\u{fffd}cke.tbr: survey of 1 member, version 1\n"), "{said}");
    assert_eq!(fs::read(&file).unwrap(), sample("case-a.tbr"));
    assert_eq!(run(&words(&["make", "--back"], &[&file, &text])).0, 0);
    assert_eq!(run(&words(&["make"], &[&text, &again])).0, 0);
    assert_eq!(fs::read(&again).unwrap(), sample("case-a.tbr"));
    assert_eq!(run(&words(&["show"], &[&again])).0, 0);
    assert_eq!(run(&words(&["judge"], &[&again, &OsString::from("case-l.tbv")])).0, 0);
    let names = fs::read_dir(folder.folder()).unwrap().map(|entry| entry.unwrap().file_name());
    let mut names: Vec<Vec<u8>> = names.map(OsString::into_vec).collect();
    names.sort();
    assert_eq!(names, [&b"br\xfccke.tbr"[..], b"br\xfccke.txt", b"br\xff\n\"ke.tbr"]);
}

/// The bytes that `tbr` prints.
fn printed(command: &mut Command) -> Vec<u8> {
    let Output { status, stdout, stderr } = command.output().unwrap();
    assert_eq!((status.code(), stderr.len()), (Some(0), 0));
    stdout
}

#[test]
fn a_dash_is_standard_input_or_output() {
    let input = |name: &str| fs::File::open(samples().join(name)).unwrap();
    let file = sample("case-a.tbr");
    assert_eq!(printed(tbr(&["make", "-", "-"]).stdin(input("case-a.txt"))), file);
    assert_eq!(printed(&mut tbr(&["make", "case-a.txt", "-"])), file);
    assert_eq!(printed(&mut tbr(&["make", "--", "case-a.txt", "-"])), file);
    let form = printed(&mut tbr(&["make", "--back", "case-a.tbr"]));
    assert_eq!(printed(&mut tbr(&["make", "--back", "case-a.tbr", "-"])), form);
    assert_eq!(printed(tbr(&["make", "--back", "-", "-"]).stdin(input("case-a.tbr"))), form);

    let (_, shown, _) = run(&["show", "case-a.tbr"]);
    let shown = shown.replace("case-a.tbr", "standard input");
    assert_eq!(run_with_input(&["show", "-"], "case-a.tbr"), (0, shown, String::new()));
    let judged = run(&["judge", "case-a.tbr", "case-l.tbv"]);
    assert_eq!(run_with_input(&["judge", "-", "case-l.tbv"], "case-a.tbr"), judged);
    assert_eq!(run_with_input(&["judge", "case-a.tbr", "-"], "case-l.tbv"), judged);
}

/// A device or pipe has no old bytes: it is written as it is, standard output's name too, even
/// where that is a file.
#[test]
fn devices_and_the_name_of_standard_output() {
    let file = sample("case-a.tbr");
    assert_eq!(printed(&mut tbr(&["make", "case-a.txt", "/dev/stdout"])), file);
    let folder = Folder::new("devices");
    let kept = fs::File::create(folder.path("kept.tbr")).unwrap();
    let output = tbr(&["make", "case-a.txt", "/dev/stdout"]).stdout(kept).output().unwrap();
    assert_eq!((output.status.code(), output.stderr.len()), (Some(0), 0));
    assert_eq!(fs::read(folder.path("kept.tbr")).unwrap(), file);
    assert_eq!(folder.names(), ["kept.tbr"]);
    assert_eq!(run(&["make", "case-a.txt", "/dev/null"]).0, 0);
    assert!(!Path::new("/dev/null").metadata().unwrap().is_file());
    not_written(&["make", "case-a.txt", "/dev/full"], "/dev/full: cannot be written: No space");
}

/// What standard output does not take is said on standard error.
#[test]
fn a_full_standard_output() {
    for words in [
        &["--help"][..],
        &["--version"],
        &["show", "case-a.tbr"],
        &["judge", "case-a.tbr", "case-l.tbv"],
        &["judge", "case-a.tbr", "lorry.tbv"],
        &["judge", "--json", "case-a.tbr", "lorry.tbv"],
        &["make", "--back", "case-a.tbr"],
        &["make", "case-a.txt", "-"],
    ] {
        let full = fs::OpenOptions::new().write(true).open("/dev/full").unwrap();
        let output = tbr(words).stdout(Stdio::from(full)).output().unwrap();
        let error = String::from_utf8(output.stderr).unwrap();
        assert_eq!(output.status.code(), Some(3), "{words:?}");
        let said = "tbr: standard output: cannot be written: No space left on device";
        assert!(error.starts_with(said), "{words:?}: {error}");
    }
    assert_eq!(answer(&mut tbr(&["--version"])).0, 0);
}
