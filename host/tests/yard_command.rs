//! `tbr yard`, `tbr make --yard` and `tbr show` of a yard: what they print, their exit status, and
//! that no file is lost.

mod cli;

use cli::{answer, run, run_with_input, sample, samples, tbr, text, Folder};
use std::fs;
use tbr::file::join_yard;

/// A yard of these files in a folder.
fn yard(folder: &Folder, name: &str, files: &[Vec<u8>]) -> String {
    folder.file(name, join_yard(files).unwrap())
}

/// Case L and the lorry, in turn.
fn vehicles(count: usize) -> Vec<Vec<u8>> {
    let both = [sample("case-l.tbv"), sample("lorry.tbv")];
    both.into_iter().cycle().take(count).collect()
}

#[test]
fn a_row_for_each_vehicle() {
    let expected = "\
vehicle  figure kgf/m  governing member    verdict
      1          1720  1, stringer         pass
      2          1720  1, stringer         refuse: member 1

1 of 2 vehicles pass
";
    for survey in ["case-a.tbr", "case-a.txt"] {
        let printed = run(&["yard", survey, "yard.tby"]);
        assert_eq!(printed, (1, expected.to_string(), String::new()));
    }
    assert_eq!(run_with_input(&["yard", "-", "yard.tby"], "case-a.tbr").1, expected);
    assert_eq!(run_with_input(&["yard", "case-a.tbr", "-"], "yard.tby").1, expected);
    assert_eq!(answer(tbr(&["yard", "case-a.tbr", "yard.tby"]).env_clear()).1, expected);
}

#[test]
fn the_status_is_that_of_the_worst_vehicle() {
    let folder = Folder::new("yard-status");
    let (light, heavy) = (sample("case-l.tbv"), sample("lorry.tbv"));
    for (files, status, last) in [
        (vec![light.clone()], 0, "1 of 1 vehicles pass\n"),
        (vec![heavy.clone()], 1, "0 of 1 vehicles pass\n"),
        (vec![heavy, light], 1, "1 of 2 vehicles pass\n"),
        (vehicles(32), 1, "16 of 32 vehicles pass\n"),
    ] {
        let rows = files.len();
        let printed = run(&["yard", "case-a.tbr", &yard(&folder, "a.tby", &files)]);
        assert_eq!((printed.0, printed.2.as_str()), (status, ""));
        assert!(printed.1.ends_with(&format!("\n\n{last}")), "{}", printed.1);
        assert_eq!(printed.1.lines().count(), rows + 3);
    }
    let (status, table, _) = run(&["yard", "forest-road.tbr", "yard.tby"]);
    assert!(status == 0 && table.ends_with("\n2 of 2 vehicles pass\n"), "{table}");
}

/// Each vehicle's answer is that of `tbr judge` with its file.
#[test]
fn csv_is_that_of_each_vehicle_alone() {
    let (_, alone, _) = run(&["judge", "--csv", "forest-road.tbr", "case-l.tbv", "lorry.tbv"]);
    let named = alone.replace(",case-l.tbv,", ",1,").replace(",lorry.tbv,", ",2,");
    let printed = run(&["yard", "--csv", "forest-road.tbr", "yard.tby"]);
    assert_eq!(printed, (0, named, String::new()));
}

#[test]
fn json_of_a_yard() {
    let (status, alone, _) = run(&["judge", "--json", "case-a.tbr", "case-l.tbv", "lorry.tbv"]);
    let (_, judgements) = alone.split_once("\"judgements\": ").unwrap();
    let numbered = judgements.replace("\"case-l.tbv\"", "1").replace("\"lorry.tbv\"", "2");
    let expected = "{\"survey\": \"case-a.tbr\", \"yard\": \"yard.tby\", \"error\": null, \
                    \"faulty\": null, \"passes\": 1, \"judgements\": ";
    let printed = run(&["yard", "--json", "case-a.tbr", "yard.tby"]);
    assert_eq!(printed, (status, format!("{expected}{numbered}"), String::new()));
}

/// The vehicle in the yard, its own number, the axle and the field.
#[test]
fn a_refused_vehicle_is_named() {
    let folder = Folder::new("yard-refused");
    let mut files = vehicles(5);
    files[3][9 + 4..][..2].copy_from_slice(&[0, 0]);
    files[4][0] = b'?';
    let faulty = yard(&folder, "faulty.tby", &files);
    let message = "vehicle 4 refused, number 7 at axle 2: weight: 0 is outside 1 to 60000 kgf";
    let lines = format!("tbr: {faulty}: {message}\ntbr: its numbers: weight 0, distance 380\n");
    assert_eq!(run(&["yard", "case-a.tbr", &faulty]), (2, String::new(), lines.clone()));
    assert_eq!(run(&["show", &faulty]), (2, String::new(), lines));
    let (status, csv, error) = run(&["yard", "--csv", "case-a.tbr", &faulty]);
    assert_eq!((status, error.as_str(), csv.lines().count()), (2, "", 2));
    let line = format!("\ncase-a.tbr,4,error,,,,,{faulty},7,2,\"{message}\"\n");
    assert!(csv.ends_with(&line), "{csv}");
    let (status, json, error) = run(&["yard", "--json", "case-a.tbr", &faulty]);
    assert_eq!((status, error.as_str()), (2, ""));
    let expected = format!(
        "{{\"survey\": \"case-a.tbr\", \"yard\": \"{faulty}\", \"error\": {{\"file\": \
         \"{faulty}\", \"status\": 2, \"number\": 7, \"place\": 2, \"faults\": [{{\"line\": null, \
         \"field\": \"weight\", \"problem\": \"0 is outside 1 to 60000 kgf\"}}], \"message\": \
         \"{message}\", \"hint\": null}}, \"faulty\": 4, \"passes\": null, \"judgements\": []}}\n"
    );
    assert_eq!(json, expected);
}

#[test]
fn a_refused_yard_is_explained() {
    let folder = Folder::new("yard-explained");
    let whole = sample("yard.tby");
    let length = "it is empty, or bytes are left over behind its last vehicle";
    let count = "its count of vehicles is not 1 to 32";
    for (bytes, words) in [
        (vec![], format!("yard refused, number 1: {length}")),
        ([&whole[..], &[0]].concat(), format!("yard refused, number 1: {length}")),
        ([&[1], &whole[1..]].concat(), format!("yard refused, number 1: {length}")),
        ([&[0], &whole[1..]].concat(), format!("yard refused, number 3: {count}")),
        ([&[33], &whole[1..]].concat(), format!("yard refused, number 3: {count}")),
        (whole[..20].to_vec(), "vehicle 2 refused, number 1: its length is not".to_string()),
        ([&[3], &whole[1..]].concat(), "vehicle 3 refused, number 1: its length".to_string()),
    ] {
        let name = folder.file("wrong.tby", bytes);
        let (status, out, error) = run(&["yard", "case-a.tbr", &name]);
        assert_eq!((status, out.as_str()), (2, ""));
        assert!(error.starts_with(&format!("tbr: {name}: {words}")), "{error}");
    }
    let (status, csv, _) = run(&["yard", "--csv", "case-a.tbr", &folder.file("empty.tby", "")]);
    assert!(status == 2 && csv.contains("\ncase-a.tbr,,error,,,,,"), "{csv}");
    for words in [["yard", "no-such", "yard.tby"], ["yard", "case-a.tbr", "no-such"]] {
        let (status, out, error) = run(&words);
        assert_eq!((status, out.as_str()), (3, ""));
        assert!(error.starts_with("tbr: no-such: cannot be read: "), "{error}");
    }
}

/// The survey's refusal comes before the yard's.
#[test]
fn a_refused_survey() {
    let folder = Folder::new("yard-survey");
    let cut = folder.file("cut.tbr", &sample("case-a.tbr")[..20]);
    let empty = folder.file("empty.tby", "");
    let (status, out, error) = run(&["yard", &cut, &empty]);
    assert_eq!((status, out.as_str()), (2, ""));
    assert!(error.starts_with(&format!("tbr: {cut}: survey refused, number 1: ")), "{error}");
    let (_, json, _) = run(&["yard", "--json", &cut, &empty]);
    assert!(json.contains(&format!("\"error\": {{\"file\": \"{cut}\"")), "{json}");
    assert!(json.contains("\"faulty\": null, \"passes\": null, \"judgements\": []"), "{json}");
}

#[test]
fn other_files_get_a_hint() {
    let vehicle = "'tbr judge' judges it, 'tbr make --yard' makes a yard";
    let order = "the order is: tbr yard SURVEY YARD";
    for (words, first, hint) in [
        (["yard", "case-a.tbr", "lorry.tbv"], "yard refused, number 3: ", vehicle),
        (["yard", "case-a.tbr", "lorry.txt"], "the text form of a vehicle, not a yard", vehicle),
        (["yard", "case-a.tbr", "case-a.tbr"], "yard refused, number 3: ", order),
        (["yard", "case-a.tbr", "case-a.txt"], "the text form of a survey, not a yard", order),
    ] {
        let (status, out, error) = run(&words);
        assert_eq!((status, out.as_str()), (2, ""));
        assert!(error.starts_with(&format!("tbr: {}: {first}", words[2])), "{error}");
        assert!(error.ends_with(&format!("; {hint}\n")), "{error}");
    }
    let (status, _, error) = run(&["yard", "lorry.tbv", "yard.tby"]);
    assert!(status == 2 && error.ends_with(&format!("is a vehicle; {order}\n")), "{error}");
    for words in [["judge", "case-a.tbr", "yard.tby"], ["judge", "yard.tby", "lorry.tbv"]] {
        let (status, _, error) = run(&words);
        let hint = "hint: yard.tby is a yard; 'tbr yard SURVEY YARD' judges it\n";
        assert!(status == 2 && error.ends_with(hint), "{error}");
    }
    let (status, _, error) = run(&["make", "--back", "yard.tby"]);
    let expected = "tbr: yard.tby: a yard, which has no text form\n\
                    tbr: hint: 'tbr show yard.tby' shows its vehicles\n";
    assert_eq!((status, error.as_str()), (2, expected));
    let folder = Folder::new("yard-hint");
    let (status, _, error) = run(&["make", "yard.tby", &folder.path("new.tbv")]);
    assert_eq!((status, error.as_str()), (2, "tbr: yard.tby: a yard, not a text form\n"));
    assert_eq!(folder.names(), [""; 0]);
}

#[test]
fn show_names_each_vehicle() {
    let of = |name| run(&["show", name]).1;
    let (case_l, lorry) = (of("case-l.tbv"), of("lorry.tbv"));
    let case_l = case_l.replace("case-l.tbv: ", "1: ");
    let lorry = lorry.replace("lorry.tbv: ", "2: ");
    let expected = format!("yard.tby: yard of 2 vehicles\n{case_l}{lorry}");
    assert_eq!(run(&["show", "yard.tby"]), (0, expected, String::new()));
}

#[test]
fn make_joins_files_and_text_forms() {
    let folder = Folder::new("yard-make");
    let new = folder.path("new.tby");
    for words in [["case-l.tbv", "lorry.tbv"], ["case-l.txt", "lorry.tbv"]] {
        let (status, said, error) = run(&[&["make", "--yard"], &words[..], &[&new]].concat());
        assert_eq!((status, error.as_str()), (0, ""));
        assert_eq!(said, format!("{new}: yard of 2 vehicles\n"));
        assert_eq!(fs::read(&new).unwrap(), sample("yard.tby"));
        fs::remove_file(&new).unwrap();
    }
    let (status, said, _) = run(&[&["make", "--yard"], &["lorry.tbv"; 32][..], &[&new]].concat());
    assert_eq!((status, said), (0, format!("{new}: yard of 32 vehicles\n")));
    let (status, said, _) = run(&["make", "--force", "--yard", "lorry.txt", &new]);
    assert_eq!((status, said), (0, format!("{new}: yard of 1 vehicle\n")));
    let input = fs::File::open(samples().join("case-l.txt")).unwrap();
    let made = tbr(&["make", "--yard", "-", "lorry.tbv", "-"]).stdin(input).output().unwrap();
    assert_eq!((made.status.code(), made.stdout), (Some(0), sample("yard.tby")));
}

/// All of them that cannot be taken, and no yard.
#[test]
fn make_reports_every_faulty_vehicle() {
    let folder = Folder::new("yard-faults");
    let wrong = folder.file("wrong.txt", text("lorry.txt").replace("track 179", "track 17"));
    let new = folder.path("new.tby");
    let words = ["make", "--yard", "lorry.tbv", "case-a.tbr", &wrong, "no-such", &new];
    let (status, out, error) = run(&words);
    assert_eq!((status, out.as_str()), (3, ""));
    for words in [
        "tbr: case-a.tbr: vehicle refused, number 2: ",
        "case-a.tbr is a survey; the order is: tbr make --yard VEHICLE.. YARD\n",
        "track: 17 is outside 100 to 300 cm\n",
        "tbr: no-such: cannot be read: ",
    ] {
        assert!(error.contains(words), "{error}");
    }
    assert_eq!(folder.names(), ["wrong.txt"]);
}

#[test]
fn no_file_is_lost() {
    let folder = Folder::new("yard-lost");
    let not_written = |words: &[&str], why: &str| {
        let (status, out, error) = run(words);
        assert_eq!((status, out.as_str()), (3, ""), "{words:?}: {error}");
        assert!(error.contains(why), "{words:?}: {error}");
    };
    let one = folder.file("one.tbv", sample("case-l.tbv"));
    let two = folder.file("two.tbv", sample("lorry.tbv"));
    let other = folder.path("other.tbv");
    fs::hard_link(&two, &other).unwrap();
    for output in [&one, &two, &other] {
        for force in [&[][..], &["--force"]] {
            let words = [&["make", "--yard", &one, &two, output], force].concat();
            not_written(&words, "this is the input itself, which is not written over");
        }
    }
    let old = folder.file("old.tby", sample("yard.tby"));
    not_written(&["make", "--yard", &one, &old], "there is such a file; --force writes over it");
    assert_eq!(fs::read(&old).unwrap(), sample("yard.tby"));
    for (name, what) in [
        ("case-a.tbr", "this is a survey; a yard does not take its place"),
        ("case-a.txt", "this is a survey; a yard does not take its place"),
        ("lorry.tbv", "this is a vehicle; a yard does not take its place"),
        ("lorry.txt", "this is a vehicle; a yard does not take its place"),
    ] {
        let old = folder.file("old", sample(name));
        not_written(&["make", "--force", "--yard", &one, &two, &old], what);
        assert_eq!(fs::read(&old).unwrap(), sample(name));
    }
    let words = "this is a yard; a vehicle does not take its place";
    not_written(&["make", "--force", "lorry.txt", &old], words);
    not_written(&["make", "--force", "--back", "lorry.tbv", &old], words);
    let words = "this is a yard; a survey does not take its place";
    not_written(&["make", "--force", "case-a.txt", &old], words);
    assert_eq!(fs::read(&old).unwrap(), sample("yard.tby"));
    assert_eq!(run(&["make", "--force", "--yard", &one, &old]).0, 0);
    assert_eq!(fs::read(&old).unwrap(), join_yard(&[sample("case-l.tbv")]).unwrap());
    let kept = [fs::read(&one).unwrap(), fs::read(&two).unwrap()];
    assert_eq!(kept, [sample("case-l.tbv"), sample("lorry.tbv")]);
}

/// Every column and field that is printed stands in the help page, and the other way round.
#[test]
fn the_help_page_names_them_all() {
    let (_, page, _) = run(&["yard", "--help"]);
    let (csv, json) = page.split_once("--json  one object").unwrap();
    let entries = |text: &str| -> Vec<String> {
        let entry =
            |line: &str| Some(line.strip_prefix("          ")?.split_once("  ")?.0.to_string());
        let names = text.lines().filter_map(entry).filter(|names| !names.is_empty());
        names.flat_map(|names| names.split(", ").map(str::to_string).collect::<Vec<_>>()).collect()
    };
    let (_, csv) = csv.split_once("--csv   ").unwrap();
    let (_, printed, _) = run(&["yard", "--csv", "case-a.tbr", "yard.tby"]);
    let columns: Vec<&str> = printed.lines().next().unwrap().split(',').collect();
    assert_eq!(entries(csv), columns);
    let (_, printed, _) = run(&["yard", "--json", "case-a.tbr", "yard.tby"]);
    for name in entries(json).iter().filter(|name| *name != "the rest") {
        assert!(printed.contains(&format!("\"{name}\": ")), "{name}");
    }
}
