//! The command line `tbr`: what it prints and its exit status.

mod cli;

use cli::{answer, run, sample, tbr, text, Folder};
use std::path::Path;
use tbr::form::{AxleLayout, Field, Value, AXLES, FIRST_VERSION, HEADING, KINDS, ORDER, SECTIONS};
use tbr::Which;

#[test]
fn a_bridge_that_passes() {
    let (status, table, _) = run(&["judge", "case-a.tbr", "case-l.tbv"]);
    let expected = "\
place  member          permitted kgf/m  vehicle kgf/m    margin kgf/m      used  verdict
    1  stringer                   1720           1200             520      70 %  pass

figure     1720 kgf/m
governing  member 1, stringer
verdict    pass
";
    assert_eq!((status, table.as_str()), (0, expected));
}

#[test]
fn a_bridge_that_is_refused() {
    let (status, table, _) = run(&["judge", "case-a.tbr", "lorry.tbv"]);
    assert_eq!(status, 1);
    let row =
        "1  stringer                   1720           2780           -1060     162 %  refuse\n";
    assert!(table.contains(row), "{table}");
    assert!(table.ends_with("\nverdict    refuse: member 1\n"), "{table}");
}

/// Case A with a cross beam, case F, behind it.
const STRINGER_AND_BEAM: &str = "survey
stringer, species pine, span 500 cm, spacing 140 cm, dead load 100 kgf/m, \
section log, diameter 28 cm, rot 0 cm, tiers 1
cross beam, species pine, truss spacing 300 cm, panel length 200 cm, dead load 100 kgf/m, \
section log, diameter 24 cm, rot 0 cm, tiers 1
";

/// The stringer has the figure, and the cross beam has the least margin: it governs, wherever it is
/// named. The margin stands in the table alone.
#[test]
fn the_least_margin_governs() {
    let folder = Folder::new("least-margin");
    let survey = folder.file("bridge.txt", STRINGER_AND_BEAM);
    let axle = "vehicle, class lorry, track 190 cm\naxle, weight 4300 kgf, distance 0 cm\n";
    let vehicle = folder.file("axle.txt", axle);
    let (status, table, _) = run(&["judge", &survey, &vehicle]);
    let expected = "\
place  member          permitted kgf/m  vehicle kgf/m    margin kgf/m      used  verdict
    1  stringer                   1720           1720               0     100 %  pass
    2  cross beam                 1939           2150            -211     111 %  refuse

figure     1720 kgf/m
governing  member 2, cross beam
verdict    refuse: member 2
";
    assert_eq!((status, table.as_str()), (1, expected));
    let (_, csv, _) = run(&["judge", "--csv", &survey, &vehicle]);
    assert!(csv.ends_with(",refuse,1720,2,cross beam,2,,,,\n"), "{csv}");
    let (_, json, _) = run(&["judge", "--json", &survey, &vehicle]);
    assert!(json.contains("\"figure\": 1720, \"governing\": 2, \"refusing\": [2]"), "{json}");
    assert!(!json.contains("\"margin\""), "{json}");
    let yard = folder.path("one.tby");
    assert_eq!(run(&["make", "--yard", &vehicle, &yard]).0, 0);
    let (_, table, _) = run(&["yard", &survey, &yard]);
    assert!(
        table.contains("\n      1          1720  2, cross beam       refuse: member 2\n"),
        "{table}"
    );
}

#[test]
fn all_kinds_by_name() {
    let (status, table, _) = run(&["judge", "forest-road.tbr", "lorry.tbv"]);
    assert_eq!(status, 0);
    for kind in ["stringer", "cross beam", "chord", "dowelled joint", "keyed joint", "steel plates"]
    {
        assert!(table.contains(kind), "{kind}: {table}");
    }
    // The steel plates have the figure.
    let figure = "\nfigure     2916 kgf/m\ngoverning  member 1, stringer\n";
    assert!(table.contains(figure), "{table}");
}

#[test]
fn a_member_that_bears_nothing_has_no_share() {
    let folder = Folder::new("nothing");
    let rotten = folder.file("rotten.txt", text("case-a.txt").replace("rot 0", "rot 8"));
    let survey = folder.path("rotten.tbr");
    assert_eq!(run(&["make", &rotten, &survey]).0, 0);
    let (status, table, _) = run(&["judge", &survey, "case-l.tbv"]);
    assert_eq!(status, 1);
    let row =
        "1  stringer                      0           1200           -1200         -  refuse\n";
    assert!(table.contains(row), "{table}");
}

#[test]
fn refused_files_are_explained() {
    let folder = Folder::new("refused");
    let mut survey = sample("forest-road.tbr");
    survey[6 + 2 * 32] = 9;
    let survey = folder.file("kind.tbr", &survey);
    let (status, out, error) = run(&["judge", &survey, "lorry.tbv"]);
    assert_eq!((status, out.as_str()), (2, ""));
    assert!(error.contains("kind.tbr: survey refused, number 4 at member 3"), "{error}");
    assert!(error.contains("its numbers: kind 9, species 1, l 420, d 0, x 300"), "{error}");

    let mut vehicle = sample("lorry.tbv");
    vehicle[9] = 0;
    vehicle[10] = 0;
    let vehicle = folder.file("light.tbv", &vehicle);
    let (status, _, error) = run(&["judge", "case-a.tbr", &vehicle]);
    assert_eq!(status, 2);
    assert!(error.contains("light.tbv: vehicle refused, number 7 at axle 1"), "{error}");
    assert!(error.contains("its numbers: weight 0, distance 0"), "{error}");

    let empty = folder.file("empty", []);
    assert_eq!(run(&["show", &empty]).0, 2);
    assert_eq!(run(&["judge", &empty, &empty]).0, 2);
}

/// Refusals 7 and 8 name the field, its value and what it may be.
#[test]
fn the_field_at_fault_is_named() {
    let folder = Folder::new("fields");
    let mut survey = sample("case-a.tbr");
    survey[6 + 2 * 2..][..2].copy_from_slice(&99_u16.to_le_bytes());
    let short = folder.file("short.tbr", &survey);
    for words in
        [&["judge", &short, "lorry.tbv"][..], &["show", &short], &["make", "--back", &short]]
    {
        let (status, out, error) = run(words);
        assert_eq!((status, out.as_str()), (2, ""));
        let expected = "short.tbr: survey refused, number 7 at member 1: span (l): 99 is outside \
                        100 to 5000 cm\n";
        assert!(error.contains(expected), "{error}");
    }
    survey[6 + 2 * 4] = 7;
    let (_, _, error) = run(&["show", &folder.file("unused.tbr", &survey)]);
    let expected = "unused.tbr: survey refused, number 8 at member 1: x: 7 must be 0: the kind \
                    'stringer' does not use it\n";
    assert!(error.contains(expected), "{error}");
}

#[test]
fn the_field_of_a_crescent_at_fault_is_named() {
    let folder = Folder::new("crescents");
    let (section, s1, s2, s4) = (7, 8, 9, 11);
    for (word, value, words) in [
        (section, 6, "number 6 at member 1: section: 6 is not one of: 1 log, 2 sawn, 5 crescent"),
        (s1, 37, "number 7 at member 1: diameter (s1): 37 is outside 14 to 36 cm"),
        (s2, 61, "number 7 at member 1: depth (s2): 61 is outside 0 to 60 cm"),
        (s4, 1, "number 8 at member 1: s4: 1 must be 0: the section 'crescent' does not use it"),
    ] {
        let mut survey = sample("crescent.tbr");
        survey[6 + 2 * word] = value;
        let (status, out, error) = run(&["show", &folder.file("wrong.tbr", &survey)]);
        assert_eq!((status, out.as_str()), (2, ""));
        assert!(error.contains(&format!("wrong.tbr: survey refused, {words}\n")), "{error}");
    }
}

#[test]
fn the_field_of_a_close_stringer_at_fault_is_named() {
    let folder = Folder::new("close-stringers");
    let (d, section, s4, b) = (3, 7, 11, 15);
    for (word, value, words) in [
        (section, 5, "number 6 at member 1: section: 5 is not one of: 1 log, 2 sawn"),
        (d, 101, "number 7 at member 1: spacing (d): 101 is outside 30 to 100 cm"),
        (b, 21, "number 7 at member 1: deck rot (B): 21 is outside 0 to 20 cm"),
        (s4, 1, "number 8 at member 1: s4: 1 must be 0: the section 'log' does not use it"),
    ] {
        let mut survey = sample("close-stringers.tbr");
        survey[6 + 2 * word] = value;
        let (status, out, error) = run(&["show", &folder.file("wrong.tbr", &survey)]);
        assert_eq!((status, out.as_str()), (2, ""));
        assert!(error.contains(&format!("wrong.tbr: survey refused, {words}\n")), "{error}");
    }
}

/// A bridge of version 2 whose second member comes before its first: the file is refused, and of
/// its text form the line is named. In version 1 both are taken.
#[test]
fn members_out_of_order() {
    let folder = Folder::new("out-of-order");
    let form = text("forest-road.txt").replace("survey\n", "survey, version 2\n");
    let form = folder.file("wrong.txt", form);
    let mut survey = sample("forest-road.tbr");
    survey[3] = 2;
    let file = folder.file("wrong.tbr", survey);
    let text_fault = format!("tbr: {form}: line 7, span: 300 cm is below the 500 cm of line 5; ");
    let refused = format!(
        "tbr: {file}: survey refused, number 16 at member 2: span (l): 300 cm is below the 500 cm \
         of member 1; "
    );
    let new = folder.path("new.tbr");
    for (words, expected) in [
        (&["judge", &file, "lorry.tbv"][..], &refused),
        (&["show", &file], &refused),
        (&["make", "--back", &file], &refused),
        (&["yard", &file, "yard.tby"], &refused),
        (&["judge", &form, "lorry.tbv"], &text_fault),
        (&["make", &form, &new], &text_fault),
    ] {
        let (status, out, error) = run(words);
        assert_eq!((status, out.as_str()), (2, ""), "{words:?}");
        let said = format!("{expected}from version 2 members stand {ORDER}\n");
        assert!(error.starts_with(&said), "{words:?}: {error}");
    }
    assert_eq!(folder.names(), ["wrong.tbr", "wrong.txt"]);
    for survey in ["forest-road.tbr", "forest-road.txt"] {
        assert_eq!(run(&["judge", survey, "lorry.tbv"]).0, 0, "{survey}");
    }
}

/// The same answers from the file and from its text form.
#[test]
fn a_bridge_of_version_2() {
    let (status, table, error) = run(&["judge", "ordered.tbr", "lorry.tbv"]);
    assert_eq!((status, error.as_str()), (0, ""));
    let figure = "\nfigure     3062 kgf/m\ngoverning  member 2, stringer\n";
    assert!(table.contains(figure), "{table}");
    assert_eq!(run(&["judge", "ordered.txt", "lorry.txt"]), (status, table, error));
    let (_, form, _) = run(&["make", "--back", "ordered.tbr"]);
    assert!(form.starts_with("survey, version 2\nstringer, "), "{form}");
}

#[test]
fn files_in_the_wrong_order_get_a_hint() {
    let order = "the order is: tbr judge SURVEY VEHICLE..\n";
    for (survey, vehicle, first) in [
        ("lorry.tbv", "case-a.tbr", "lorry.tbv: survey refused, number 2: "),
        ("lorry.txt", "case-a.txt", "lorry.txt: the text form of a vehicle, not of a survey\n"),
    ] {
        let (status, out, error) = run(&["judge", survey, vehicle]);
        assert_eq!((status, out.as_str()), (2, ""));
        assert!(error.starts_with(&format!("tbr: {first}")), "{error}");
        assert!(error.ends_with(&format!("hint: {survey} is a vehicle; {order}")), "{error}");
    }
    for survey in ["forest-road.tbr", "forest-road.txt"] {
        let (status, _, error) = run(&["judge", "case-a.tbr", survey]);
        assert_eq!(status, 2);
        assert!(error.ends_with(&format!("hint: {survey} is a survey; {order}")), "{error}");
    }
}

#[test]
fn a_text_form_for_a_file_and_the_reverse_get_a_hint() {
    for words in [&["show", "case-a.txt"][..], &["make", "--back", "case-a.txt"]] {
        let (status, out, error) = run(words);
        assert_eq!((status, out.as_str()), (2, ""));
        let expected = "tbr: case-a.txt: the text form of a survey, not a file\n\
                        tbr: hint: 'tbr make case-a.txt FILE' makes the file of it\n";
        assert_eq!(error, expected);
    }
    let folder = Folder::new("reverse");
    let (status, _, error) = run(&["make", "lorry.tbv", &folder.path("new.tbv")]);
    let expected = "tbr: lorry.tbv: a vehicle file, not a text form\n\
                    tbr: hint: 'tbr make --back lorry.tbv TEXT' writes its text form\n";
    assert_eq!((status, error.as_str()), (2, expected));
    assert_eq!(folder.names(), [""; 0]);
}

#[test]
fn judge_takes_text_forms() {
    let files = run(&["judge", "forest-road.tbr", "lorry.tbv"]);
    assert_eq!(files.0, 0);
    for (survey, vehicle) in [
        ("forest-road.txt", "lorry.tbv"),
        ("forest-road.tbr", "lorry.txt"),
        ("forest-road.txt", "lorry.txt"),
    ] {
        assert_eq!(run(&["judge", survey, vehicle]), files);
    }
    let folder = Folder::new("text-faults");
    let form = text("case-a.txt").replace("span 500", "span 50").replace("tiers 1", "tiers 4");
    let wrong = folder.file("wrong.txt", form);
    let made = run(&["make", &wrong, &folder.path("wrong.tbr")]);
    let expected = format!(
        "tbr: {wrong}: line 3, span: 50 is outside 100 to 5000 cm\n\
         tbr: {wrong}: line 3, tiers: 4 is outside 1 to 3\n"
    );
    assert_eq!(made, (2, String::new(), expected));
    assert_eq!(run(&["judge", &wrong, "lorry.tbv"]), made);
    let letter = folder.file("letter.txt", "Dear colleague\n");
    let (status, _, error) = run(&["judge", &letter, "lorry.tbv"]);
    assert_eq!(status, 2);
    assert!(error.contains("letter.txt: line 1, heading: the first line must be"), "{error}");
}

/// A table for each vehicle, under its name; the verdict names the members that refuse.
#[test]
fn several_vehicles() {
    let one = |vehicle| run(&["judge", "forest-road.tbr", vehicle]).1;
    let (status, tables, error) = run(&["judge", "forest-road.tbr", "lorry.tbv", "case-l.txt"]);
    let expected = format!("lorry.tbv\n{}\ncase-l.txt\n{}", one("lorry.tbv"), one("case-l.txt"));
    assert_eq!((status, tables, error.as_str()), (0, expected, ""));

    let folder = Folder::new("several");
    let heavy = folder.file("heavy.txt", text("lorry.txt").replace("6950", "16950"));
    let (status, table, _) = run(&["judge", "forest-road.tbr", &heavy]);
    assert_eq!(status, 1);
    let refusing: Vec<&str> = table.lines().filter(|line| line.ends_with("  refuse")).collect();
    let places: Vec<&str> =
        refusing.iter().map(|line| line.split_whitespace().next().unwrap()).collect();
    let (last, others) = places.split_last().unwrap();
    assert!(others.len() > 1, "{table}");
    let verdict = format!("\nverdict    refuse: members {} and {last}\n", others.join(", "));
    assert!(table.ends_with(&verdict), "{table}");
}

/// The worst counts, and every other vehicle is still judged.
#[test]
fn the_status_of_several_vehicles() {
    let folder = Folder::new("worst");
    let short = folder.file("short.tbv", &sample("lorry.tbv")[..16]);
    let passing = run(&["judge", "case-a.tbr", "case-l.tbv"]).1;
    for (vehicles, worst, tables) in [
        (&["case-l.tbv", "case-l.txt"][..], 0, 2),
        (&["case-l.tbv", "lorry.tbv"], 1, 2),
        (&["lorry.tbv", "case-l.tbv"], 1, 2),
        (&["lorry.tbv", &short, "case-l.tbv"], 2, 2),
        (&[&short, "case-l.tbv"], 2, 1),
        (&["no-such", &short, "lorry.tbv", "case-l.tbv"], 3, 2),
    ] {
        let (status, out, error) = run(&[&["judge", "case-a.tbr"], vehicles].concat());
        assert_eq!((status, out.matches("verdict    ").count()), (worst, tables), "{vehicles:?}");
        assert!(out.contains(&passing), "{out}");
        assert_eq!(
            error.contains("short.tbv: vehicle refused, number 1: "),
            vehicles.contains(&&short[..])
        );
        assert_eq!(error.contains("no-such: cannot be read"), worst == 3, "{error}");
    }
    let (status, out, _) = run(&["judge", &short, "case-l.tbv", "lorry.tbv"]);
    assert_eq!((status, out.as_str()), (2, ""), "without a survey nothing is judged");
}

#[test]
fn show_names_everything() {
    let (status, text, _) = run(&["show", "case-a.tbr"]);
    let expected = "\
case-a.tbr: survey of 1 member, version 1
  1  stringer: species pine, span 500 cm, spacing 140 cm, dead load 100 kgf/m
     section log: diameter 28 cm, rot 0 cm, tiers 1
";
    assert_eq!((status, text.as_str()), (0, expected));
    let (status, text, _) = run(&["show", "crescent.tbr"]);
    let section = "\n     section crescent: diameter 28 cm, depth 5 cm, tiers 2\n";
    assert!(status == 0 && text.contains(section), "{text}");
    let (status, text, _) = run(&["show", "close-stringers.tbr"]);
    let member =
        "\n  2  close stringer: species pine, span 500 cm, spacing 60 cm, boards 2, board \
                  thickness 10 cm, board width 20 cm, deck rot 1 cm, dead load 97 kgf/m\n     \
                  section log: diameter 22 cm, rot 2 cm, tiers 2\n";
    assert!(status == 0 && text.contains(member), "{text}");
    let (status, text, _) = run(&["show", "lorry.tbv"]);
    let expected = "\
lorry.tbv: vehicle of 2 axles, version 1
     class lorry, track 179 cm
  1  axle: weight 2575 kgf, distance 0 cm
  2  axle: weight 6950 kgf, distance 380 cm
";
    assert_eq!((status, text.as_str()), (0, expected));
}

#[test]
fn make_goes_there_and_back() {
    for (survey, members, version) in [
        ("forest-road.tbr", 7, 1),
        ("crescent.tbr", 3, 1),
        ("close-stringers.tbr", 3, 1),
        ("ordered.tbr", 8, 2),
    ] {
        let folder = Folder::new("make");
        let (text, file) = (folder.path("bridge.txt"), folder.path("bridge.tbr"));
        assert_eq!(run(&["make", "--back", survey, &text]).0, 0);
        let (status, said, _) = run(&["make", &text, &file]);
        let summary = format!("survey of {members} members, version {version}");
        assert_eq!((status, said), (0, format!("{file}: {summary}\n")));
        assert!(run(&["show", &file]).1.starts_with(&format!("{file}: {summary}\n")));
        assert_eq!(std::fs::read(&file).unwrap(), sample(survey));
        let (_, printed, _) = run(&["make", "--back", survey]);
        assert_eq!(printed, std::fs::read_to_string(&text).unwrap());
    }
}

#[test]
fn a_wrong_text_form_makes_no_file() {
    let folder = Folder::new("wrong");
    let text = folder.file("wrong.txt", b"vehicle, class lorry, track 19 cm\n");
    let file = folder.path("wrong.tbv");
    let (status, _, error) = run(&["make", &text, &file]);
    assert_eq!(status, 2);
    assert!(error.contains("wrong.txt: line 1, track: 19 is outside 100 to 300 cm"), "{error}");
    assert!(!Path::new(&file).exists());
}

#[test]
fn help_and_version() {
    let (status, help, _) = run(&["--help"]);
    assert!(status == 0 && help.contains("tbr judge SURVEY VEHICLE.."), "{help}");
    for command in ["judge", "yard", "show", "make"] {
        let (status, page, error) = run(&[command, "--help"]);
        assert_eq!((status, error.as_str()), (0, ""), "{command}");
        assert!(page.starts_with(&format!("tbr {command} ")), "{page}");
        assert_eq!(run(&[command, "no-such-file", "-h"]).1, page);
        assert_eq!(run(&["help", command]).1, page);
        assert!(help.contains(&format!("tbr {command} ")), "{help}");
    }
    let version = format!("tbr {}\n", env!("CARGO_PKG_VERSION"));
    assert_eq!(run(&["--version"]), (0, version, String::new()));
}

/// The page on the text form has every kind, section, field, unit and word of the tables, the kinds
/// in their order, and the versions.
#[test]
fn the_page_on_the_text_form_is_whole() {
    let page = run(&["make", "--help"]).1.split_whitespace().collect::<Vec<_>>().join(" ");
    let has = |words: &str| assert!(page.contains(words), "{words}");
    let field = |field: &Field| match field.value {
        Value::Number(limits) => has(format!("{} N {}", field.name, limits.unit).trim_end()),
        Value::Word(all) => all.iter().for_each(|(word, _)| has(word)),
    };
    for kind in &KINDS {
        has(kind.name);
        kind.fields.iter().for_each(field);
    }
    for section in &SECTIONS {
        has(&format!("section {}, ", section.name));
        section.fields.iter().for_each(field);
    }
    HEADING.iter().for_each(field);
    let layouts = [Which::Survey, Which::Vehicle].map(Which::layout);
    AXLES.iter().for_each(|axle| axle.other.iter().for_each(field));
    let [light, heavy] = AXLES.each_ref().map(|AxleLayout { version, weight, .. }| {
        (format!("version {version}"), format!("up to {} {}", weight.greatest, weight.unit))
    });
    has(&format!(
        "An axle weighs {} in {} of a vehicle, in {} {}.",
        light.1, light.0, heavy.0, heavy.1
    ));
    let places = KINDS.iter().map(|kind| page.find(&format!(" {}", kind.name)));
    assert!(places.is_sorted_by(|one, other| one < other && one.is_some()), "{page}");
    for layout in layouts {
        field(&layout.version());
        let [first, last] = [FIRST_VERSION, layout.last_version];
        let versions = format!("is {first} or {last}, and {first} where");
        has(&format!("The version of a survey or a vehicle {versions}"));
    }
    has(ORDER.strip_prefix("by kind, ").unwrap());
}

/// One line, and it says where help is.
#[test]
fn wrong_use() {
    for (words, help) in [
        (&[][..], "tbr --help"),
        (&["rate", "x"], "tbr --help"),
        (&["no\nsuch"], "tbr --help"),
        (&["judge"], "tbr judge --help"),
        (&["judge", "case-a.tbr"], "tbr judge --help"),
        (&["judge", "--fast", "case-a.tbr", "lorry.tbv"], "tbr judge --help"),
        (&["judge", "--csv", "--json", "case-a.tbr", "lorry.tbv"], "tbr judge --help"),
        (&["judge", "-", "-"], "tbr judge --help"),
        (&["yard"], "tbr yard --help"),
        (&["yard", "case-a.tbr"], "tbr yard --help"),
        (&["yard", "case-a.tbr", "yard.tby", "yard.tby"], "tbr yard --help"),
        (&["yard", "--csv", "--json", "case-a.tbr", "yard.tby"], "tbr yard --help"),
        (&["yard", "--make", "x.tby", "lorry.tbv"], "tbr yard --help"),
        (&["yard", "-", "-"], "tbr yard --help"),
        (&["show"], "tbr show --help"),
        (&["show", "case-a.tbr", "lorry.tbv"], "tbr show --help"),
        (&["make", "case-a.txt"], "tbr make --help"),
        (&["make", "--back"], "tbr make --help"),
        (&["make", "case-a.txt", "case-l.txt", "x"], "tbr make --help"),
        (&["make", "--yard"], "tbr make --help"),
        (&["make", "--yard", "lorry.tbv"], "tbr make --help"),
        (&["make", "--yard", "--back", "lorry.tbv", "x"], "tbr make --help"),
        (&["make", "--yard", "-", "-", "x"], "tbr make --help"),
        (&[&["make", "--yard"][..], &["lorry.tbv"; 33], &["x"]].concat(), "tbr make --help"),
    ] {
        let (status, out, error) = run(words);
        assert_eq!((status, out.as_str()), (3, ""), "{words:?}");
        assert_eq!(error.lines().count(), 1, "{words:?}: {error}");
        assert!(error.ends_with(&format!("; '{help}' says how\n")), "{words:?}: {error}");
    }
}

#[test]
fn files_that_cannot_be_read() {
    for words in [&["judge", "no-such", "lorry.tbv"], &["judge", "case-a.tbr", "no-such"]] {
        let (status, out, error) = run(words);
        assert_eq!((status, out.as_str()), (3, ""));
        assert!(error.starts_with("tbr: no-such: cannot be read: "), "{error}");
    }
    let (status, _, error) = run(&["show", "."]);
    assert!(status == 3 && error.starts_with("tbr: .: cannot be read: "), "{error}");
    let (status, _, error) = run(&["show", "--", "--help"]);
    assert!(status == 3 && error.starts_with("tbr: --help: cannot be read: "), "{error}");
    // Without an end: no more is read than any file can have.
    let (status, _, error) = run(&["judge", "/dev/zero", "lorry.tbv"]);
    assert!(status == 2 && error.contains("/dev/zero: longer than"), "{error}");
}

/// All loads come from the library that is linked: no other program, path or setting is needed.
#[test]
fn judge_needs_nothing_of_its_environment() {
    let usual = run(&["judge", "forest-road.tbr", "lorry.tbv"]);
    assert_eq!(answer(tbr(&["judge", "forest-road.tbr", "lorry.tbv"]).env_clear()), usual);
}
