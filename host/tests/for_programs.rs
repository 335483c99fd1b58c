//! `tbr judge --csv` and `--json`: what programs read.

mod cli;

use cli::{run, sample, text, Folder};

#[path = "../src/bin/tbr/value.rs"]
mod value;

use value::Json;

/// The rest behind one JSON value (RFC 8259, without numbers that are not whole); None where there
/// is none.
fn behind_value(text: &str) -> Option<&str> {
    let text = text.trim_start();
    let first = text.chars().next()?;
    match first {
        '{' => behind_list(&text[1..], '}', |text| {
            behind_value(behind_string(text.trim_start())?.trim_start().strip_prefix(':')?)
        }),
        '[' => behind_list(&text[1..], ']', behind_value),
        '"' => behind_string(text),
        '0'..='9' => {
            let digits = text.find(|c: char| !c.is_ascii_digit()).unwrap_or(text.len());
            (digits == 1 || first != '0').then_some(&text[digits..])
        }
        _ => ["null", "true", "false"].iter().find_map(|word| text.strip_prefix(word)),
    }
}

fn behind_list(text: &str, end: char, one: impl Fn(&str) -> Option<&str>) -> Option<&str> {
    if let Some(rest) = text.trim_start().strip_prefix(end) {
        return Some(rest);
    }
    let mut rest = one(text)?.trim_start();
    while let Some(next) = rest.strip_prefix(',') {
        rest = one(next)?.trim_start();
    }
    rest.strip_prefix(end)
}

fn behind_string(text: &str) -> Option<&str> {
    let mut letters = text.strip_prefix('"')?.chars();
    loop {
        match letters.next()? {
            '"' => return Some(letters.as_str()),
            '\\' => match letters.next()? {
                'u' => (0..4).try_for_each(|_| letters.next()?.to_digit(16).map(drop))?,
                letter => "\"\\/bfnrt".contains(letter).then_some(())?,
            },
            letter => (letter >= ' ').then_some(())?,
        }
    }
}

fn is_json(text: &str) -> bool {
    behind_value(text).is_some_and(|rest| rest.trim().is_empty())
}

#[test]
fn the_tests_own_reader_of_json() {
    for right in ["{}", "[]", " [1, \"a\\u00e9\\n\", null] ", "{\"a\": {\"b\": [0, 10]}}", "\"\""] {
        assert!(is_json(right), "{right}");
    }
    for wrong in ["", "{", "[1,]", "[1 2]", "{\"a\"}", "\"\n\"", "\"\\x\"", "01", "{a: 1}", "1 1"] {
        assert!(!is_json(wrong), "{wrong}");
    }
}

#[test]
fn every_letter_within_a_string() {
    let letters: String = (0..0x300).chain([0xfffd, 0x1f600]).filter_map(char::from_u32).collect();
    let printed = Json::Object(vec![("name", Json::Text(letters))]).to_string();
    assert!(is_json(&printed), "{printed}");
    let text = |letters: &str| Json::from(letters).to_string();
    assert_eq!(text("a\"b\\c\n\u{1}é"), "\"a\\\"b\\\\c\\u000a\\u0001é\"");
    let list = Json::List(vec![Json::Null, 7.into(), Json::List(vec![]), None::<u64>.into()]);
    assert_eq!(list.to_string(), "[null, 7, [], null]");
}

#[test]
fn json_of_a_bridge() {
    let (status, printed, error) = run(&["judge", "--json", "case-a.tbr", "case-l.tbv"]);
    let expected = "{\"survey\": \"case-a.tbr\", \"error\": null, \"judgements\": [\
        {\"vehicle\": \"case-l.tbv\", \"verdict\": \"pass\", \"figure\": 1720, \"governing\": 1, \
        \"refusing\": [], \"members\": [{\"place\": 1, \"kind\": \"stringer\", \
        \"permitted\": 1720, \"vehicle\": 1200, \"used\": 70, \"verdict\": \"pass\"}], \
        \"error\": null}]}\n";
    assert_eq!((status, printed.as_str(), error.as_str()), (0, expected, ""));
    assert!(is_json(&printed));

    let (status, printed, _) = run(&["judge", "case-a.tbr", "lorry.tbv", "case-l.txt", "--json"]);
    assert!(status == 1 && is_json(&printed), "{printed}");
    assert!(
        printed.contains(
            "\"verdict\": \"refuse\", \"figure\": 1720, \"governing\": 1, \
        \"refusing\": [1], "
        ),
        "{printed}"
    );
    assert!(printed.contains("{\"vehicle\": \"case-l.txt\", \"verdict\": \"pass\""), "{printed}");
}

#[test]
fn a_member_that_bears_nothing_uses_null() {
    let folder = Folder::new("json-null");
    let rotten = folder.file("rotten.txt", text("case-a.txt").replace("rot 0", "rot 8"));
    let (status, printed, _) = run(&["judge", "--json", &rotten, "case-l.tbv"]);
    assert_eq!(status, 1);
    assert!(printed.contains("\"permitted\": 0, \"vehicle\": 1200, \"used\": null"), "{printed}");
}

/// A vehicle of version 2: its own limits, and in version 1 what version 2 takes.
#[test]
fn refused_weights_of_both_versions() {
    let folder = Folder::new("json-heavy");
    let mut heavy = sample("transformer-trailer.tbv");
    heavy[9..13].copy_from_slice(&200_001_u32.to_le_bytes());
    let mut light = sample("lorry.tbv");
    light[9..11].copy_from_slice(&60_001_u16.to_le_bytes());
    for (bytes, problem) in [
        (heavy, "200001 is outside 1 to 200000 kgf"),
        (light, "60001 is outside 1 to 60000 kgf; version 2 takes up to 200000 kgf"),
    ] {
        let file = folder.file("refused.tbv", bytes);
        let message = format!("vehicle refused, number 7 at axle 1: weight: {problem}");
        let (status, printed, error) = run(&["judge", "--json", "case-a.tbr", &file]);
        assert_eq!((status, error.as_str()), (2, ""));
        let fault = format!(
            "\"number\": 7, \"place\": 1, \"faults\": [{{\"line\": null, \"field\": \"weight\", \
             \"problem\": \"{problem}\"}}], \"message\": \"{message}\""
        );
        assert!(is_json(&printed) && printed.contains(&fault), "{printed}");
        let (status, printed, error) = run(&["judge", "--csv", "case-a.tbr", &file]);
        assert_eq!((status, error.as_str()), (2, ""));
        let line = format!("case-a.tbr,{file},error,,,,,{file},7,1,\"{message}\"\n");
        assert!(printed.ends_with(&line), "{printed}");
    }
}

/// Refusals stand in the object, and standard error is empty.
#[test]
fn json_of_refused_files() {
    let folder = Folder::new("json-refused");
    let mut light = sample("lorry.tbv");
    light[9..11].copy_from_slice(&[0, 0]);
    let light = folder.file("light.tbv", light);
    let (status, printed, error) =
        run(&["judge", "--json", "case-a.tbr", &light, "case-l.tbv", "no-such"]);
    assert_eq!((status, error.as_str()), (3, ""));
    assert!(is_json(&printed), "{printed}");
    let refused = format!(
        "{{\"vehicle\": \"{light}\", \"verdict\": null, \"figure\": null, \
        \"governing\": null, \"refusing\": [], \"members\": [], \"error\": {{\
        \"file\": \"{light}\", \"status\": 2, \"number\": 7, \"place\": 1, \"faults\": [\
        {{\"line\": null, \"field\": \"weight\", \"problem\": \"0 is outside 1 to 60000 kgf\"}}], \
        \"message\": \"vehicle refused, number 7 at axle 1: weight: 0 is outside 1 to 60000 kgf\", \
        \"hint\": null}}}}"
    );
    assert!(printed.contains(&refused), "{printed}");
    assert!(printed.contains("{\"vehicle\": \"case-l.tbv\", \"verdict\": \"pass\""), "{printed}");
    assert!(printed.contains("\"file\": \"no-such\", \"status\": 3, \"number\": null"));

    let wrong = folder.file("wrong.txt", text("case-a.txt").replace("500", "50"));
    let (status, printed, error) = run(&["judge", "--json", &wrong, "case-l.tbv"]);
    assert_eq!((status, error.as_str()), (2, ""));
    let expected = format!(
        "{{\"survey\": \"{wrong}\", \"error\": {{\"file\": \"{wrong}\", \
        \"status\": 2, \"number\": null, \"place\": null, \"faults\": [{{\"line\": 3, \
        \"field\": \"span\", \"problem\": \"50 is outside 100 to 5000 cm\"}}], \"message\": \
        \"line 3, span: 50 is outside 100 to 5000 cm\", \"hint\": null}}, \"judgements\": []}}\n"
    );
    assert_eq!(printed, expected);

    let (_, printed, _) = run(&["judge", "--json", "lorry.tbv", "case-a.tbr"]);
    assert!(is_json(&printed) && printed.contains("\"hint\": \"lorry.tbv is a vehicle"));
}

/// Refusal 16 with its number, place and field.
#[test]
fn a_survey_out_of_order() {
    let folder = Folder::new("out-of-order-for-programs");
    let mut survey = sample("forest-road.tbr");
    survey[3] = 2;
    let survey = folder.file("wrong.tbr", survey);
    let problem = "300 cm is below the 500 cm of member 1; from version 2 members stand by kind, \
                   then span or truss spacing, then spacing, each rising";
    let message = format!("survey refused, number 16 at member 2: span (l): {problem}");
    let (status, printed, error) = run(&["judge", "--json", &survey, "lorry.tbv"]);
    assert_eq!((status, error.as_str()), (2, ""));
    let expected = format!(
        "{{\"survey\": \"{survey}\", \"error\": {{\"file\": \"{survey}\", \"status\": 2, \
        \"number\": 16, \"place\": 2, \"faults\": [{{\"line\": null, \"field\": \"span (l)\", \
        \"problem\": \"{problem}\"}}], \"message\": \"{message}\", \"hint\": null}}, \
        \"judgements\": []}}\n"
    );
    assert_eq!(printed, expected);
    let (status, printed, error) = run(&["judge", "--csv", &survey, "lorry.tbv"]);
    assert_eq!((status, error.as_str()), (2, ""));
    let line = format!("{survey},lorry.tbv,error,,,,,{survey},16,2,\"{message}\"\n");
    assert_eq!(printed, format!("{COLUMNS}{line}"));
}

/// Valid for any file name.
#[test]
fn json_and_csv_of_strange_names() {
    use std::os::unix::ffi::OsStringExt;
    let folder = Folder::new("strange");
    for name in
        [&b"a\"b\\c\nd\te, f.tbr"[..], b"br\xfccke \x01\x7f\xc2\x85.tbr", "мост.tbr".as_bytes()]
    {
        let name = std::ffi::OsString::from_vec(name.to_vec());
        let path = folder.folder().join(&name);
        std::fs::write(&path, sample("case-a.tbr")).unwrap();
        for vehicle in ["case-l.tbv", "case-a.tbr"] {
            let words = ["judge".as_ref(), "--json".as_ref(), path.as_os_str(), vehicle.as_ref()];
            let (_, printed, _) = run(&words);
            assert!(is_json(&printed), "{printed}");
        }
    }
    for (name, quoted) in [
        ("a\"b\\c\nd\te, f.tbr", "/a\"\"b\\c\nd\te, f.tbr\""),
        ("a, b.tbr", "/a, b.tbr\""),
        ("a\"b.tbr", "/a\"\"b.tbr\""),
        ("a\nb.tbr", "/a\nb.tbr\""),
        ("a\rb.tbr", "/a\rb.tbr\""),
        ("a b;c.tbr", "/a b;c.tbr"),
    ] {
        let survey = folder.file(name, sample("case-a.tbr"));
        let (status, printed, _) = run(&["judge", "--csv", &survey, "case-l.tbv"]);
        assert_eq!(status, 0);
        assert!(printed.ends_with(&format!("{quoted},case-l.tbv,pass,1720,1,stringer,,,,,\n")));
        let opens_quoted = printed.strip_prefix(COLUMNS).unwrap().starts_with('"');
        assert_eq!(opens_quoted, quoted.ends_with('"'), "{printed}");
    }
}

const COLUMNS: &str =
    "survey,vehicle,verdict,figure,governing,member,refusing,file,number,place,message\n";

#[test]
fn csv_has_a_line_for_each_vehicle() {
    let (status, printed, error) = run(&["judge", "--csv", "case-a.tbr", "case-l.tbv"]);
    let line = "case-a.tbr,case-l.tbv,pass,1720,1,stringer,,,,,\n";
    assert_eq!((status, printed, error.as_str()), (0, format!("{COLUMNS}{line}"), ""));

    let words = ["judge", "--csv", "case-a.tbr", "lorry.tbv", "case-l.txt", "no-such"];
    let (status, printed, error) = run(&words);
    assert_eq!((status, error.as_str()), (3, ""));
    let lines: Vec<&str> = printed.lines().collect();
    assert_eq!(lines[1], "case-a.tbr,lorry.tbv,refuse,1720,1,stringer,1,,,,");
    assert_eq!(lines[2], "case-a.tbr,case-l.txt,pass,1720,1,stringer,,,,,");
    assert!(lines[3].starts_with("case-a.tbr,no-such,error,,,,,no-such,,,cannot be read: "));
    assert_eq!(lines.len(), 4);
}

#[test]
fn csv_of_refused_files() {
    let (status, printed, _) = run(&["judge", "--csv", "lorry.tbv", "case-l.tbv", "lorry.tbv"]);
    assert_eq!(status, 2);
    let message =
        "\"survey refused, number 2: it does not begin with the letters TBR and version 1 or 2\"";
    let line = |vehicle| format!("lorry.tbv,{vehicle},error,,,,,lorry.tbv,2,0,{message}\n");
    let expected = format!("{COLUMNS}{}{}", line("case-l.tbv"), line("lorry.tbv"));
    assert_eq!(printed, expected);
}

/// Every column and field that is printed stands in the help page, and the other way round.
#[test]
fn the_help_page_names_them_all() {
    let (_, page, _) = run(&["judge", "--help"]);
    let (csv, json) = page.split_once("--json  one object").unwrap();
    let entries = |text: &str| -> Vec<String> {
        let entry =
            |line: &str| Some(line.strip_prefix("          ")?.split_once("  ")?.0.to_string());
        let names = text.lines().filter_map(entry).filter(|names| !names.is_empty());
        names.flat_map(|names| names.split(", ").map(str::to_string).collect::<Vec<_>>()).collect()
    };
    let (_, csv) = csv.split_once("--csv   ").unwrap();
    assert_eq!(entries(csv), COLUMNS.trim().split(',').collect::<Vec<_>>());
    let (_, judged, _) = run(&["judge", "--json", "case-a.tbr", "case-l.tbv"]);
    let (_, refused, _) = run(&["judge", "--json", "lorry.tbv", "case-l.tbv"]);
    for name in entries(json) {
        let quoted = format!("\"{name}\": ");
        assert!(judged.contains(&quoted) || refused.contains(&quoted), "{name}");
    }
}
