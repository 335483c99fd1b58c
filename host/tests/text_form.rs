//! The text form: round trips, the limits of every field, and every error by line and field.

mod common;

use common::seed;
use reference::generate::*;
use reference::layout::MOST_MEMBERS;
use reference::reader;
use tbr::file::{self, Contents, Survey};
use tbr::form::{
    look, read, write, AxleLayout, Field, Look, Problem, TextError, Value, HEADING, KINDS, SECTIONS,
};
use tbr::{check_survey, check_vehicle, Which};

const STRINGER: &str = "stringer, species pine, span 500 cm, spacing 140 cm, dead load 100 kgf/m, \
                        section log, diameter 28 cm, rot 0 cm, tiers 1";
const JOINT: &str = "steel plates, span 1200 cm, spacing 420 cm, from support 600 cm, \
                     truss height 160 cm, dead load 700 kgf/m, joint part 2, chord whole 4, \
                     section area, area 14 cm2, lost area 2 cm2";
const AXLES: &str = "axle, weight 1500 kgf, distance 0 cm\naxle, weight 3000 kgf, distance 370 cm";

/// Surveys and vehicles of both versions; those of the vehicles take turns.
#[test]
fn files_go_to_text_and_back() {
    let seed = seed(0x7e87_0001);
    let mut random = Random::new(seed);
    for i in 0..2000 {
        let spread = if i % 2 == 0 { Spread::Wide } else { Spread::Usual };
        let most = if i % 10 == 0 { MOST_MEMBERS } else { 32 };
        let (members, axles) = (1 + random.below(most), 1 + random.below(16));
        let survey = survey_file(&mut random, spread, members);
        let version = VERSIONS[i / 2 % 2];
        let vehicle = vehicle_bytes(&vehicle_of(&mut random, version, spread, axles));
        assert_eq!(check_survey(&survey), Ok(()), "TBR_SEED={seed}, {i}");
        assert_eq!(check_vehicle(&vehicle), Ok(()), "TBR_SEED={seed}, {i}");
        let surveyed = Contents::Survey(file::survey(&survey).unwrap());
        let heading = ["survey\n", "survey, version 2\n"][usize::from(surveyed.version() - 1)];
        assert!(write(&surveyed).is_some_and(|text| text.starts_with(heading)), "{surveyed:?}");
        let driven = Contents::Vehicle(file::vehicle(&vehicle).unwrap());
        assert_eq!(driven.version(), version, "TBR_SEED={seed}, {i}");
        let heading = ["vehicle, class ", "vehicle, version 2, class "][usize::from(version - 1)];
        assert!(write(&driven).is_some_and(|text| text.starts_with(heading)), "{driven:?}");
        for (contents, bytes) in [(surveyed, survey), (driven, vehicle)] {
            assert_eq!(contents.bytes(), Some(bytes), "TBR_SEED={seed}, {i}");
            let text = write(&contents).unwrap();
            assert_eq!(read(text.as_bytes()), Ok(contents), "TBR_SEED={seed}, {i}: {text}");
        }
    }
}

#[test]
fn order_comments_and_blanks_are_free() {
    let plain = read(format!("survey\n{STRINGER}\n").as_bytes()).unwrap();
    let clauses: Vec<&str> = STRINGER.split(", ").collect();
    let mut turned = clauses[1..].to_vec();
    turned.reverse();
    let turned = format!(
        "\n# a bridge\n  survey # of one member\r\n\n {} ,{}  # sound\n\n",
        clauses[0],
        turned.join(" ,\t ")
    );
    assert_eq!(read(turned.as_bytes()), Ok(plain));
}

/// Byte order mark, ends of lines, tabs, blanks within a name and before a unit, commas at the end.
#[test]
fn what_editors_and_spreadsheets_leave() {
    let plain = format!("survey\n{STRINGER}\n{JOINT}\n");
    let taken = read(plain.as_bytes()).unwrap();
    for (what, text) in [
        ("a byte order mark", format!("\u{feff}{plain}")),
        ("CRLF", plain.replace('\n', "\r\n")),
        ("tabs", plain.replace(' ', "\t")),
        ("several blanks", plain.replace(' ', "  \t ")),
        ("no-break spaces", plain.replace(' ', "\u{a0}")),
        ("commas at the end", plain.replace('\n', ",\n")),
        ("columns of a spreadsheet", plain.replace('\n', " ,,, ,\r\n") + ",,,\r\n"),
        ("no end of the last line", plain.trim_end().to_string()),
        ("all of it", format!("\u{feff}{plain}").replace(' ', " \t").replace('\n', " , \r\n")),
    ] {
        assert_eq!(read(text.as_bytes()), Ok(taken.clone()), "{what}");
    }
    let vehicle = format!("vehicle, class lorry, track 190 cm\n{AXLES}\n");
    let spread = vehicle.replace(", ", "\t,\t").replace(' ', "   ").replace('\n', ",\r\n");
    assert_eq!(read(spread.as_bytes()), read(vehicle.as_bytes()));
    // A comment in another encoding: no byte of it matters.
    let comment = [b"survey # Br\xfccke \xff\n", STRINGER.as_bytes()].concat();
    assert_eq!(read(&comment), read(format!("survey\n{STRINGER}").as_bytes()));
    // A mark counts at the beginning only.
    assert!(read(format!("survey\n\u{feff}{STRINGER}").as_bytes()).is_err());
}

/// Words with one number: maple and hornbeam are ash, a heavy trailer is of the tractors' class.
#[test]
fn words_with_one_number() {
    let species = |word| read(format!("survey\n{}", STRINGER.replace("pine", word)).as_bytes());
    assert_eq!(species("maple"), species("ash"));
    assert_eq!(species("hornbeam"), species("ash"));
    let class =
        |word| read(format!("vehicle, class {word}, track 190 cm\n{AXLES}").as_bytes()).unwrap();
    assert_eq!(class("trailer"), class("tractor"));
    assert_ne!(class("lorry"), class("tractor"));
}

/// The reference takes the file of this text.
fn is_taken(contents: &Contents) -> bool {
    match contents {
        Contents::Survey(_) => reader::survey(&contents.bytes().unwrap()).is_ok(),
        Contents::Vehicle(_) => reader::vehicle(&contents.bytes().unwrap()).is_ok(),
    }
}

/// The line with this field's number replaced.
fn with_number(line: &str, field: &Field, number: u64) -> String {
    let value = |clause: &str| clause.strip_prefix(field.name).is_some_and(|r| r.starts_with(' '));
    let replaced = |clause: &str| {
        let unit = clause.rsplit(' ').next().filter(|word| word.parse::<u64>().is_err());
        format!("{} {number} {}", field.name, unit.unwrap_or("")).trim().to_string()
    };
    let clauses = line.split(", ").map(|c| if value(c) { replaced(c) } else { c.to_string() });
    clauses.collect::<Vec<_>>().join(", ")
}

/// At both limits the line is taken, by the reference too; one step beyond, the field is named.
fn hold_limits(before: &str, line: &str, fields: &[&Field]) {
    let text = |field: &Field, number| format!("{before}{}\n", with_number(line, field, number));
    let line_number = before.lines().count() + 1;
    for field in fields {
        let Value::Number(limits) = field.value else { continue };
        let (least, greatest) = (u64::from(limits.least), u64::from(limits.greatest));
        for number in [least, greatest] {
            let contents = read(text(field, number).as_bytes());
            let contents = contents.unwrap_or_else(|e| panic!("{e:?}: {}", text(field, number)));
            assert!(is_taken(&contents), "{}", text(field, number));
        }
        let wrapped = [1 << 16, 1 << 32].map(|more| more + least);
        let beyond = [least.wrapping_sub(1), greatest + 1, u64::MAX].into_iter().chain(wrapped);
        for number in beyond.filter(|number| !(least..=greatest).contains(number)) {
            let faults = read(text(field, number).as_bytes()).unwrap_err();
            let [error] = &faults[..] else { panic!("{faults:?}") };
            assert_eq!((error.line, error.field.as_str()), (line_number, field.name), "{error}");
            assert!(matches!(error.problem, Problem::Outside { .. }), "{error}");
        }
    }
}

/// The least number that a field takes.
fn least(field: &Field) -> u16 {
    match field.value {
        Value::Number(limits) => u16::try_from(limits.least).unwrap(),
        Value::Word(all) => all[0].1,
    }
}

#[test]
fn the_limits_of_every_field_of_every_kind_and_section() {
    for kind in &KINDS {
        let chosen = kind.section().unwrap();
        let Value::Word(codes) = chosen.value else { panic!("{}", chosen.name) };
        for (_, code) in codes {
            let section = SECTIONS.iter().find(|section| section.code == *code).unwrap();
            // Within all limits, and so that each field can go to its own limits: x and A are
            // small, l and B are great, but for the deck of a close stringer.
            let mut words = [1; 16];
            [words[0], words[7]] = [kind.code, section.code];
            [words[2], words[3], words[4], words[5]] = [5000, 30, 10, 10];
            [words[8], words[15]] = [least(&section.fields[0]), 1000];
            if kind.name == "close stringer" {
                words[15] = 20;
            }
            let text =
                write(&Contents::Survey(Survey { version: 1, members: vec![words] })).unwrap();
            let line = text.lines().nth(1).unwrap();
            let fields = kind.fields.iter().chain(section.fields_in(kind));
            hold_limits("survey\n", line, &fields.collect::<Vec<_>>());
        }
    }
}

#[test]
fn the_limits_of_every_field_of_a_vehicle() {
    let heading = "vehicle, class lorry, track 190 cm";
    let axles: Vec<&str> = AXLES.lines().collect();
    for (version, heading) in [(1, heading), (2, "vehicle, version 2, class lorry, track 190 cm")] {
        let AxleLayout { first, other, .. } = AxleLayout::of(version);
        hold_limits(&format!("{heading}\n"), axles[0], &first.each_ref());
        hold_limits(&format!("{heading}\n{}\n", axles[0]), axles[1], &other.each_ref());
    }
    for (number, taken) in [(100, true), (300, true), (99, false), (301, false)] {
        let heading = with_number(heading, &HEADING[1], number);
        let answer = read(format!("{heading}\n{AXLES}").as_bytes());
        assert_eq!(answer.map(|contents| is_taken(&contents)).ok(), taken.then_some(true));
    }
}

/// Line, field and message of all faults of this text, each on a line.
fn faults(text: &[u8]) -> String {
    let faults: Vec<String> = read(text).unwrap_err().iter().map(TextError::to_string).collect();
    faults.join("\n")
}

/// The same of a text that has one fault.
fn error(text: &str) -> String {
    let faults = faults(text.as_bytes());
    assert_eq!(faults.lines().count(), 1, "{faults}");
    faults
}

/// The same for a stringer with a part replaced.
fn stringer(from: &str, to: &str) -> String {
    assert!(STRINGER.contains(from));
    error(&format!("survey\n\n{}\n", STRINGER.replace(from, to)))
}

const HEADING_FAULT: &str = "heading: the first line must be 'survey', 'survey, version N', \
                             'vehicle, ..' or 'vehicle, version N, ..'";

#[test]
fn errors_of_the_heading() {
    let heading = HEADING_FAULT;
    assert_eq!(error(""), format!("line 1, {heading}"));
    assert_eq!(error("# nothing\n\n"), format!("line 1, {heading}"));
    assert_eq!(error(&format!("\n{STRINGER}\n")), format!("line 2, {heading}"));
    let old = format!("survey, old\n{STRINGER}\n");
    assert_eq!(error(&old), "line 1, 'old': there is no such field here");
    assert_eq!(error("survey\n"), "line 1, member: none follows the heading");
    assert_eq!(
        error("vehicle, class lorry, track 190 cm\n"),
        "line 1, axle: none follows the heading"
    );
    assert_eq!(error(&format!("vehicle, class lorry\n{AXLES}")), "line 1, track: is missing");
    assert_eq!(
        error(&format!("vehicle, class bus, track 190 cm\n{AXLES}")),
        "line 1, class: 'bus' is not one of: lorry, tractor, trailer"
    );
    assert_eq!(faults(b"survey\nstringer \xff\n"), "line 2, text: this is not text (UTF-8)");
}

#[test]
fn errors_of_counts() {
    let survey = |count| format!("survey\n{}", format!("{STRINGER}\n").repeat(count));
    assert!(read(survey(255).as_bytes()).is_ok());
    assert_eq!(error(&survey(256)), "line 257, member: a file holds at most 255");
    let heading = "vehicle, class lorry, track 190 cm";
    let others = |count| "axle, weight 5 kgf, distance 90 cm\n".repeat(count);
    let vehicle = |count: usize| format!("{heading}\n{AXLES}\n{}", others(count - 2));
    assert!(read(vehicle(16).as_bytes()).is_ok());
    assert_eq!(error(&vehicle(17)), "line 18, axle: a file holds at most 16");
}

#[test]
fn errors_of_a_member() {
    assert_eq!(
        stringer("stringer", "strut"),
        "line 3, kind: 'strut' is not one of: stringer, cross beam, chord, dowelled joint, \
         keyed joint, steel plates, close stringer"
    );
    assert_eq!(
        stringer("pine", "palm"),
        "line 3, species: 'palm' is not one of: pine, spruce, larch, cedar, fir, oak, ash, maple, \
         hornbeam, beech"
    );
    assert_eq!(
        stringer("section log", "section area"),
        "line 3, section: 'area' is not one of: log, sawn, crescent"
    );
    assert_eq!(stringer(", section log", ""), "line 3, section: is missing");
    assert_eq!(stringer(", span 500 cm", ""), "line 3, span: is missing");
    assert_eq!(stringer(", tiers 1", ", tiers 1, tiers 2"), "line 3, tiers: stands here twice");
    let height = "'truss height 90 cm': there is no such field here";
    assert_eq!(stringer("tiers 1", "tiers 1, truss height 90 cm"), format!("line 3, {height}"));
    let sawn = "section sawn, width 20 cm, height 20 cm, side rot 0 cm, top rot 0 cm, pieces 1, \
                lost area 0 cm2";
    let log = "section log, diameter 28 cm, rot 0 cm, tiers 1";
    let lost = "line 3, 'lost area 0 cm2': there is no such field here";
    assert_eq!(stringer(log, sawn), lost, "a beam in bending has no lost area");
}

/// The section's own fields and limits, not those of the log beside it.
#[test]
fn errors_of_a_crescent() {
    let log = "section log, diameter 28 cm, rot 0 cm, tiers 1";
    let crescent = |diameter, depth| {
        format!("section crescent, diameter {diameter} cm, depth {depth} cm, tiers 1")
    };
    let line = STRINGER.replace(log, &crescent(14, 2));
    let contents = read(format!("survey\n{line}\n").as_bytes()).unwrap();
    let Contents::Survey(survey) = &contents else { panic!("{contents:?}") };
    assert_eq!(survey.members[0], [1, 1, 500, 140, 0, 0, 100, 5, 14, 2, 1, 0, 0, 0, 0, 0]);
    assert_eq!(write(&contents).unwrap(), format!("survey\n{line}\n"));
    for (diameter, depth, words) in [
        (13, 2, "diameter: 13 is outside 14 to 36 cm"),
        (37, 2, "diameter: 37 is outside 14 to 36 cm"),
        (39, 2, "diameter: 39 is outside 14 to 36 cm"),
        (14, 61, "depth: 61 is outside 0 to 60 cm"),
    ] {
        assert_eq!(stringer(log, &crescent(diameter, depth)), format!("line 3, {words}"));
    }
    let rot = STRINGER.replace("section log", "section crescent");
    let expected = ["line 2, 'rot 0 cm': there is no such field here", "line 2, depth: is missing"];
    assert_eq!(faults(format!("survey\n{rot}\n").as_bytes()), expected.join("\n"));
    let chord = "survey\nchord, species pine, span 1000 cm, spacing 500 cm, from support 200 cm, \
                 truss height 150 cm, dead load 500 kgf/m, section crescent";
    assert_eq!(error(chord), "line 2, section: 'crescent' is not one of: sawn");
}

#[test]
fn errors_of_a_number() {
    for found in ["50.0", "-1", "+5", "0x10", "five", "5OO"] {
        let words = format!("line 3, span: '{found}' is not a whole number");
        assert_eq!(stringer("span 500", &format!("span {found}")), words);
    }
    assert_eq!(stringer("span 500 cm", "span"), "line 3, span: '' is not a whole number");
    assert_eq!(stringer("span 500 cm", "span 500"), "line 3, span: the unit is cm, not ''");
    assert_eq!(stringer("span 500 cm", "span 5 m"), "line 3, span: the unit is cm, not 'm'");
    assert_eq!(stringer("tiers 1", "tiers 1 cm"), "line 3, tiers: 'cm' follows a plain number");
    assert_eq!(stringer("span 500", "span 99"), "line 3, span: 99 is outside 100 to 5000 cm");
    let many = "99999999999999999999999";
    let words = format!("line 3, span: {many} is outside 100 to 5000 cm");
    assert_eq!(stringer("span 500", &format!("span {many}")), words);
}

#[test]
fn errors_between_two_fields() {
    let joint = |from: &str, to: &str| error(&format!("survey\n{}", JOINT.replace(from, to)));
    assert!(read(format!("survey\n{JOINT}").as_bytes()).is_ok());
    let words = "line 2, from support: 1200 cm is not below the span of 1200 cm";
    assert_eq!(joint("from support 600", "from support 1200"), words);
    let words = "line 2, joint part: 5 is above the chord whole of 4";
    assert_eq!(joint("joint part 2", "joint part 5"), words);
    let species = "line 2, 'species pine': there is no such field here";
    assert_eq!(joint("steel plates,", "steel plates, species pine,"), species);
}

#[test]
fn errors_of_an_axle() {
    let vehicle = |from: &str, to: &str| {
        error(&format!("vehicle, class lorry, track 190 cm\n{}", AXLES.replacen(from, to, 1)))
    };
    assert_eq!(vehicle("distance 0", "distance 3"), "line 2, distance: must be 0 cm, not 3");
    assert_eq!(vehicle("370", "0"), "line 3, distance: 0 is outside 1 to 2000 cm");
    assert_eq!(vehicle("1500", "0"), "line 2, weight: 0 is outside 1 to 60000 kgf");
    assert_eq!(vehicle("axle", "wheel"), "line 2, axle: 'wheel' is not one of: axle");
    assert_eq!(vehicle(", weight 1500 kgf", ""), "line 2, weight: is missing");
}

/// Every fault of a file in one run, in the order of its lines.
#[test]
fn all_faults_at_once() {
    let text = format!(
        "survey, old\n\
         {STRINGER}\n\
         strut, span 500 cm\n\
         {}\n\
         # a comment\n\
         {}, colour red\n\
         {}\n",
        STRINGER.replace("span 500 cm", "span 5 m").replace(", rot 0 cm", "").replace("28", "128"),
        JOINT.replace("part 2", "part 5").replace("from support 600", "from support 1200"),
        STRINGER.replace("pine", "palm"),
    );
    let expected = [
        "line 1, 'old': there is no such field here",
        "line 3, kind: 'strut' is not one of: stringer, cross beam, chord, dowelled joint, \
         keyed joint, steel plates, close stringer",
        "line 4, span: the unit is cm, not 'm'",
        "line 4, diameter: 128 is outside 13 to 39 cm",
        "line 4, rot: is missing",
        "line 6, 'colour red': there is no such field here",
        "line 6, from support: 1200 cm is not below the span of 1200 cm",
        "line 6, joint part: 5 is above the chord whole of 4",
        "line 7, species: 'palm' is not one of: pine, spruce, larch, cedar, fir, oak, ash, maple, \
         hornbeam, beech",
    ];
    assert_eq!(faults(text.as_bytes()), expected.join("\n"));
}

#[test]
fn all_faults_of_a_vehicle_at_once() {
    let vehicle = b"vehicle, class bus, track 99 cm\naxle, weight 0 kgf, distance 1 cm\n\
                    wheel\naxle, weight 5, distance 5 cm, distance 6 cm\n\xff\n";
    let expected = [
        "line 1, class: 'bus' is not one of: lorry, tractor, trailer",
        "line 1, track: 99 is outside 100 to 300 cm",
        "line 2, weight: 0 is outside 1 to 60000 kgf",
        "line 2, distance: must be 0 cm, not 1",
        "line 3, axle: 'wheel' is not one of: axle",
        "line 4, weight: the unit is kgf, not ''",
        "line 4, distance: stands here twice",
        "line 5, text: this is not text (UTF-8)",
    ];
    assert_eq!(faults(vehicle), expected.join("\n"));
}

/// Faults in more lines than a file holds: each of them, and that there are too many.
#[test]
fn faults_beyond_the_last_place() {
    let text = format!("survey\n{}{}", format!("{STRINGER}\n").repeat(254), "strut\n".repeat(3));
    let faults = faults(text.as_bytes());
    let lines: Vec<&str> = faults.lines().map(|fault| fault.split(':').next().unwrap()).collect();
    assert_eq!(lines, ["line 256, kind", "line 257, member", "line 257, kind", "line 258, kind"]);
}

/// Without its section it is not known which fields a line has: only the section is missed, and
/// what is of no section.
#[test]
fn a_missing_section_is_one_fault() {
    for section in ["", ", section", ", section tube", ", section log, section sawn"] {
        let line = STRINGER.replace(", section log", section);
        let faults = faults(format!("survey\n{line}, top rot 1 cm\n").as_bytes());
        assert!(faults.starts_with("line 2, section: "), "{faults}");
        assert_eq!(faults.lines().count(), 1, "{faults}");
    }
    let line = STRINGER.replace(", section log", ", cuts 4").replace("500", "50");
    let expected = [
        "line 2, 'cuts 4': there is no such field here",
        "line 2, span: 50 is outside 100 to 5000 cm",
        "line 2, section: is missing",
    ];
    assert_eq!(faults(format!("survey\n{line}\n").as_bytes()), expected.join("\n"));
}

/// A missing or misspelt heading is one fault, and the records below it are still read.
#[test]
fn records_without_their_heading() {
    let heading = HEADING_FAULT;
    let (wrong, span) = (STRINGER.replace("500", "50"), "span: 50 is outside 100 to 5000 cm");
    let missing = format!("{STRINGER}\n{wrong}\n");
    assert_eq!(faults(missing.as_bytes()), format!("line 1, {heading}\nline 2, {span}"));
    let misspelt = format!("survy\n{STRINGER}\n{wrong}\n");
    assert_eq!(faults(misspelt.as_bytes()), format!("line 1, {heading}\nline 3, {span}"));
    let axles = AXLES.replace("370", "0");
    let distance = "distance: 0 is outside 1 to 2000 cm";
    assert_eq!(faults(axles.as_bytes()), format!("line 1, {heading}\nline 2, {distance}"));
    let not_text = [b"survey \xff\n", STRINGER.as_bytes()].concat();
    assert_eq!(faults(&not_text), "line 1, text: this is not text (UTF-8)");
    assert_eq!(faults(b"a letter\nto nobody\n"), format!("line 1, {heading}"));
}

/// What bytes look like before they are read: files by their mark, texts by what stands in them.
#[test]
fn files_and_texts_are_told_apart() {
    let (survey, vehicle) = (Which::Survey, Which::Vehicle);
    for (bytes, expected) in [
        (&b"TBR"[..], Look::File(survey)),
        (b"TBV\x01\x00\x00", Look::File(vehicle)),
        (b"TBV\x02\x00\x00", Look::File(vehicle)),
        (b"\x01TBV\x02\x00", Look::Yard),
        (b"vehicle, version 2, class lorry", Look::Text(vehicle)),
        (b"\x02TBV\x01\x00", Look::Yard),
        (b"\x00TBV\x01\x00", Look::Yard),
        (b"\x01TBV", Look::Yard),
        (b"\x01TBR", Look::Other),
        (b"\x01", Look::Other),
        (b"survey", Look::Text(survey)),
        (b"survey, version 2", Look::Text(survey)),
        (b"TBR\x02\x00", Look::File(survey)),
        (b"\xef\xbb\xbf# a bridge\r\n\tsurvey,\r\n", Look::Text(survey)),
        (b"vehicle, class bus\naxle\n", Look::Text(vehicle)),
        (b"survy\ncross  beam, span\n", Look::Text(survey)),
        (b"axle", Look::Text(vehicle)),
        (b"survey # Br\xfccke", Look::Text(survey)),
        (b"a letter", Look::OtherText),
        (b"# nothing\n", Look::OtherText),
        (b"", Look::Other),
        (b"survey\0", Look::Other),
        (b"\xff\xfes\0u\0r\0", Look::Other),
    ] {
        assert_eq!(look(bytes), expected, "{:?}", String::from_utf8_lossy(bytes));
    }
}
