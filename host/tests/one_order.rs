//! Surveys of version 2, whose members stand in one order: the heading of the text form, every
//! member out of order by line and field, and the words for refusal 16. The text form asks for the
//! order that the library asks for.

mod common;

use reference::generate::*;
use reference::layout::standing;
use tbr::file::{self, Contents, Member, Survey};
use tbr::form::{explain, read, write, Problem, TextError};
use tbr::{check_survey, Refusal, Which};

const ORDERED: &[u8] = include_bytes!("../../samples/ordered.tbr");

/// What is said behind the two numbers.
const ORDER: &str =
    "from version 2 members stand by kind, then span or truss spacing, then spacing, each rising";

fn contents(version: u16, members: &[Member]) -> Contents {
    Contents::Survey(Survey { version, members: members.to_vec() })
}

fn stringer(span: u16, spacing: u16, rot: u16) -> String {
    format!(
        "stringer, species pine, span {span} cm, spacing {spacing} cm, dead load 100 kgf/m, \
         section log, diameter 28 cm, rot {rot} cm, tiers 1\n"
    )
}

fn cross_beam(truss_spacing: u16, panel: u16) -> String {
    format!(
        "cross beam, species pine, truss spacing {truss_spacing} cm, panel length {panel} cm, \
         dead load 100 kgf/m, section log, diameter 28 cm, rot 0 cm, tiers 1\n"
    )
}

fn close_stringer(span: u16, spacing: u16) -> String {
    format!(
        "close stringer, species pine, span {span} cm, spacing {spacing} cm, boards 2, \
         board thickness 10 cm, board width 20 cm, deck rot 1 cm, dead load 97 kgf/m, \
         section log, diameter 28 cm, rot 1 cm, tiers 1\n"
    )
}

/// Line, field and message of all faults of this text; none where it is taken.
fn faults(text: &str) -> Vec<String> {
    let faults = read(text.as_bytes()).err().unwrap_or_default();
    faults.iter().map(TextError::to_string).collect()
}

/// The heading says the version, or it is the first.
#[test]
fn headings_with_a_version() {
    let member = stringer(500, 140, 0);
    for (heading, version) in [
        ("survey", 1),
        ("survey,", 1),
        ("survey, version 1", 1),
        ("survey, version 2", 2),
        ("\tsurvey ,, version \t 2 , # ordered", 2),
    ] {
        let contents = read(format!("{heading}\n{member}").as_bytes()).unwrap();
        assert_eq!(contents.version(), version, "{heading}");
    }
    for (heading, words) in [
        ("survey, version 0", "version: 0 is outside 1 to 2"),
        ("survey, version 3", "version: 3 is outside 1 to 2"),
        ("survey, version 65538", "version: 65538 is outside 1 to 2"),
        ("survey, version", "version: '' is not a whole number"),
        ("survey, version x", "version: 'x' is not a whole number"),
        ("survey, version 2.0", "version: '2.0' is not a whole number"),
        ("survey, version 2 cm", "version: 'cm' follows a plain number"),
        ("survey, version 2, version 2", "version: stands here twice"),
        ("survey, version 1, version 2", "version: stands here twice"),
        ("survey, version 2, old", "'old': there is no such field here"),
        ("survey, versions 2", "'versions 2': there is no such field here"),
        ("survey, 2", "'2': there is no such field here"),
        (
            "survey version 2",
            "heading: the first line must be 'survey', 'survey, version N', 'vehicle, ..' \
             or 'vehicle, version N, ..'",
        ),
    ] {
        let text = format!("# a bridge\n{heading}\n{member}");
        assert_eq!(faults(&text), [format!("line 2, {words}")]);
    }
}

/// Each of the three fields decides where those before it are equal; equals stand as they come. In
/// version 1 the order is free.
#[test]
fn members_out_of_order_by_line_and_field() {
    for (members, expected) in [
        (vec![stringer(500, 120, 0), stringer(500, 140, 0)], &[][..]),
        (vec![stringer(500, 140, 1), stringer(500, 140, 0)], &[]),
        (vec![stringer(400, 140, 0), stringer(500, 120, 0)], &[]),
        (vec![stringer(500, 140, 0), cross_beam(300, 200), close_stringer(200, 30)], &[]),
        (vec![cross_beam(300, 200), cross_beam(300, 100)], &[]),
        (
            vec![stringer(500, 140, 0), stringer(500, 120, 0)],
            &["line 3, spacing: 120 cm is below the 140 cm of line 2"],
        ),
        (
            vec![stringer(500, 140, 0), stringer(499, 150, 0)],
            &["line 3, span: 499 cm is below the 500 cm of line 2"],
        ),
        (
            vec![cross_beam(301, 100), cross_beam(300, 200)],
            &["line 3, truss spacing: 300 cm is below the 301 cm of line 2"],
        ),
        (
            vec![cross_beam(300, 200), stringer(500, 140, 0)],
            &["line 3, kind: stringer (1) is below the cross beam (2) of line 2"],
        ),
        (
            vec![close_stringer(500, 60), close_stringer(500, 59), cross_beam(600, 200)],
            &[
                "line 3, spacing: 59 cm is below the 60 cm of line 2",
                "line 4, kind: cross beam (2) is below the close stringer (7) of line 3",
            ],
        ),
    ] {
        let members = members.concat();
        let expected: Vec<String> =
            expected.iter().map(|words| format!("{words}; {ORDER}")).collect();
        assert_eq!(faults(&format!("survey, version 2\n{members}")), expected, "{members}");
        assert_eq!(faults(&format!("survey\n{members}")), [""; 0], "{members}");
    }
}

/// The lines are those of the text; a line with another fault is passed over, and of a version that
/// is wrong no order is asked.
#[test]
fn members_out_of_order_beside_other_faults() {
    let (wide, narrow) = (stringer(500, 140, 0), stringer(500, 120, 0));
    let spacing = |line, of| {
        format!("line {line}, spacing: 120 cm is below the 140 cm of line {of}; {ORDER}")
    };
    let text = format!("\n# a bridge\nsurvey, version 2\n\n{wide}# closer\n\n{narrow}");
    assert_eq!(faults(&text), [spacing(8, 5)]);
    let text = format!("survey, version 2\n{wide}{}{narrow}", stringer(99, 130, 61));
    let own =
        ["line 3, span: 99 is outside 100 to 5000 cm", "line 3, rot: 61 is outside 0 to 60 cm"];
    assert_eq!(faults(&text), [&own.map(str::to_string)[..], &[spacing(4, 2)]].concat());
    let text = format!("survey, version 2\n{wide}{}{wide}", stringer(99, 130, 0));
    assert_eq!(faults(&text), own[..1]);
    let text = format!("survey, version 2, old\n{wide}{narrow}");
    assert_eq!(
        faults(&text),
        ["line 1, 'old': there is no such field here".to_string(), spacing(3, 2)]
    );
    for heading in
        ["survey, version 3", "survey, version 2, version 2", "survy", "survey version 2"]
    {
        let faults = faults(&format!("{heading}\n{wide}{narrow}"));
        assert!(faults.len() == 1 && faults[0].starts_with("line 1, "), "{faults:?}");
    }
}

/// Members as they come, in order, or in order but for two neighbours; often alike, so that any of
/// the three numbers decides.
fn some_members(random: &mut Random) -> Vec<Member> {
    let count = 2 + random.below(11);
    let alike = random.once_in(2);
    let members = if alike { alike_survey } else { survey }(random, Spread::Usual, count);
    let how = random.below(3);
    if how == 0 {
        return members;
    }
    let mut members = in_order(&members);
    if how == 1 {
        let place = 1 + random.below(count - 1);
        members.swap(place - 1, place);
    }
    members
}

/// The two numbers that are compared.
fn compared(problem: &Problem) -> Option<[&String; 2]> {
    match problem {
        Problem::OutOfOrder { found, greater, .. } => Some([found, greater]),
        _ => None,
    }
}

/// A survey of version 2 in any order: the text form has a fault for each member before its
/// predecessor, and the library refuses just those surveys, at the first of them. Both name the
/// same field and numbers.
#[test]
fn the_text_form_asks_for_the_librarys_order() {
    let seed = common::seed(0x08de_0002);
    let mut random = Random::new(seed);
    let mut seen = [0; 4];
    for i in 0..4000 {
        let members = some_members(&mut random);
        let contents = contents(2, &members);
        let (bytes, text) = (contents.bytes().unwrap(), write(&contents).unwrap());
        let faults = read(text.as_bytes()).err().unwrap_or_default();
        let lines: Vec<usize> = faults.iter().map(|fault| fault.line).collect();
        let falls = |pair: &[Member]| standing(&pair[1]) < standing(&pair[0]);
        let falling = members.windows(2).zip(3..).filter(|(pair, _)| falls(pair));
        let expected: Vec<usize> = falling.map(|(_, line)| line).collect();
        assert_eq!(lines, expected, "TBR_SEED={seed}, {i}: {text}");
        let Err(refusal) = check_survey(&bytes) else {
            assert_eq!(faults, [], "TBR_SEED={seed}, {i}: {text}");
            seen[0] += 1;
            continue;
        };
        let first = faults.first().unwrap_or_else(|| panic!("TBR_SEED={seed}, {i}: {refusal}"));
        let place = u64::try_from(first.line - 1).unwrap();
        assert_eq!(refusal, Refusal { file: Which::Survey, number: 16, place });
        let explained = explain(&bytes, &refusal);
        let [fault] = &explained[..] else { panic!("{explained:?}") };
        assert_eq!(fault.field.split(" (").next(), Some(first.field.as_str()));
        assert!(compared(&fault.problem).is_some(), "{fault}");
        assert_eq!(compared(&fault.problem), compared(&first.problem));
        let fields = [&["kind"][..], &["span", "truss spacing"], &["spacing"]];
        let decides = fields.iter().position(|names| names.contains(&first.field.as_str()));
        seen[1 + decides.unwrap()] += 1;
    }
    assert!(seen.iter().all(|count| *count > 100), "{seen:?}");
}

/// The sample with its members changed.
fn ordered(change: fn(&mut Vec<Member>)) -> Vec<u8> {
    let mut members = file::members(ORDERED);
    change(&mut members);
    contents(2, &members).bytes().unwrap()
}

/// A change of the sample, and what is said of it.
type Case = (fn(&mut Vec<Member>), u64, &'static str);

/// The field that decides, both values, and the place of the predecessor.
#[test]
fn refusal_16_in_words() {
    const SPAN: usize = 2;
    const SPACING: usize = 3;
    let cases: [Case; 7] = [
        (|all| all[2][SPACING] = 119, 3, "spacing (d): 119 cm is below the 120 cm of member 2"),
        (|all| all[6][SPACING] = 71, 8, "spacing (d): 70 cm is below the 71 cm of member 7"),
        (|all| all[1][SPAN] = 299, 2, "span (l): 299 cm is below the 300 cm of member 1"),
        (|all| all[2][SPAN] = 501, 4, "span (l): 500 cm is below the 501 cm of member 3"),
        (
            |all| {
                all.insert(4, all[4]);
                all[4][SPAN] = 421;
            },
            6,
            "truss spacing (l): 420 cm is below the 421 cm of member 5",
        ),
        (|all| all.swap(4, 5), 6, "kind: cross beam (2) is below the chord (3) of member 5"),
        (
            |all| all.swap(3, 7),
            5,
            "kind: cross beam (2) is below the close stringer (7) of member 4",
        ),
    ];
    for (change, place, words) in cases {
        let bytes = ordered(change);
        let refusal = Refusal { file: Which::Survey, number: 16, place };
        assert_eq!(check_survey(&bytes), Err(refusal), "{words}");
        let explained = explain(&bytes, &refusal);
        let explained: Vec<String> = explained.iter().map(|fault| fault.to_string()).collect();
        assert_eq!(explained, [format!("{words}; {ORDER}")]);
    }
    let refusal = Refusal { file: Which::Survey, number: 16, place: 3 };
    let words = "it stands behind a member that it must come before";
    let expected = format!("survey refused, number 16 at member 3: {words}; {ORDER}");
    assert_eq!(refusal.to_string(), expected);
    // It is of records beside each other: of these none is at fault.
    assert_eq!(explain(ORDERED, &refusal), []);
}

/// The order is looked at where all records are good: any other fault comes first, wherever it is.
#[test]
fn the_records_own_faults_come_first() {
    let bytes = ordered(|all| {
        all.swap(0, 4);
        all[7][9] = 61;
    });
    let refusal = check_survey(&bytes).unwrap_err();
    assert_eq!((refusal.number, refusal.place), (7, 8), "{refusal}");
}
