//! Longer trestles: surveys of more than 64 members, up to 255, through the library, its threads
//! and the command line.

mod cli;
mod common;

use cli::{run, sample, Folder};
use common::{expected, library, seed};
use reference::generate::*;
use reference::layout::{Words, IN_ORDER, MOST_MEMBERS};
use reference::reader;
use tbr::file::{self, Contents, Survey};
use tbr::form::write;
use tbr::{check_survey, judge, judge_yard, member_loads, Judgement};

/// A vehicle of so many axles.
fn lorry(random: &mut Random, axles: usize) -> Vec<u8> {
    vehicle_bytes(&vehicle(random, Spread::Usual, axles))
}

/// The largest yard: 32 vehicles of up to 16 axles.
fn largest_yard(random: &mut Random) -> Vec<u8> {
    yard_bytes(&yard(random, Spread::Usual, 32, 16))
}

/// Judge, the loads of every member and a yard of 32 vehicles, in either version of the survey.
#[test]
fn long_surveys_answer_as_the_reference() {
    let seed = seed(0x0c12_1001);
    let mut random = Random::new(seed);
    for count in [65, 180, MOST_MEMBERS] {
        let members = bearing_survey(&mut random, count);
        for survey in [survey_bytes(&members), survey_bytes_of(IN_ORDER, &in_order(&members))] {
            let vehicle = lorry(&mut random, 16);
            let answer = library(&survey, &vehicle);
            assert_eq!(answer, expected(&survey, &vehicle), "TBR_SEED={seed}");
            assert_eq!(answer.map(|judged| judged.members.len()), Ok(count));
            let yard = largest_yard(&mut random);
            let members = reader::survey(&survey).expect("a sound survey");
            let by_reference = reference::yard(Some(&members), &yard, 32).expect("a sound yard");
            let judged = judge_yard(&survey, &yard).expect("a sound yard");
            let judgement = |answer: &reference::Answer| Judgement {
                figure: answer.figure,
                governing: answer.governing,
                passes: answer.passes,
            };
            let judgements: Vec<Judgement> = by_reference.answers.iter().map(judgement).collect();
            assert_eq!(judged.judgements, judgements, "TBR_SEED={seed}, {count} members");
            assert_eq!(judged.passes, by_reference.passes, "TBR_SEED={seed}, {count} members");
        }
    }
}

/// Every count that a byte holds: its own file is taken, and any other length, a byte more or less
/// and a record more or less, gives 1; a count of 0 gives 3, whatever the length. None is treated
/// otherwise from 65 on.
#[test]
fn every_count() {
    let mut random = Random::new(seed(0x0c12_1002));
    let members = bearing_survey(&mut random, MOST_MEMBERS);
    let vehicle = lorry(&mut random, 2);
    for count in 1..=MOST_MEMBERS {
        let file = survey_bytes(&members[..count]);
        assert_eq!(library(&file, &vehicle), expected(&file, &vehicle), "{count} members");
        let longer = [&file[..], &[0; 32]].concat();
        let refused = |bytes: &[u8]| check_survey(bytes).map_err(|r| (r.number, r.place));
        for length in [6, file.len() - 32, file.len() - 1, file.len() + 1, file.len() + 32] {
            let answer = refused(&longer[..length]);
            assert_eq!(answer, Err((1, 0)), "{count} members in {length} bytes");
        }
        let none = [&file[..5], &[0], &file[6..]].concat();
        assert_eq!(refused(&none), Err((3, 0)), "none in {} bytes", file.len());
    }
}

/// The count has one byte: 256 members are no file.
#[test]
fn more_than_a_byte_holds_cannot_be_written() {
    let members = bearing_survey(&mut Random::new(seed(0x0c12_1003)), MOST_MEMBERS + 1);
    let file = |count: usize| {
        Contents::Survey(Survey { version: 1, members: members[..count].to_vec() }).bytes()
    };
    assert_eq!(file(MOST_MEMBERS), Some(survey_bytes(&members[..MOST_MEMBERS])));
    assert_eq!(file(MOST_MEMBERS + 1), None);
}

/// What the largest files are answered in a thread of so many bytes of stack; too few would end the
/// whole program.
fn in_thread(stack: usize) -> [u64; 3] {
    let mut random = Random::new(0x0c12_1004);
    let survey = survey_bytes(&bearing_survey(&mut random, MOST_MEMBERS));
    let (vehicle, yard) = (lorry(&mut random, 16), largest_yard(&mut random));
    let calls = move || {
        let loads = member_loads(&survey, &vehicle).expect("sound files");
        let figures = judge_yard(&survey, &yard).expect("a sound yard").judgements;
        [
            judge(&survey, &vehicle).expect("sound files").figure,
            loads.iter().map(|loads| loads.permitted).min().unwrap_or(0),
            figures.iter().map(|judgement| judgement.figure).sum(),
        ]
    };
    let thread = std::thread::Builder::new().stack_size(stack).spawn(calls).expect("a thread");
    thread.join().expect("the calls end")
}

/// A thread of Rust has 2 MB, and an eighth of it is enough.
#[test]
fn the_largest_files_in_threads() {
    let [figure, least, yard] = in_thread(2 << 20);
    assert_eq!(in_thread(256 << 10), [figure, least, yard]);
    assert!(figure == least && figure > 0 && yard > 0, "{figure} {least} {yard}");
}

/// A survey of so many members as a file and as its text form.
fn trestle(folder: &Folder, count: usize) -> (Vec<Words>, String, String) {
    let members = bearing_survey(&mut Random::new(0x0c12_1005), count);
    let file = folder.file("trestle.tbr", survey_bytes(&members));
    let contents = Contents::Survey(Survey { version: 1, members: members.clone() });
    let text = folder.file("trestle.txt", write(&contents).expect("the text form"));
    (members, file, text)
}

/// The place at the start of each row of the table.
fn places(table: &str) -> Vec<usize> {
    let rows = table.lines().skip(1).take_while(|line| !line.is_empty());
    rows.map(|row| row.split_whitespace().next().and_then(|place| place.parse().ok()).unwrap())
        .collect()
}

/// `tbr make` both ways and `show`, with a trestle of 180 members and with the longest.
#[test]
fn files_of_long_surveys() {
    for count in [180, MOST_MEMBERS] {
        let folder = Folder::new(&format!("trestle-files-{count}"));
        let (members, file, text) = trestle(&folder, count);
        let (made, words) = (folder.path("made.tbr"), format!("survey of {count} members"));
        let (status, out, _) = run(&["make", &text, &made]);
        assert!(status == 0 && out.contains(&words), "{out}");
        assert_eq!(std::fs::read(&made).unwrap(), survey_bytes(&members));
        let (status, back, _) = run(&["make", "--back", &file]);
        assert_eq!((status, back), (0, std::fs::read_to_string(&text).unwrap()));
        let (status, shown, _) = run(&["show", &file]);
        assert!(status == 0 && shown.contains(&words), "{shown:.80}");
        assert!(shown.contains(&format!("\n{count:>3}  ")), "member {count}");
    }
}

/// `tbr judge` and `tbr yard` on the same.
#[test]
fn judgements_of_long_surveys() {
    for count in [180, MOST_MEMBERS] {
        let folder = Folder::new(&format!("trestle-{count}"));
        let (members, file, text) = trestle(&folder, count);
        let governing = judge(&survey_bytes(&members), &sample("lorry.tbv")).unwrap().governing;
        let (_, table, _) = run(&["judge", &file, "lorry.tbv"]);
        assert_eq!(places(&table), (1..=count).collect::<Vec<_>>());
        assert!(table.contains(&format!("\ngoverning  member {governing}, ")), "{governing}");
        assert_eq!(run(&["judge", &text, "lorry.tbv"]).1, table, "the text form as the file");
        let yard = folder.path("two.tby");
        assert_eq!(run(&["make", "--yard", "lorry.tbv", "case-l.tbv", &yard]).0, 0);
        let (_, answers, _) = run(&["yard", &file, &yard]);
        assert!(answers.contains(&format!("  {governing}, ")), "{answers}");
    }
}

/// A line too many, and a file whose last record is at fault.
#[test]
fn the_command_line_refuses() {
    let folder = Folder::new("trestle-refused");
    let (members, _, text) = trestle(&folder, MOST_MEMBERS);
    let lines = std::fs::read_to_string(text).unwrap();
    let last = lines.lines().last().unwrap();
    let long = folder.file("long.txt", format!("{lines}{last}\n"));
    let (status, _, error) = run(&["make", &long, &folder.path("long.tbr")]);
    assert_eq!(status, 2);
    assert!(error.contains("line 257, member: a file holds at most 255"), "{error}");
    let mut bytes = survey_bytes(&members);
    let at = bytes.len() - 32;
    bytes[at] = 9;
    assert_eq!(file::members(&bytes).len(), MOST_MEMBERS);
    let faulty = folder.file("faulty.tbr", bytes);
    let (status, _, error) = run(&["judge", &faulty, "lorry.tbv"]);
    assert_eq!(status, 2);
    assert!(error.contains("survey refused, number 4 at member 255"), "{error}");
}
