//! Vehicles of version 2, whose axles weigh up to 200,000 kgf: the heading of the text form, the
//! limits of a weight by version, the words for refusals 2, 7, 14 and 17, and `tbr` on such
//! vehicles. The text form asks for what the library asks for.

mod cli;
mod common;

use cli::{run, sample, text, Folder};
use reference::generate::*;
use tbr::file::{self, Contents, Vehicle};
use tbr::form::{explain, numbers, read, write, Problem, TextError};
use tbr::{check_vehicle, Refusal, Which};

const TRAILER: &[u8] = include_bytes!("../../samples/transformer-trailer.tbv");
const HEAVIER: &str = "; version 2 takes up to 200000 kgf";

fn contents(version: u16, axles: &[[u32; 2]]) -> Contents {
    Contents::Vehicle(Vehicle { version, heading: [1, 270], axles: axles.to_vec() })
}

/// Line, field and message of all faults of this text; none where it is taken.
fn faults(text: &str) -> Vec<String> {
    let faults = read(text.as_bytes()).err().unwrap_or_default();
    faults.iter().map(TextError::to_string).collect()
}

/// The heading says the version, or it is the first.
#[test]
fn headings_with_a_version() {
    let axle = "axle, weight 60000 kgf, distance 0 cm";
    for (heading, version) in [
        ("vehicle, class lorry, track 190 cm", 1),
        ("vehicle, version 1, class lorry, track 190 cm", 1),
        ("vehicle, version 2, class lorry, track 190 cm", 2),
        ("vehicle, class lorry, track 190 cm, version 2", 2),
        ("\tvehicle ,, track 190 cm, version \t 2 , class lorry, # heavy", 2),
    ] {
        let contents = read(format!("{heading}\n{axle}").as_bytes()).unwrap();
        let read = (contents.version(), contents.count());
        assert_eq!(read, (version, 1), "{heading}");
        let written = write(&contents).unwrap();
        let said = if version == 1 { "" } else { "version 2, " };
        assert_eq!(written, format!("vehicle, {said}class lorry, track 190 cm\n{axle}\n"));
    }
    for (version, words) in [
        ("version 0", "version: 0 is outside 1 to 2"),
        ("version 3", "version: 3 is outside 1 to 2"),
        ("version 65538", "version: 65538 is outside 1 to 2"),
        ("version", "version: '' is not a whole number"),
        ("version x", "version: 'x' is not a whole number"),
        ("version 2 cm", "version: 'cm' follows a plain number"),
        ("version 2, version 2", "version: stands here twice"),
        ("version 2, old", "'old': there is no such field here"),
        ("versions 2", "'versions 2': there is no such field here"),
    ] {
        let text = format!("# heavy\nvehicle, {version}, class lorry, track 190 cm\n{axle}");
        assert_eq!(faults(&text), [format!("line 2, {words}")]);
    }
}

/// What version 1 cannot hold and version 2 can is told of version 2; nothing else is.
#[test]
fn limits_of_a_weight() {
    let said = |heading: &str, weight: u64| {
        let axle = format!("axle, weight {weight} kgf, distance 0 cm");
        faults(&format!("{heading}, class trailer, track 270 cm\n{axle}"))
    };
    let light = |weight| said("vehicle", weight);
    let heavy = |weight| said("vehicle, version 2", weight);
    for weight in [1, 59_999, 60_000] {
        assert_eq!((light(weight), heavy(weight)), (vec![], vec![]), "{weight}");
    }
    for weight in [60_001, 65_535, 65_536, 65_537, 131_072, 199_999, 200_000] {
        let words = format!("line 2, weight: {weight} is outside 1 to 60000 kgf{HEAVIER}");
        assert_eq!((light(weight), heavy(weight)), (vec![words], vec![]), "{weight}");
    }
    for weight in [0, 200_001, (1 << 32) + 70_000, u64::MAX] {
        let words = |greatest| format!("line 2, weight: {weight} is outside 1 to {greatest} kgf");
        assert_eq!(light(weight), [words(60_000)]);
        assert_eq!(heavy(weight), [words(200_000)]);
    }
}

/// Of a version that is wrong, or without a heading, an axle may weigh what the last version takes.
#[test]
fn weights_beside_a_wrong_version() {
    let axles = |weight| format!("axle, weight {weight} kgf, distance 0 cm\n");
    for heading in ["vehicle, version 3, class lorry, track 190 cm", "vehicel, version 1"] {
        let heavy = faults(&format!("{heading}\n{}", axles(200_000)));
        assert!(heavy.len() == 1 && heavy[0].starts_with("line 1, "), "{heavy:?}");
        let beyond = faults(&format!("{heading}\n{}", axles(200_001)));
        assert_eq!(beyond[1..], ["line 2, weight: 200001 is outside 1 to 200000 kgf"]);
    }
}

/// Vehicles of both versions by turns, half of each with one weight that its version does not take:
/// the text form has a fault for just those that the library refuses, of that weight and no other
/// number.
#[test]
fn the_text_form_asks_for_the_librarys_limits() {
    let seed = common::seed(0x09ea_2001);
    let mut random = Random::new(seed);
    let mut seen = [[0; 2]; 2];
    for i in 0..4000 {
        let (version, faulty) = (VERSIONS[i % 2], i / 2 % 2);
        let mut words = vehicle_of(&mut random, version, Spread::Wide, 1 + i % 16);
        if faulty == 1 {
            let at = random.below(words.axles.len());
            let beyond = [[60_001, 65_535], [200_001, u32::MAX]][i % 2][random.below(2)];
            words.axles[at][0] = if random.once_in(3) { 0 } else { beyond };
        }
        let bytes = vehicle_bytes(&words);
        let text = write(&Contents::Vehicle(file::vehicle(&bytes).unwrap())).unwrap();
        let faults = read(text.as_bytes()).err().unwrap_or_default();
        seen[i % 2][faulty] += 1;
        let Err(refusal) = check_vehicle(&bytes) else {
            assert_eq!((faults, faulty), (vec![], 0), "TBR_SEED={seed}, {i}: {text}");
            continue;
        };
        assert_eq!(faulty, 1, "TBR_SEED={seed}, {i}: {refusal}");
        let [fault] = &faults[..] else { panic!("TBR_SEED={seed}, {i}: {faults:?}") };
        let place = u64::try_from(fault.line - 1).unwrap();
        assert_eq!(refusal, Refusal { file: Which::Vehicle, number: 7, place });
        let explained = explain(&bytes, &refusal);
        let [named] = &explained[..] else { panic!("{explained:?}") };
        assert_eq!((&named.field, &named.problem), (&fault.field, &fault.problem));
        assert!(matches!(named.problem, Problem::Outside { .. }), "{named}");
    }
    assert_eq!(seen, [[1000; 2]; 2], "each version is sound and faulty by turns");
}

/// A weight of version 1 between 60,000 and what its two bytes hold: the words tell of version 2.
#[test]
fn refusal_7_in_words() {
    for (version, weight, words) in [
        (1, 60_001, format!("weight: 60001 is outside 1 to 60000 kgf{HEAVIER}")),
        (1, 0, "weight: 0 is outside 1 to 60000 kgf".to_string()),
        (2, 0, "weight: 0 is outside 1 to 200000 kgf".to_string()),
        (2, 200_001, "weight: 200001 is outside 1 to 200000 kgf".to_string()),
    ] {
        let bytes = contents(version, &[[5000, 0], [weight, 160]]).bytes().unwrap();
        let refusal = check_vehicle(&bytes).unwrap_err();
        assert_eq!((refusal.number, refusal.place), (7, 2), "{refusal}");
        let explained: Vec<String> =
            explain(&bytes, &refusal).iter().map(|fault| fault.to_string()).collect();
        assert_eq!(explained, [words]);
        assert_eq!(numbers(&bytes, &refusal), [("weight", weight), ("distance", 160)]);
    }
}

/// The refusals of a vehicle that is to be written in another version.
#[test]
fn refusals_14_and_17_in_words() {
    let refusal = |number, place| Refusal { file: Which::Vehicle, number, place };
    let heavy = refusal(17, 3);
    let words = "the weight is above 60000 kgf, and version 1 holds no greater";
    assert_eq!(heavy.to_string(), format!("vehicle refused, number 17 at axle 3: {words}"));
    let explained: Vec<String> =
        explain(TRAILER, &heavy).iter().map(|fault| fault.to_string()).collect();
    assert_eq!(explained, ["weight: 73000 kgf is above the 60000 kgf that version 1 holds"]);
    assert_eq!(numbers(TRAILER, &heavy), [("weight", 73_000), ("distance", 160)]);
    assert_eq!(explain(&sample("lorry.tbv"), &refusal(17, 1)), [], "a lorry fits");
    let short = refusal(14, 0);
    let words = "the output is too short for the file in the other version";
    assert_eq!(short.to_string(), format!("vehicle refused, number 14: {words}"));
    assert_eq!((explain(TRAILER, &short), numbers(TRAILER, &short)), (vec![], vec![]));
    // A survey has no 17, and its 14 is of another output.
    let survey = |number| Refusal { file: Which::Survey, number, place: 0 }.meaning();
    assert_eq!(survey(17), survey(9));
    assert_ne!(survey(14), short.meaning());
    let length =
        "its length is not what its version and count say, or it is too short to hold them";
    assert_eq!(refusal(1, 0).meaning(), length);
}

/// The numbers of a file by its own version.
#[test]
fn files_of_both_versions() {
    let axles = [[1500, 0], [3000, 370]];
    for (version, name) in [(1, "case-l.tbv"), (2, "heavy")] {
        let bytes = if version == 1 {
            sample(name)
        } else {
            let vehicle = VehicleWords { version, class: 0, track: 190, axles: axles.to_vec() };
            vehicle_bytes(&vehicle)
        };
        let vehicle = file::vehicle(&bytes).unwrap();
        assert_eq!(vehicle, Vehicle { version, heading: [0, 190], axles: axles.to_vec() });
        assert_eq!(Contents::Vehicle(vehicle).bytes(), Some(bytes));
    }
    // A version that no vehicle has is read as the first.
    let mut wrong = sample("case-l.tbv");
    wrong[3] = 3;
    let vehicle = file::vehicle(&wrong).unwrap();
    assert_eq!((vehicle.version, &vehicle.axles[..]), (3, &axles[..]));
}

/// The trailer made from its text form, shown, and back; its file and its text are judged alike.
#[test]
fn the_trailer_by_the_command_line() {
    let folder = Folder::new("trailer");
    let made = folder.path("made.tbv");
    let (status, out, error) = run(&["make", "transformer-trailer.txt", &made]);
    assert_eq!((status, error.as_str()), (0, ""));
    assert_eq!(out, format!("{made}: vehicle of 6 axles, version 2\n"));
    assert_eq!(std::fs::read(&made).unwrap(), TRAILER);
    let (status, shown, _) = run(&["show", "transformer-trailer.tbv"]);
    let lines: Vec<&str> = shown.lines().take(3).collect();
    let expected = [
        "transformer-trailer.tbv: vehicle of 6 axles, version 2",
        "     class tractor, track 270 cm",
        "  1  axle: weight 72500 kgf, distance 0 cm",
    ];
    assert_eq!((status, &lines[..]), (0, &expected[..]));
    let (status, back, _) = run(&["make", "--back", &made]);
    assert_eq!(status, 0);
    assert!(back.starts_with("vehicle, version 2, class tractor, track 270 cm\naxle, "), "{back}");
    assert_eq!(read(back.as_bytes()), read(text("transformer-trailer.txt").as_bytes()));
    let judged = run(&["judge", "forest-road.tbr", "transformer-trailer.tbv"]);
    assert_eq!(judged, run(&["judge", "forest-road.tbr", "transformer-trailer.txt"]));
    assert_eq!(judged.0, 1);
}

/// The lorry in both versions gets the same answer; without its version the trailer's text is wrong
/// at each of its axles, and a version that no vehicle has is named.
#[test]
fn versions_by_the_command_line() {
    let folder = Folder::new("versions");
    let lorry = text("lorry.txt");
    let heavy = folder.file("heavy.txt", lorry.replace("vehicle,", "vehicle, version 2,"));
    let judged = |name: &str| run(&["judge", "--csv", "forest-road.tbr", name]);
    let (status, out, error) = judged(&heavy);
    assert_eq!(judged("lorry.txt"), (status, out.replace(&heavy, "lorry.txt"), error));
    let file = folder.path("heavy.tbv");
    let (_, made, _) = run(&["make", &heavy, &file]);
    assert_eq!(made, format!("{file}: vehicle of 2 axles, version 2\n"));
    let light = text("transformer-trailer.txt").replace("version 2, ", "");
    let light = folder.file("light.txt", light);
    let (status, out, error) = run(&["judge", "case-a.tbr", &light]);
    assert_eq!((status, out.as_str()), (2, ""));
    assert_eq!(error.lines().filter(|line| line.ends_with(HEAVIER)).count(), 6, "{error}");
    let mut wrong = TRAILER.to_vec();
    wrong[3] = 3;
    let wrong = folder.file("wrong.tbv", wrong);
    let words =
        "vehicle refused, number 2: it does not begin with the letters TBV and version 1 or 2";
    assert_eq!(run(&["show", &wrong]), (2, String::new(), format!("tbr: {wrong}: {words}\n")));
}

/// The files and text forms of a yard of both versions.
const IN_YARD: [&str; 4] =
    ["lorry.tbv", "transformer-trailer.txt", "case-l.txt", "transformer-trailer.tbv"];

/// The yard, made in this folder.
fn yard(folder: &Folder) -> String {
    let yard = folder.path("both.tby");
    let words = [&["make", "--yard"][..], &IN_YARD, &[&yard]].concat();
    assert_eq!(run(&words), (0, format!("{yard}: yard of 4 vehicles\n"), String::new()));
    yard
}

/// Made of files and text forms, shown, and judged as each vehicle alone.
#[test]
fn a_yard_of_both_versions() {
    let folder = Folder::new("both");
    let yard = yard(&folder);
    let files = ["lorry", "transformer-trailer", "case-l", "transformer-trailer"];
    let files = files.map(|name| sample(&format!("{name}.tbv")));
    assert_eq!(std::fs::read(&yard).ok(), file::join_yard(&files));
    let (status, shown, _) = run(&["show", &yard]);
    let summaries: Vec<&str> = shown.lines().filter(|line| line.contains(", version ")).collect();
    let expected = [
        "1: vehicle of 2 axles, version 1",
        "2: vehicle of 6 axles, version 2",
        "3: vehicle of 2 axles, version 1",
        "4: vehicle of 6 axles, version 2",
    ];
    assert_eq!((status, summaries), (0, expected.to_vec()));
    let alone = |(i, file): (usize, &str)| {
        let (_, alone, _) = run(&["judge", "--csv", "forest-road.tbr", file]);
        alone.lines().nth(1).unwrap().replace(&format!(",{file},"), &format!(",{i},"))
    };
    let expected: Vec<String> = (1..).zip(IN_YARD).map(alone).collect();
    let (status, judged, _) = run(&["yard", "--csv", "forest-road.tbr", &yard]);
    assert_eq!(status, 1);
    assert!(judged.lines().skip(1).eq(expected.iter()), "{judged}");
}

/// Cut by a byte, the last vehicle is at fault; an axle of it is named by version 2's limits.
#[test]
fn faults_in_a_yard_of_both_versions() {
    let folder = Folder::new("both-faulty");
    let whole = std::fs::read(yard(&folder)).unwrap();
    let cut = folder.file("cut.tby", &whole[..whole.len() - 1]);
    let (status, _, error) = run(&["yard", "case-a.tbr", &cut]);
    assert!(status == 2 && error.contains("vehicle 4 refused, number 1: its length"), "{error}");
    let (mut heavy, weight) = (whole.clone(), whole.len() - 6);
    heavy[weight..weight + 4].copy_from_slice(&200_001_u32.to_le_bytes());
    let heavy = folder.file("heavy.tby", heavy);
    let (status, _, error) = run(&["yard", "case-a.tbr", &heavy]);
    let words = "vehicle 4 refused, number 7 at axle 6: weight: 200001 is outside 1 to 200000 kgf";
    let numbers = "its numbers: weight 200001, distance 160";
    assert_eq!((status, error), (2, format!("tbr: {heavy}: {words}\ntbr: {numbers}\n")));
}
