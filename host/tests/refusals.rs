//! The wrapper: which file is refused, and every refusal number in words.

mod common;

use common::{expected, library};
use reference::generate::*;
use tbr::file;
use tbr::form::{explain, numbers, read};
use tbr::{check_survey, check_vehicle, judge, CouplingRefusal, GaugeRefusal, Refusal, Which};

const SURVEY: &[u8] = include_bytes!("../../samples/case-a.tbr");
const VEHICLE: &[u8] = include_bytes!("../../samples/case-l.tbv");
/// Version 2, six axles.
const TRAILER: &[u8] = include_bytes!("../../samples/transformer-trailer.tbv");

/// The trailer with these bytes in the weight of its second axle.
fn with_weight(bytes: &[u8]) -> Vec<u8> {
    let at = 9 + 6;
    [&TRAILER[..at], bytes, &TRAILER[at + bytes.len()..]].concat()
}

/// The bytes with one of them changed.
fn changed(bytes: &[u8], at: usize, to: u8) -> Vec<u8> {
    let mut bytes = bytes.to_vec();
    bytes[at] = to;
    bytes
}

fn survey_refusal(bytes: &[u8]) -> (u64, u64) {
    let refusal = judge(bytes, VEHICLE).unwrap_err();
    assert_eq!(refusal.file, Which::Survey);
    assert_eq!(check_survey(bytes), Err(refusal));
    (refusal.number, refusal.place)
}

fn vehicle_refusal(bytes: &[u8]) -> (u64, u64) {
    let refusal = judge(SURVEY, bytes).unwrap_err();
    assert_eq!(refusal.file, Which::Vehicle);
    assert_eq!(check_vehicle(bytes), Err(refusal));
    (refusal.number, refusal.place)
}

#[test]
fn case_a_with_the_vehicle_of_case_l() {
    let judgement = judge(SURVEY, VEHICLE).unwrap();
    assert_eq!((judgement.figure, judgement.governing, judgement.passes), (1720, 1, true));
    assert_eq!((check_survey(SURVEY), check_vehicle(VEHICLE)), (Ok(()), Ok(())));
}

#[test]
fn each_number_of_a_survey() {
    assert_eq!(survey_refusal(&[]), (1, 0));
    assert_eq!(survey_refusal(&SURVEY[..37]), (1, 0));
    assert_eq!(survey_refusal(VEHICLE), (2, 0));
    for version in [0, 3] {
        assert_eq!(survey_refusal(&changed(SURVEY, 3, version)), (2, 0));
    }
    assert_eq!(check_survey(&changed(SURVEY, 3, 2)), Ok(()));
    assert_eq!(survey_refusal(&changed(SURVEY, 5, 0)), (3, 0));
    for count in [2, 64, 65, 255] {
        assert_eq!(survey_refusal(&changed(SURVEY, 5, count)), (1, 0));
    }
    let [kind, species, section, rot, unused] = [6, 8, 20, 24, 14];
    assert_eq!(survey_refusal(&changed(SURVEY, kind, 8)), (4, 1));
    assert_eq!(survey_refusal(&changed(SURVEY, species, 9)), (5, 1));
    assert_eq!(survey_refusal(&changed(SURVEY, section, 3)), (6, 1));
    assert_eq!(survey_refusal(&changed(SURVEY, rot, 61)), (7, 1));
    assert_eq!(survey_refusal(&changed(SURVEY, unused, 1)), (8, 1));
    // Stringers of 500 cm, then of 300 cm.
    assert_eq!(survey_refusal(&changed(FOREST_ROAD, 3, 2)), (16, 2));
}

#[test]
fn each_number_of_a_vehicle() {
    assert_eq!(vehicle_refusal(&[]), (1, 0));
    assert_eq!(vehicle_refusal(&VEHICLE[..16]), (1, 0));
    assert_eq!(vehicle_refusal(SURVEY), (2, 0));
    for version in [0, 3] {
        assert_eq!(vehicle_refusal(&changed(VEHICLE, 3, version)), (2, 0));
        assert_eq!(vehicle_refusal(&changed(TRAILER, 3, version)), (2, 0));
    }
    // The length is the other version's.
    assert_eq!(vehicle_refusal(&changed(VEHICLE, 3, 2)), (1, 0));
    assert_eq!(vehicle_refusal(&changed(TRAILER, 3, 1)), (1, 0));
    assert_eq!(vehicle_refusal(&changed(VEHICLE, 8, 0)), (3, 0));
    // 200,000 is 0x30d40, and 72,500 is 0x11b34.
    let [heaviest, beyond] = [[0x40, 0x0d, 3], [0x41, 0x0d, 3]];
    assert_eq!(check_vehicle(&with_weight(&heaviest)), Ok(()));
    assert_eq!(vehicle_refusal(&with_weight(&beyond)), (7, 2));
    assert_eq!(vehicle_refusal(&with_weight(&[0, 0, 0])), (7, 2));
    assert_eq!(vehicle_refusal(&with_weight(&[0x34, 0x1b, 1, 1])), (7, 2));
    let [class, track, first_distance] = [5, 6, 11];
    assert_eq!(vehicle_refusal(&changed(VEHICLE, class, 2)), (7, 0));
    assert_eq!(vehicle_refusal(&changed(VEHICLE, track, 10)), (7, 0));
    assert_eq!(vehicle_refusal(&changed(VEHICLE, first_distance, 1)), (7, 1));
}

#[test]
fn the_surveys_refusal_comes_first() {
    let refusal = judge(&changed(SURVEY, 6, 8), &[]).unwrap_err();
    assert_eq!(refusal, Refusal { file: Which::Survey, number: 4, place: 1 });
}

/// The parts of slices, at every place within a longer run of bytes.
#[test]
fn slices_of_slices() {
    let joined = [SURVEY, VEHICLE, SURVEY].concat();
    for start in 0..SURVEY.len() {
        for end in start..joined.len() {
            let (survey, vehicle) = (&joined[start..end], &joined[end..]);
            assert_eq!(library(survey, vehicle), expected(survey, vehicle), "{start}..{end}");
        }
    }
}

#[test]
fn all_numbers_have_words_of_their_own() {
    for (file, further) in [(Which::Survey, &[14, 15, 16, 18, 19][..]), (Which::Vehicle, &[14, 17])]
    {
        let numbers: Vec<u64> = (1..=9).chain(further.iter().copied()).collect();
        let meaning = |number: &u64| Refusal { file, number: *number, place: 1 }.meaning();
        let mut words: Vec<String> = numbers.iter().map(meaning).collect();
        words.sort_unstable();
        words.dedup();
        assert_eq!(words.len(), numbers.len(), "{words:?}");
    }
    for (file, opening) in
        [(Which::Survey, "TBR and version 1 or 2"), (Which::Vehicle, "TBV and version 1 or 2")]
    {
        let words =
            format!("{file} refused, number 2: it does not begin with the letters {opening}");
        assert_eq!(Refusal { file, number: 2, place: 0 }.to_string(), words);
    }
    let refusal = Refusal { file: Which::Survey, number: 4, place: 3 };
    assert_eq!(refusal.to_string(), "survey refused, number 4 at member 3: the kind is not 1 to 7");
    let refusal = Refusal { file: Which::Vehicle, number: 7, place: 0 };
    let words = "vehicle refused, number 7: the class or the track is outside its range";
    assert_eq!(refusal.to_string(), words);
}

/// 15 is of two surveys of one bridge: of their counts, or of a record.
#[test]
fn two_surveys_that_are_not_of_one_bridge() {
    let refusal = |file, place| Refusal { file, number: 15, place };
    let words = "survey refused, number 15: the two surveys have different counts of members";
    assert_eq!(refusal(Which::Survey, 0).to_string(), words);
    let words = "survey refused, number 15 at member 3: the record is not the first survey's with \
                 rot, losses and dead load as great or greater and all else equal; of closely \
                 spaced stringers only the dead load may grow";
    assert_eq!(refusal(Which::Survey, 3).to_string(), words);
    let no_words = Refusal { file: Which::Vehicle, number: 9, place: 0 }.meaning();
    assert_eq!(refusal(Which::Vehicle, 0).meaning(), no_words, "a vehicle has no 15");
    let out_of_order = Refusal { file: Which::Vehicle, number: 16, place: 1 };
    assert_eq!(out_of_order.meaning(), no_words, "nor has it 16");
    // No field of the record alone is at fault.
    assert_eq!(explain(FOREST_ROAD, &refusal(Which::Survey, 3)), []);
}

/// 18 and 19 are of two surveys that are to be joined, 14 of the output for the joined one.
#[test]
fn two_surveys_that_cannot_be_joined() {
    let refusal = |number, place| Refusal { file: Which::Survey, number, place };
    let counts = "survey refused, number 18: the two surveys have different counts of members";
    assert_eq!(refusal(18, 0).to_string(), counts);
    let words = "survey refused, number 18 at member 3: the two records differ in what must \
                 agree: kind, species, section code, panel length, distance from the support, \
                 tiers, pieces, cuts, dowel type and diameter, joint part, chord whole, a deck's \
                 boards and its rot";
    assert_eq!(refusal(18, 3).to_string(), words);
    let words = "survey refused, number 19 at member 1: the two records are too far apart: a \
                 span, or a cross beam's truss spacing, may differ by 5 cm, and spacing, section \
                 sizes, truss height and rot by 1";
    assert_eq!(refusal(19, 1).to_string(), words);
    let words = "survey refused, number 14: the output is too short for the joined survey";
    assert_eq!(refusal(14, 0).to_string(), words);
    for number in [18, 19] {
        // No field of the record alone is at fault, and a vehicle has neither number.
        assert_eq!(explain(FOREST_ROAD, &refusal(number, 3)), []);
        let of_vehicle = |number| Refusal { file: Which::Vehicle, number, place: 1 }.meaning();
        assert_eq!(of_vehicle(number), of_vehicle(9));
    }
}

/// 20 is of a gauge's readings: which of them is no reading, or that the last is above the second.
/// No file is at fault.
#[test]
fn readings_of_a_gauge_that_are_none() {
    let words = |number, place| GaugeRefusal { number, place }.to_string();
    for (place, which) in [(1, "before"), (2, "under"), (3, "after")] {
        let expected = format!(
            "gauge refused, number 20 at reading {place}: the reading {which} the load is not a \
             whole number of 64ths of a mm from 0 to below 512 mm with its sign bit clear"
        );
        assert_eq!(words(20, place), expected);
    }
    let risen = "gauge refused, number 20: the reading after the load is above that under it";
    assert_eq!(words(20, 0), risen);
    assert_eq!(words(11, 0), "gauge refused, number 11: no survey is loaded");
    assert_eq!(words(12, 0), "gauge refused, number 12: no vehicle is loaded");
    assert_eq!(words(13, 0), "gauge refused, number 13: the survey has no member at that place");
    let no_words = Refusal { file: Which::Vehicle, number: 9, place: 0 }.meaning();
    for (number, place) in [(20, 4), (20, u64::MAX), (11, 1), (14, 0), (19, 1), (0, 0)] {
        assert_eq!(GaugeRefusal { number, place }.meaning(), no_words, "{number} at {place}");
    }
    for (file, place) in [Which::Survey, Which::Vehicle].into_iter().zip(0..) {
        assert_eq!(Refusal { file, number: 20, place }.meaning(), no_words, "a {file} has no 20");
    }
}

/// Of two vehicles 3 and 7 at place 0 are also of both together; the others are of either file.
#[test]
fn two_vehicles_that_cannot_be_coupled() {
    let words = |number, place| CouplingRefusal { number, place }.to_string();
    let axles = "coupling refused, number 3: a file's count of axles is not 1 to 16, or the two \
                 have more than 16 axles together";
    assert_eq!(words(3, 0), axles);
    let fronts = "coupling refused, number 7: a file's class or track is outside its range, the \
                  two files differ in class or track, or the gap is not 1 to 2000 cm";
    assert_eq!(words(7, 0), fronts);
    let axle = "coupling refused, number 7 at axle 3: in the first or the second file: the weight \
                or the distance is outside its range; the first axle's distance is 0";
    assert_eq!(words(7, 3), axle);
    for number in [1, 2] {
        let own = Refusal { file: Which::Vehicle, number, place: 0 }.meaning();
        let expected =
            format!("coupling refused, number {number}: in the first or the second file: {own}");
        assert_eq!(words(number, 0), expected);
    }
    let no_words = Refusal { file: Which::Vehicle, number: 9, place: 0 }.meaning();
    for (number, place) in [(0, 0), (1, 1), (2, 3), (3, 1), (4, 1), (11, 0), (14, 0), (17, 1)] {
        assert_eq!(CouplingRefusal { number, place }.meaning(), no_words, "{number} at {place}");
    }
}

/// The same files judged in several threads, in another order in each: nothing is kept from call to
/// call, and no call disturbs another.
#[test]
fn nothing_is_kept_between_calls() {
    let mut random = Random::new(0x5a3e);
    let pairs: Vec<(Vec<u8>, Vec<u8>)> = (0..200).map(|_| some_damage(&mut random)).collect();
    let first: Vec<_> = pairs.iter().map(|(survey, vehicle)| judge(survey, vehicle)).collect();
    std::thread::scope(|scope| {
        for thread in 0..4 {
            let (pairs, first) = (&pairs, &first);
            scope.spawn(move || {
                let mut random = Random::new(thread);
                for _ in 0..2000 {
                    let at = random.below(pairs.len());
                    assert_eq!(judge(&pairs[at].0, &pairs[at].1), first[at]);
                }
            });
        }
    });
}

const FOREST_ROAD: &[u8] = include_bytes!("../../samples/forest-road.tbr");

/// The fields that a refused survey's refusal is about, in words.
fn survey_words(bytes: &[u8]) -> Vec<String> {
    let refusal = check_survey(bytes).unwrap_err();
    explain(bytes, &refusal).iter().map(|fault| fault.to_string()).collect()
}

fn vehicle_words(bytes: &[u8]) -> Vec<String> {
    let refusal = check_vehicle(bytes).unwrap_err();
    explain(bytes, &refusal).iter().map(|fault| fault.to_string()).collect()
}

/// The survey with a word of a member, from 1, replaced.
fn with_word(survey: &[u8], place: usize, word: usize, value: u16) -> Vec<u8> {
    let mut bytes = survey.to_vec();
    let at = 6 + 32 * (place - 1) + 2 * word;
    bytes[at..at + 2].copy_from_slice(&value.to_le_bytes());
    bytes
}

#[test]
fn fields_of_a_survey_at_fault() {
    let [sawn_stringer, log_beam, chord, dowels, keyed, plates] = [2, 3, 4, 5, 6, 7];
    for (place, word, value, words) in [
        (
            1,
            0,
            9,
            "kind: 9 is not one of: 1 stringer, 2 cross beam, 3 chord, 4 dowelled joint, \
                   5 keyed joint, 6 steel plates, 7 close stringer",
        ),
        (
            1,
            1,
            0,
            "species: 0 is not one of: 1 pine, 2 spruce, 3 larch, 4 cedar, 5 fir, 6 oak, \
                   7 ash, 7 maple, 7 hornbeam, 8 beech",
        ),
        (1, 7, 4, "section: 4 is not one of: 1 log, 2 sawn, 5 crescent"),
        (1, 2, 99, "span (l): 99 is outside 100 to 5000 cm"),
        (1, 8, 40, "diameter (s1): 40 is outside 13 to 39 cm"),
        (1, 4, 7, "x: 7 must be 0: the kind 'stringer' does not use it"),
        (1, 11, 3, "s4: 3 must be 0: the section 'log' does not use it"),
        (sawn_stringer, 13, 30, "lost area (s6): 30 must be 0: a beam in bending has no lost area"),
        (sawn_stringer, 14, 1, "A: 1 must be 0: the kind 'stringer' does not use it"),
        (log_beam, 3, 5, "d: 5 must be 0: the kind 'cross beam' does not use it"),
        (log_beam, 4, 1001, "panel length (x): 1001 is outside 10 to 1000 cm"),
        (chord, 4, 1200, "from support (x): 1200 cm is not below the span of 1200 cm"),
        (chord, 6, 10001, "dead load (q): 10001 is outside 0 to 10000 kgf/m"),
        (dowels, 8, 4, "type (s1): 4 is not one of: 1 steel, 2 nail, 3 oak"),
        (dowels, 14, 5, "joint part (A): 5 is above the chord whole of 4"),
        (keyed, 10, 1, "s3: 1 must be 0: the section 'area' does not use it"),
        (plates, 1, 1, "species: 1 must be 0: the kind 'steel plates' does not use it"),
        (plates, 15, 0, "chord whole (B): 0 is outside 1 to 1000"),
    ] {
        let bytes = with_word(FOREST_ROAD, place, word, value);
        assert_eq!(survey_words(&bytes), [words], "{place} {word}");
    }
}

const CRESCENT: &[u8] = include_bytes!("../../samples/crescent.tbr");

#[test]
fn fields_of_a_crescent_at_fault() {
    let (kind, section, s1, s2, s3, s4, s6) = (0, 7, 8, 9, 10, 11, 13);
    for (word, value, words) in [
        (kind, 5, "section: 5 is not one of: 4 area"),
        (section, 6, "section: 6 is not one of: 1 log, 2 sawn, 5 crescent"),
        (s1, 13, "diameter (s1): 13 is outside 14 to 36 cm"),
        (s1, 37, "diameter (s1): 37 is outside 14 to 36 cm"),
        (s2, 61, "depth (s2): 61 is outside 0 to 60 cm"),
        (s3, 4, "tiers (s3): 4 is outside 1 to 3"),
        (s4, 1, "s4: 1 must be 0: the section 'crescent' does not use it"),
        (s6, 9, "s6: 9 must be 0: the section 'crescent' does not use it"),
    ] {
        assert_eq!(survey_words(&with_word(CRESCENT, 2, word, value)), [words], "{word}");
    }
}

/// All fields of the record that the number is about.
#[test]
fn several_fields_at_fault() {
    let mut bytes = with_word(FOREST_ROAD, 1, 2, 99);
    bytes[6 + 16..6 + 18].copy_from_slice(&[40, 0]);
    let span = "span (l): 99 is outside 100 to 5000 cm";
    assert_eq!(survey_words(&bytes), [span, "diameter (s1): 40 is outside 13 to 39 cm"]);
}

#[test]
fn fields_of_a_vehicle_at_fault() {
    let [class, track, weight, first_distance, distance] = [5, 6, 9, 11, 15];
    let mut light = changed(VEHICLE, weight, 0);
    light[weight + 1] = 0;
    for (bytes, words) in [
        (changed(VEHICLE, class, 2), "class: 2 is not one of: 0 lorry, 1 tractor, 1 trailer"),
        (changed(VEHICLE, track, 10), "track: 10 is outside 100 to 300 cm"),
        (light, "weight: 0 is outside 1 to 60000 kgf"),
        (with_weight(&[0, 0, 0]), "weight: 0 is outside 1 to 200000 kgf"),
        (with_weight(&[0x41, 0x0d, 3]), "weight: 200001 is outside 1 to 200000 kgf"),
        (changed(TRAILER, 9 + 4, 1), "distance: must be 0 cm, not 1"),
        (changed(TRAILER, TRAILER.len() - 1, 255), "distance: 65440 is outside 1 to 2000 cm"),
        (changed(TRAILER, class, 2), "class: 2 is not one of: 0 lorry, 1 tractor, 1 trailer"),
        (changed(VEHICLE, first_distance, 1), "distance: must be 0 cm, not 1"),
        (changed(VEHICLE, distance + 1, 255), "distance: 65394 is outside 1 to 2000 cm"),
    ] {
        assert_eq!(vehicle_words(&bytes), [words]);
    }
}

/// Whatever the damage: a refusal of a record names at least one field, and the tables of the text
/// form know every fault that the library knows.
#[test]
fn every_refused_record_has_a_field_at_fault() {
    let mut random = Random::new(common::seed(0xf1e1d));
    let (mut seen, mut heavy) = ([0; 17], 0);
    for i in 0..50_000 {
        let (survey, vehicle) = some_damage(&mut random);
        for (bytes, answer) in
            [(&survey, check_survey(&survey)), (&vehicle, check_vehicle(&vehicle))]
        {
            let Err(refusal) = answer else { continue };
            let named = explain(bytes, &refusal);
            assert_eq!(named.is_empty(), refusal.number < 4, "input {i}: {refusal}");
            seen[usize::try_from(refusal.number).unwrap()] += 1;
            heavy += u32::from(bytes.starts_with(b"TBV\x02\x00") && refusal.place > 0);
        }
    }
    assert!(seen[1..=8].iter().chain([&seen[16]]).all(|count| *count > 20), "{seen:?}");
    assert!(heavy > 1000, "{heavy} axles of version 2 are refused");
}

/// A refusal of other bytes, or with a place or number that cannot be, names nothing.
#[test]
fn refusals_of_other_bytes_name_nothing() {
    for file in [Which::Survey, Which::Vehicle] {
        for number in [0, 1, 3, 4, 7, 8, 9, 14, 15, 16, 17, 18, 19, 20, u64::MAX] {
            for place in [0, 1, 2, 65, u64::MAX] {
                let refusal = Refusal { file, number, place };
                assert_eq!(explain(&[], &refusal), []);
                assert_eq!(numbers(&[], &refusal), []);
                for bytes in [SURVEY, VEHICLE, TRAILER] {
                    let (named, all) = (explain(bytes, &refusal), numbers(bytes, &refusal));
                    assert!(named.len() <= all.len(), "{refusal}");
                }
                assert!(!refusal.to_string().is_empty());
            }
        }
    }
    // Its members do not stand in order, and version 1 does not ask for it.
    for place in 0..=8 {
        let refusal = Refusal { file: Which::Survey, number: 16, place };
        assert_eq!(explain(FOREST_ROAD, &refusal), [], "{refusal}");
    }
}

/// The public functions on any bytes: an answer or none, no panic.
#[test]
fn any_bytes_at_the_public_functions() {
    let mut random = Random::new(common::seed(0xa11_b17e5));
    for i in 0..20_000 {
        let length = random.below(400);
        let mut bytes = match i % 3 {
            0 => random.bytes(length),
            1 => some_damage(&mut random).0,
            _ => some_damage(&mut random).1,
        };
        bytes.truncate(length);
        hold_total(&bytes);
        let words = b"survey\nvehicle, stringer, section log, span 5 cm\naxle, weight \xff#\r\t0,";
        let text: Vec<u8> = (0..length).map(|_| words[random.below(words.len())]).collect();
        hold_total(&text);
        if let Err(faults) = read(&text) {
            assert!(!faults.is_empty());
            assert!(faults.is_sorted_by_key(|fault| fault.line), "{faults:?}");
        }
    }
}

fn hold_total(bytes: &[u8]) {
    use tbr::form::{clause, kind_of, look, section_of, write, AXLES, HEADING};
    let _ = (look(bytes), read(bytes));
    let members = file::members(bytes);
    for words in &members {
        if let (Some(kind), Some(section)) = (kind_of(words), section_of(words)) {
            let all = kind.fields.iter().chain(section.fields_in(kind));
            for field in all {
                let _ = (clause(field, words), clause::<u16>(field, &[]), field.misfit(words));
            }
        }
    }
    if let Some(survey) = file::survey(bytes) {
        assert_eq!(survey.members, members);
        let contents = file::Contents::Survey(survey);
        let _ = (write(&contents), contents.bytes(), contents.count());
    }
    if let Some(vehicle) = file::vehicle(bytes) {
        let _ = (clause(&HEADING[0], &vehicle.heading), clause::<u32>(&AXLES[1].other[1], &[]));
        let contents = file::Contents::Vehicle(vehicle);
        let _ = (write(&contents), contents.bytes());
    }
}

/// A file's count and class are a byte each; a weight has two bytes, or four in version 2, and a
/// distance two.
#[test]
fn what_a_file_cannot_hold_has_no_bytes() {
    use tbr::file::{Contents, Survey, Vehicle};
    let survey =
        |count| Contents::Survey(Survey { version: 1, members: vec![[0; 16]; count] }).bytes();
    assert_eq!(survey(255).map(|bytes| bytes.len()), Some(6 + 32 * 255));
    assert_eq!((survey(256), survey(257), survey(512)), (None, None, None));
    let length = |version, class, axles| {
        let vehicle = Vehicle { version, heading: [class, 190], axles };
        Contents::Vehicle(vehicle).bytes().map(|bytes| bytes.len())
    };
    for (version, axle, most) in [(1, 4, 0xffff), (2, 6, u32::MAX)] {
        let vehicle = |class, count| length(version, class, vec![[1, 0]; count]);
        assert_eq!(vehicle(255, 255), Some(9 + axle * 255));
        assert_eq!((vehicle(256, 1), vehicle(0, 256)), (None, None));
        assert_eq!(length(version, 0, vec![[most, 0xffff]]), Some(9 + axle));
        assert_eq!(length(version, 0, vec![[1, 0x1_0000]]), None);
    }
    assert_eq!(length(1, 0, vec![[0x1_0000, 0]]), None);
    for length in 0..9 {
        assert_eq!(file::vehicle(&VEHICLE[..length]), None);
        assert_eq!(file::members(&SURVEY[..length]), [[0; 16]; 0]);
        assert_eq!(file::survey(&SURVEY[..length]).is_some(), length >= 6);
    }
}
