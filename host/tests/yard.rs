//! The exported `tbr_yard` against the reference: tens of thousands of yards with lists of every
//! length, sound and damaged, the whole list compared. Then its safe wrapper.

mod common;

use common::seed;
use reference::generate::*;
use reference::{reader, Refused};
use std::collections::BTreeMap;
use tbr::file::{join_yard, split_yard};
use tbr::{judge, judge_yard, YardJudgement, YardRefusal};

#[repr(C)]
#[derive(Clone, Copy, Debug, PartialEq, Eq)]
struct Numbers {
    refusal: u64,
    place: u64,
    vehicles: u64,
    passes: u64,
}

// As include/tbr.h has it.
extern "C" {
    fn tbr_yard(
        survey: *const u8,
        survey_length: usize,
        yard: *const u8,
        yard_length: usize,
        list: *mut u64,
        list_length: usize,
    ) -> Numbers;
}

/// Entry i of a list holds KNOWN + i before the call.
const KNOWN: u64 = 1_000_000;

/// What the library returns for a list of so many entries, and the list.
fn library(survey: &[u8], yard: &[u8], entries: usize) -> (Numbers, Vec<u64>) {
    let mut list: Vec<u64> = (KNOWN..).take(entries).collect();
    let (s, y, l) = (survey.as_ptr(), yard.as_ptr(), list.as_mut_ptr());
    // SAFETY: the pointers and lengths are those of three live slices, the last of them borrowed
    // mutably; the declaration is the header's.
    let numbers = unsafe { tbr_yard(s, survey.len(), y, yard.len(), l, list.len()) };
    (numbers, list)
}

/// The same by the reference: the survey's refusals come before the yard's.
fn expected(survey: &[u8], yard: &[u8], entries: usize) -> (Numbers, Vec<u64>) {
    let mut list: Vec<u64> = (KNOWN..).take(entries).collect();
    let judged = reader::survey(survey)
        .and_then(|members| reference::yard(Some(&members), yard, entries / 3));
    let numbers = match judged {
        Ok(yard) => {
            let numbers = |a: &reference::Answer| [a.figure, a.governing, u64::from(a.passes)];
            let answers = yard.answers.iter().flat_map(numbers);
            list.iter_mut().zip(answers).for_each(|(entry, number)| *entry = number);
            let vehicles = u64::try_from(yard.answers.len()).expect("at most 32");
            Numbers { refusal: 0, place: 0, vehicles, passes: yard.passes }
        }
        Err(Refused { number, place, .. }) => {
            Numbers { refusal: number, place, vehicles: 0, passes: 0 }
        }
    };
    (numbers, list)
}

/// Mostly small surveys and yards, as brute force is dear.
fn input(random: &mut Random) -> (Vec<u8>, Vec<u8>) {
    let spread = if random.once_in(3) { Spread::Wide } else { Spread::Usual };
    let survey = match random.below(800) {
        0 => full_survey_file(random, spread),
        1..=39 => some_damage(random).0,
        _ => {
            let members = 1 + random.below(3);
            survey_file(random, spread, members)
        }
    };
    let (count, axles) = match random.below(100) {
        0 => (32, 16),
        1..=5 => (1 + random.below(32), 3),
        6..=9 => (1 + random.below(6), 16),
        _ => (1 + random.below(4), 4),
    };
    let yard = match random.below(3) {
        0 => some_yard_damage(random, count),
        _ => yard_bytes(&yard(random, spread, count, axles)),
    };
    (survey, yard)
}

/// A list that just holds the yard, is too short by one or by some entries, or longer.
fn entries(random: &mut Random, yard: &[u8]) -> usize {
    let fits = 3 * usize::from(yard.first().copied().unwrap_or(0)).min(40);
    match random.below(8) {
        0 => fits.saturating_sub(1),
        1 => fits.saturating_sub(2),
        2 => random.below(fits + 1),
        3 => fits + 1 + random.below(9),
        _ => fits,
    }
}

/// Does one member govern for one vehicle, and another for another?
fn several_govern((numbers, list): &(Numbers, Vec<u64>)) -> bool {
    let vehicles = usize::try_from(numbers.vehicles).expect("at most 32");
    let mut governing = list.chunks_exact(3).take(vehicles).map(|answer| answer[1]);
    let first = governing.next();
    governing.any(|place| Some(place) != first)
}

#[test]
fn the_library_answers_as_the_reference() {
    let first = seed(0x9a4d_2001);
    let mut seen: BTreeMap<String, u64> = BTreeMap::new();
    let mut several = 0;
    for seed in first..first + 40_000 {
        let random = &mut Random::new(seed);
        let (survey, yard) = input(random);
        let entries = entries(random, &yard);
        let answer = library(&survey, &yard, entries);
        assert_eq!(answer, expected(&survey, &yard, entries), "TBR_SEED={seed}");
        several += u32::from(several_govern(&answer));
        let what = match answer.0 {
            Numbers { refusal: 0, passes: 0, .. } => "none passes".to_string(),
            Numbers { refusal: 0, vehicles, passes, .. } if passes == vehicles => "all".to_string(),
            Numbers { refusal: 0, .. } => "some".to_string(),
            Numbers { refusal, .. } => refusal.to_string(),
        };
        *seen.entry(what).or_default() += 1;
    }
    println!("{seen:?}");
    let numbers = ["1", "2", "3", "4", "5", "6", "7", "8", "14", "none passes", "some", "all"];
    for what in numbers {
        assert!(seen.get(what).copied().unwrap_or(0) >= 20, "{what} is rare: {seen:?}");
    }
    assert!(several >= 300, "different members govern in {several} yards");
}

/// Yards in which the versions take turns, from either on: sound ones, and such with one vehicle
/// that says the other version, so that the next begins elsewhere, or with the last cut by a byte.
#[test]
fn yards_of_both_versions() {
    const YARDS: u64 = 10_000;
    let first = seed(0x9a4d_2006);
    let mut sound = [0; 2];
    for seed in first..first + YARDS {
        let random = &mut Random::new(seed);
        let survey = survey_file(random, Spread::Usual, 2);
        let (begin, way, count) = ((seed % 2) as usize, seed / 2 % 4, 2 + random.below(4));
        let vehicle = |i| {
            let axles = 1 + random.below(4);
            vehicle_bytes(&vehicle_of(random, VERSIONS[(begin + i) % 2], Spread::Usual, axles))
        };
        let mut files: Vec<Vec<u8>> = (0..count).map(vehicle).collect();
        if way == 0 {
            files[seed as usize % count][3] ^= 3;
        }
        let mut yard = joined(&files);
        yard.truncate(yard.len() - usize::from(way == 1));
        let answer = library(&survey, &yard, 3 * count + 1);
        assert_eq!(answer, expected(&survey, &yard, 3 * count + 1), "TBR_SEED={seed}");
        assert_eq!(way < 2, answer.0.refusal != 0, "TBR_SEED={seed}");
        sound[begin] += u64::from(answer.0.refusal == 0);
    }
    assert_eq!(sound, [YARDS / 4; 2]);
}

/// One damage in each way at each place of a yard of 32 vehicles.
#[test]
fn refusals_at_every_place() {
    let first = seed(0x9a4d_2002);
    for seed in first..first + 20 {
        let mut random = Random::new(seed);
        let survey = survey_bytes(&survey(&mut random, Spread::Usual, 1));
        for DamagedYard { yard, number, place } in damaged_yards(&mut random) {
            let refused = Numbers { refusal: number, place, vehicles: 0, passes: 0 };
            let kept = (KNOWN..).take(100).collect();
            assert_eq!(library(&survey, &yard, 100), (refused, kept), "TBR_SEED={seed}");
        }
    }
}

#[test]
fn any_bytes_get_an_answer() {
    let first = seed(0x9a4d_2003);
    let survey = survey_bytes(&survey(&mut Random::new(first), Spread::Usual, 1));
    for seed in first..first + 40_000 {
        let mut random = Random::new(seed);
        let count = random.between(0, 36).to_le_bytes()[0];
        let files = [any_bytes(&mut random, b"TBV", 120), any_bytes(&mut random, b"TBV", 120)];
        let yard = [&[count], &files.concat()[..]].concat();
        for yard in [&yard[..], &files[0]] {
            for survey in [&survey, &files[1]] {
                let entries = random.below(120);
                let answer = library(survey, yard, entries);
                assert_eq!(answer, expected(survey, yard, entries), "TBR_SEED={seed}");
            }
        }
    }
    let mut random = Random::new(first);
    for length in 0..=2500 {
        let bytes = random.bytes(length);
        assert_eq!(library(&survey, &bytes, 96), expected(&survey, &bytes, 96), "{length} bytes");
        assert_eq!(library(&bytes, &bytes, 96), expected(&bytes, &bytes, 96), "{length} bytes");
    }
}

/// Lists far longer than a yard needs, and none at all.
#[test]
fn long_lists_and_none() {
    let mut random = Random::new(seed(0x9a4d_2004));
    let survey = survey_bytes(&survey(&mut random, Spread::Usual, 2));
    let yard = yard_bytes(&yard(&mut random, Spread::Usual, 32, 2));
    for entries in [0, 1, 2, 3, 94, 95, 96, 97, 98, 99, 1000, 100_000] {
        assert_eq!(library(&survey, &yard, entries), expected(&survey, &yard, entries));
    }
}

/// The wrapper: each judgement is that of the vehicle alone, or the refusal says whose it is.
#[test]
fn the_wrapper() {
    let first = seed(0x9a4d_2005);
    let mut seen = [0; 4];
    for seed in first..first + 10_000 {
        let (survey, yard) = input(&mut Random::new(seed));
        let (numbers, _) = library(&survey, &yard, 3 * 255);
        let answer = judge_yard(&survey, &yard);
        let files = split_yard(&yard).unwrap_or_default();
        let way = match &answer {
            Ok(YardJudgement { judgements, passes }) => {
                assert_eq!((numbers.refusal, numbers.passes), (0, *passes), "TBR_SEED={seed}");
                let alone = files.iter().map(|file| judge(&survey, file).expect("a sound vehicle"));
                assert_eq!(*judgements, alone.collect::<Vec<_>>(), "TBR_SEED={seed}");
                assert_eq!(join_yard(&files), Some(yard), "TBR_SEED={seed}");
                0
            }
            Err(YardRefusal::Survey(refusal)) => {
                assert_eq!(tbr::check_survey(&survey), Err(*refusal), "TBR_SEED={seed}");
                1
            }
            Err(YardRefusal::Vehicle { vehicle, refusal }) => {
                let (sound, faulty) = files.split_at(vehicle - 1);
                assert!(sound.iter().all(|file| tbr::check_vehicle(file).is_ok()));
                assert_eq!(tbr::check_vehicle(faulty[0]), Err(*refusal), "TBR_SEED={seed}");
                2
            }
            Err(YardRefusal::Yard { .. }) => 3,
        };
        if let Err(refusal) = &answer {
            assert_eq!((numbers.refusal, numbers.place), (refusal.number(), refusal.place()));
        }
        seen[way] += 1;
    }
    assert!(seen.iter().all(|&times| times > 100), "{seen:?}");
}

#[test]
fn refusals_in_words() {
    let survey = include_bytes!("../../samples/case-a.tbr");
    let vehicle = include_bytes!("../../samples/case-l.tbv").to_vec();
    let said = |survey: &[u8], yard: &[u8]| judge_yard(survey, yard).unwrap_err().to_string();
    let yard = |files: &[&[u8]]| join_yard(files).unwrap();
    let with = |at: usize, byte| {
        let mut vehicle = vehicle.clone();
        vehicle[at] = byte;
        vehicle
    };
    let sound = yard(&[&vehicle, &vehicle]);
    assert!(said(&vehicle, &sound).starts_with("survey refused, number 2: "));
    let nothing = "it is empty, or bytes are left over behind its last vehicle";
    assert_eq!(said(survey, &[]), format!("yard refused, number 1: {nothing}"));
    let longer = [&sound[..], &[0]].concat();
    assert_eq!(said(survey, &longer), format!("yard refused, number 1: {nothing}"));
    for count in [0, 33, 255] {
        let wrong = [&[count], &sound[1..]].concat();
        let words = "yard refused, number 3: its count of vehicles is not 1 to 32";
        assert_eq!(said(survey, &wrong), words);
    }
    let axle = said(survey, &yard(&[&vehicle, &with(14, 0xff)]));
    assert!(axle.starts_with("vehicle 2 refused, number 7 at axle 2: the weight "), "{axle}");
    let class = said(survey, &yard(&[&with(5, 2), &vehicle]));
    assert!(class.starts_with("vehicle 1 refused, number 7: the class "), "{class}");
    let cut = said(survey, &sound[..sound.len() - 1]);
    assert!(cut.starts_with("vehicle 2 refused, number 1: its length "), "{cut}");
    // A vehicle left over is not at fault itself, nor is what stands behind a wrong count.
    let over = said(survey, &[&[1], &sound[1..]].concat());
    assert!(over.starts_with("yard refused, number 1: "), "{over}");
    let axles = [&[33], &yard(&[&with(8, 17)])[1..]].concat();
    assert!(said(survey, &axles).starts_with("yard refused, number 3: "));
}

#[test]
fn joined_and_split() {
    let files = [&b"TBV\x01\x00\x00\xbe\x00\x01\x01\x00\x00\x00"[..], b"", b"TBV"];
    assert_eq!(join_yard(&files[..1]), Some([&[1], files[0]].concat()));
    assert_eq!(join_yard::<&[u8]>(&[]), Some(vec![0]));
    assert_eq!(join_yard(&vec![&b""[..]; 256]), None);
    assert_eq!(split_yard(&join_yard(&[files[0]; 3]).unwrap()), Some(vec![files[0]; 3]));
    let short = join_yard(&[files[0], files[2]]).unwrap();
    assert_eq!(split_yard(&short), Some(vec![files[0], files[2]]));
    // Version 2 has six bytes an axle; any version but that is cut as the first.
    let heavy = &b"TBV\x02\x00\x00\xbe\x00\x01\x01\x00\x00\x00\x00\x00"[..];
    let other = b"TBV\x02\x01\x00\xbe\x00\x01\x01\x00\x00\x00";
    let mixed = [heavy, files[0], other, heavy];
    assert_eq!(split_yard(&join_yard(&mixed).unwrap()), Some(mixed.to_vec()));
    let cut = join_yard(&[files[0], &heavy[..14]]).unwrap();
    assert_eq!(split_yard(&cut), Some(vec![files[0], &heavy[..14]]));
    assert_eq!(split_yard(&[3]), Some(vec![&b""[..]; 3]), "all that is left is nothing");
    for none in [&[][..], &[0], &[33], &[255, 1]] {
        assert_eq!(split_yard(none), None);
    }
}
