//! One damage gives its own number and place, at every place that it can have.

use reference::generate::*;
use reference::layout::MOST_MEMBERS;
use reference::{judge, File, Refused};

const SEED: u64 = 0x0001_da3a_6e00;

fn refused(survey: &[u8], vehicle: &[u8]) -> Option<Refused> {
    judge(survey, vehicle).err()
}

#[test]
fn each_damage_has_its_number_and_place() {
    let mut random = Random::new(SEED);
    for round in 0..10 {
        for all in [damaged_surveys(&mut random), damaged_vehicles(&mut random)] {
            for Damaged { survey, vehicle, refusal } in all {
                let answer = refused(&survey, &vehicle);
                assert_eq!(answer, Some(refusal), "seed {SEED:#x}, round {round}");
            }
        }
    }
}

/// Every number at every place: a kind 6 has no species, and some sections use all their fields.
#[test]
fn all_numbers_are_tried_at_all_places() {
    let surveys = damaged_surveys(&mut Random::new(SEED));
    let tried = |number, place| {
        surveys.iter().any(|d| d.refusal.number == number && d.refusal.place == place)
    };
    for place in 1..=MOST_MEMBERS as u64 {
        assert!(tried(4, place) && tried(6, place) && tried(7, place), "place {place}");
        let kind = (place - 1) % 7 + 1;
        assert_eq!(tried(5, place), kind != 6, "place {place} is of kind 6 or not");
        assert_eq!(tried(8, place), kind != 4, "place {place} is of kind 4 or not");
    }
    let vehicles = damaged_vehicles(&mut Random::new(SEED));
    for place in 0..=16 {
        for version in VERSIONS {
            let here =
                |d: &&Damaged| d.refusal.place == place && u16::from(d.vehicle[3]) == version;
            assert_eq!(vehicles.iter().filter(here).count(), 2, "version {version}, place {place}");
        }
    }
}

#[test]
fn headers_are_tested_in_the_documents_order() {
    let mut random = Random::new(SEED);
    let survey = survey_bytes(&survey(&mut random, Spread::Wide, 2));
    let vehicle = vehicle_bytes(&vehicle(&mut random, Spread::Wide, 2));
    for (file, bytes, header) in [(File::Survey, &survey, 6), (File::Vehicle, &vehicle, 9)] {
        let number = |bytes: &[u8]| {
            let pair =
                if file == File::Survey { (bytes, &vehicle[..]) } else { (&survey[..], bytes) };
            refused(pair.0, pair.1).map(|r| (r.file == file, r.number, r.place))
        };
        let answer = |n| Some((true, n, 0));
        for length in 0..bytes.len() {
            assert_eq!(number(&bytes[..length]), answer(1), "cut to {length}");
        }
        assert_eq!(number(&[&bytes[..], &[0]].concat()), answer(1));
        for at in 0..5 {
            let mut marked = bytes.clone();
            marked[at] ^= 0x10;
            assert_eq!(number(&marked[..header]), answer(2), "2 comes before 3 and 1, byte {at}");
        }
        // A byte holds no more members than there may be; axles it does.
        let too_many: &[u8] = if file == File::Survey { &[] } else { &[17, 255] };
        for &count in [0].iter().chain(too_many) {
            let mut counted = bytes.clone();
            counted[header - 1] = count;
            assert_eq!(number(&counted), answer(3), "3 comes before 1, count {count}");
        }
    }
    assert_eq!(refused(&[], &[]).map(|r| (r.file, r.number)), Some((File::Survey, 1)));
}
