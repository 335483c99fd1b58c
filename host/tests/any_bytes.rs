//! Any byte strings get an answer, and the reference's: a million of them, of every length from 0.

mod common;

use common::{expected, library, seed};
use reference::generate::*;
use reference::layout::IN_ORDER;
use std::collections::BTreeMap;

const DAMAGED: u64 = 500_000;
const LONGEST: usize = 8500;
const ROUNDS: u64 = 50;
const SHORT: u64 = 100_000;

fn agree(survey: &[u8], vehicle: &[u8], seed: u64) {
    assert_eq!(library(survey, vehicle), expected(survey, vehicle), "TBR_SEED={seed}");
}

#[test]
fn damaged_files() {
    let first = seed(0xda3_0001);
    for seed in first..first + DAMAGED {
        let (survey, vehicle) = some_damage(&mut Random::new(seed));
        agree(&survey, &vehicle, seed);
    }
}

/// Records of version 2 in order but for two neighbours that are exchanged; in one file of four a
/// byte is changed too.
#[test]
fn records_all_but_in_order() {
    let first = seed(0xda3_0004);
    let mut refused = 0;
    for seed in first..first + SHORT {
        let mut random = Random::new(seed);
        let count = 2 + random.below(7);
        let mut records = in_order(&alike_survey(&mut random, Spread::Usual, count));
        let place = 1 + random.below(count - 1);
        records.swap(place - 1, place);
        let mut survey = survey_bytes_of(IN_ORDER, &records);
        if random.once_in(4) {
            let at = random.below(survey.len());
            survey[at] = survey[at].wrapping_add(1);
        }
        let vehicle = vehicle_bytes(&vehicle(&mut random, Spread::Usual, 1));
        agree(&survey, &vehicle, seed);
        refused +=
            u64::from(expected(&survey, &vehicle).is_err_and(|refused| refused.number == 16));
    }
    assert!(SHORT / 4 < refused && refused < SHORT, "{refused} are out of order");
}

/// The ways to make a vehicle all but sound.
const WAYS: u64 = 12;

/// A sound vehicle of this version with bytes cut off or one put behind it, another mark or
/// version, a count or class that no vehicle has, the other class, or any byte anywhere: by turns.
fn all_but_sound(random: &mut Random, version: u16, way: u64) -> Vec<u8> {
    let axles = 1 + random.below(16);
    let mut vehicle = vehicle_bytes(&vehicle_of(random, version, Spread::Wide, axles));
    let at = random.below(vehicle.len());
    match way {
        0 => vehicle.truncate(at),
        1 => vehicle.push(0),
        2 => vehicle[random.below(5)] ^= 0x80,
        3 => vehicle[8] = *random.pick(&[0, 17, 18, 255]),
        4 => vehicle[5] |= *random.pick(&[2, 4, 0x80]),
        5 => vehicle[5] ^= 1,
        _ => vehicle[at] = random.bits().to_le_bytes()[0],
    }
    vehicle
}

/// Vehicles of both versions and in all ways by turns.
#[test]
fn vehicles_all_but_sound() {
    let first = seed(0xda3_0005);
    let mut random = Random::new(first);
    let survey = survey_file(&mut random, Spread::Usual, 1);
    let mut seen: BTreeMap<(u16, Option<u64>), u64> = BTreeMap::new();
    for seed in first..first + SHORT {
        let mut random = Random::new(seed);
        let (version, way) = (VERSIONS[(seed % 2) as usize], seed / 2 % WAYS);
        let vehicle = all_but_sound(&mut random, version, way);
        agree(&survey, &vehicle, seed);
        let number = expected(&survey, &vehicle).err().map(|refused| refused.number);
        *seen.entry((version, number)).or_default() += 1;
    }
    // Two ways have number 1, one each has 2, 3 and 7, and with the other class a file is taken.
    let certain = [(Some(1), 2), (Some(2), 1), (Some(3), 1), (Some(7), 1), (None, 1)];
    for version in VERSIONS {
        for (number, ways) in certain {
            let times = seen.get(&(version, number)).copied().unwrap_or(0);
            assert!(times >= ways * (SHORT / (2 * WAYS)), "{number:?} of {version}: {seen:?}");
        }
    }
}

/// Longer than any survey: a survey has at most 8166 bytes, a vehicle 105. Each length has another
/// beginning, where the header is.
#[test]
fn random_bytes_of_every_length() {
    let first = seed(0xda3_0002);
    for seed in first..first + ROUNDS {
        let all = Random::new(seed).bytes(LONGEST);
        for bytes in (0..=LONGEST).map(|length| &all[LONGEST - length..]) {
            agree(bytes, &bytes[bytes.len() / 2..], seed);
        }
    }
}

/// Random bytes behind a sound mark and version, where the counts are reached.
#[test]
fn random_bytes_behind_a_sound_mark() {
    let first = seed(0xda3_0003);
    let mut random = Random::new(first);
    let sound = survey_file(&mut random, Spread::Usual, 2);
    for seed in first..first + SHORT {
        let mut random = Random::new(seed);
        let survey = any_bytes(&mut random, b"TBR", 120);
        let vehicle = any_bytes(&mut random, b"TBV", 120);
        agree(&survey, &vehicle, seed);
        agree(&sound, &vehicle, seed);
    }
}
