//! Heavier axles: what the generator makes is of the versions that it should be, and sound, or
//! refused for what it names.

use reference::generate::*;
use reference::{convert, reader};
use std::collections::BTreeMap;

/// Each damage of a vehicle that its version makes, and of a conversion, has its number and place.
#[test]
fn each_damage_has_its_number_and_place() {
    const SEED: u64 = 0x09ea_1004;
    let mut random = Random::new(SEED);
    let mut seen: BTreeMap<(u8, u64, u64), u32> = BTreeMap::new();
    for round in 0..4 {
        let of_version = [wrong_lengths(&mut random), wrong_weights(&mut random)];
        for all in of_version.into_iter().chain([damaged_vehicles(&mut random)]) {
            for Damaged { survey, vehicle, refusal } in all {
                let answer = reference::judge(&survey, &vehicle).err();
                assert_eq!(answer, Some(refusal), "seed {SEED:#x}, round {round}");
            }
        }
        for DamagedConversion { conversion, number, place } in damaged_conversions(&mut random) {
            let Conversion { wanted, file, room } = &conversion;
            let refused = convert(file, u16::from(*wanted), *room).expect_err("a refusal");
            let answer = (refused.number, refused.place);
            assert_eq!(answer, (number, place), "seed {SEED:#x}, round {round}");
            *seen.entry((*wanted, number, place)).or_default() += 1;
        }
    }
    for wanted in [1, 2] {
        // Two ways at each axle, and class and track, in every round.
        for place in 0..=16 {
            assert_eq!(seen.get(&(wanted, 7, place)), Some(&8), "7 at {place} to {wanted}");
        }
        for place in 1..=16 {
            let times = (wanted == 1).then_some(&4);
            assert_eq!(seen.get(&(wanted, 17, place)), times, "17 at {place} to {wanted}");
        }
        for (number, least) in [(1, 60), (2, 48), (3, 16), (14, 256)] {
            let times = seen.get(&(wanted, number, 0)).copied().unwrap_or(0);
            assert!(times >= least, "{number} to {wanted}: {times} times");
        }
    }
}

/// Sound conversions are taken, in both ways by turns.
#[test]
fn sound_conversions_are_taken() {
    let mut random = Random::new(0x09ea_1005);
    let mut longer = 0;
    for round in 0..2000 {
        let Conversion { wanted, file, room } = sound_conversion(&mut random, round);
        assert_eq!(usize::from(wanted), round % 2 + 1);
        let bytes = convert(&file, wanted.into(), room).expect("a sound conversion");
        assert!(room <= LONGEST_OUTPUT, "a buffer of {room} bytes");
        longer += u32::from(room > bytes.len());
    }
    assert!((500..1500).contains(&longer), "{longer} outputs are longer than what is written");
}

/// Vehicles of both versions, every edge weight among the second's; a fitting one goes back.
#[test]
fn vehicles_of_both_versions() {
    let mut random = Random::new(0x09ea_1006);
    let (mut versions, mut weights) = ([0; 2], BTreeMap::new());
    for round in 0..4000 {
        let spread = if round % 2 == 0 { Spread::Wide } else { Spread::Usual };
        let words = vehicle(&mut random, spread, 4);
        let read = reader::vehicle(&vehicle_bytes(&words)).expect("a sound vehicle");
        versions[usize::from(words.version - 1)] += 1;
        for (axle, own) in read.axles.iter().zip(&words.axles) {
            assert_eq!([axle.weight, u32::from(axle.distance)], *own);
            *weights.entry((words.version, axle.weight)).or_insert(0) += 1;
        }
        let fitting = fitting_vehicle(&mut random, spread, 4);
        assert!(fitting.version == 2 && fitting.axles.iter().all(|axle| axle[0] <= 60_000));
    }
    assert!(versions.iter().all(|&times| times > 1800), "{versions:?}");
    for edge in HEAVY_EDGES {
        assert!(weights.get(&(2, edge)).is_some_and(|&times| times > 100), "{edge} kgf is rare");
    }
    assert!(weights.keys().all(|&(version, weight)| version == 2 || weight <= 60_000));
}

/// No axle of the second is lighter. How many are heavier, and how many weigh above 60,000 in each?
fn no_lighter(pair: [VehicleWords; 2]) -> (u32, [u32; 2]) {
    let [first, second] =
        pair.map(|words| reader::vehicle(&vehicle_bytes(&words)).expect("a sound vehicle"));
    assert_eq!((first.class, first.track), (second.class, second.track));
    assert!(second.axles.len() >= first.axles.len());
    let (mut heavier, mut beyond) = (0, [0; 2]);
    for (one, other) in first.axles.iter().zip(&second.axles) {
        assert_eq!(one.distance, other.distance);
        assert!(other.weight >= one.weight);
        heavier += u32::from(other.weight > one.weight);
        beyond[0] += u32::from(one.weight > 60_000);
        beyond[1] += u32::from(other.weight > 60_000);
    }
    (heavier, beyond)
}

/// A heavier vehicle of each pair of versions: no axle is lighter, and some only version 2 holds.
#[test]
fn heavier_vehicles_of_any_versions() {
    let mut random = Random::new(0x09ea_1007);
    for versions in VERSIONS.into_iter().flat_map(|one| VERSIONS.map(|other| [one, other])) {
        let (mut heavier, mut beyond) = (0, 0);
        for round in 0..500 {
            let spread = if round % 2 == 0 { Spread::Wide } else { Spread::Usual };
            let pair = two_vehicles(&mut random, versions, spread, 4, 3);
            assert_eq!(pair.each_ref().map(|words| words.version), versions);
            let (more, [_, above]) = no_lighter(pair);
            (heavier, beyond) = (heavier + more, beyond + above);
        }
        assert!(heavier > 500, "{versions:?}: {heavier} axles are heavier");
        assert_eq!(beyond > 200, versions[1] == 2, "{versions:?}: {beyond} above 60,000");
    }
}

/// Pairs of version 2 whose first has an axle that version 1 does not hold, whatever the spread.
#[test]
fn heavier_vehicles_than_version_1_holds() {
    let mut random = Random::new(0x09ea_1008);
    let mut heavier = 0;
    for round in 0..500 {
        let spread = if round % 2 == 0 { Spread::Wide } else { Spread::Usual };
        let pair = two_heavy_vehicles(&mut random, spread, 1 + round % 16, 3);
        assert_eq!(pair.each_ref().map(|words| words.version), [2, 2]);
        let (more, [above, _]) = no_lighter(pair);
        assert!(above > 0, "round {round}");
        heavier += more;
    }
    assert!(heavier > 500, "{heavier} axles are heavier");
}
