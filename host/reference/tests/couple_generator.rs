//! Lorry and trailer coupled: what the generator makes can be coupled, or is refused for what it
//! names.

mod couplings;

use couplings::said;
use reference::generate::*;
use reference::layout::{HEAVIEST_LIGHT, MOST_AXLES};
use reference::reader;
use std::collections::{BTreeMap, BTreeSet};

/// How often each number and place was met, by whether the first file is at fault: where the second
/// one is, or neither, the first is sound.
type Met = BTreeMap<(bool, u64, u64), u32>;

/// Each number at each place that a vehicle has it at, so often a round.
fn hold_often(met: &Met, first: bool, rounds: u32) {
    let headers = [(1, 0, 200), (2, 0, 16), (3, 0, 10), (7, 0, 4)];
    for (number, place, times) in headers.into_iter().chain((1..=16).map(|place| (7, place, 4))) {
        let met_times = met.get(&(first, number, place)).copied().unwrap_or(0);
        assert!(met_times >= rounds * times, "{number} at {place}, first {first}: {met:?}");
    }
}

#[test]
fn each_damage_has_its_number_and_place() {
    const SEED: u64 = 0x0d13_1001;
    let mut random = Random::new(SEED);
    let mut met = Met::new();
    let rounds = (0..4).flat_map(|_| damaged_couplings(&mut random));
    for DamagedCoupling { coupling, number, place } in rounds {
        assert_eq!(said(&coupling), Err((number, place)), "seed {SEED:#x}");
        let first = reader::vehicle(&coupling.first).is_err();
        *met.entry((first, number, place)).or_default() += 1;
    }
    [true, false].into_iter().for_each(|first| hold_often(&met, first, 4));
    assert_eq!(met.len(), 2 * (16 + 4), "{met:?}");
}

/// Couplings that are taken: each pair of versions, gaps and numbers of axles at their ends.
#[test]
fn sound_couplings_are_taken() {
    let mut random = Random::new(0x0d13_1002);
    let mut versions: BTreeMap<[u8; 2], u32> = BTreeMap::new();
    let (mut gaps, mut counts) = (BTreeMap::new(), BTreeMap::new());
    let (mut splits, mut heavy) = (BTreeSet::new(), 0);
    for round in 0..8000 {
        let spread = [Spread::Wide, Spread::Usual][round / 4 % 2];
        let call = sound_coupling(&mut random, round, spread);
        let coupled = said(&call).expect("a sound coupling");
        *versions.entry([call.first[3], call.second[3]]).or_default() += 1;
        *gaps.entry(call.gap).or_insert(0) += 1;
        *counts.entry(coupled.axles.len()).or_insert(0) += 1;
        splits.insert([call.first[8], call.second[8]]);
        heavy += u32::from(coupled.axles.iter().any(|axle| axle.weight > HEAVIEST_LIGHT.into()));
    }
    assert!(versions.len() == 4 && versions.values().all(|&times| times == 2000), "{versions:?}");
    assert!(gaps[&1] > 500 && gaps[&2000] > 500 && gaps.len() > 1000, "{gaps:?}");
    assert!((2..=MOST_AXLES).all(|axles| counts[&axles] > 50), "{counts:?}");
    assert!(counts[&2] > 1000 && counts[&MOST_AXLES] > 1000, "{counts:?}");
    assert!([[1, 1], [1, 15], [15, 1], [8, 8]].iter().all(|pair| splits.contains(pair)));
    assert!(heavy > 1000, "{heavy} have an axle that only version 2 holds");
}

/// What stands for each reason that two sound vehicles cannot be coupled for.
fn met(call: &Coupling) -> Vec<Unfit> {
    let [first, second] = [&call.first, &call.second].map(|file| reader::vehicle(file));
    let (first, second) = (first.expect("a sound vehicle"), second.expect("a sound vehicle"));
    let stands = |why: &Unfit| match why {
        Unfit::Class => first.class != second.class,
        Unfit::Track => first.track != second.track,
        Unfit::Gap => !(1..=2000).contains(&call.gap),
        Unfit::Axles => first.axles.len() + second.axles.len() > MOST_AXLES,
    };
    Unfit::ALL.into_iter().filter(stands).collect()
}

/// Just the reasons that were asked for, each alone and all together; 17 axles often.
#[test]
fn unfit_couplings_for_just_these_reasons() {
    let mut random = Random::new(0x0d13_1003);
    let (mut gaps, mut counts, mut tracks) = (BTreeMap::new(), BTreeMap::new(), 0);
    for (why, round) in Unfit::sets().flat_map(|why| (0..400).map(move |r| (why.clone(), r))) {
        let call = unfit_coupling(&mut random, round, &why);
        assert_eq!(met(&call), why);
        *gaps.entry(call.gap).or_insert(0) += 1;
        *counts.entry(call.first[8] + call.second[8]).or_insert(0) += 1;
        let track = |file: &[u8]| u16::from_le_bytes([file[6], file[7]]);
        tracks += u32::from(track(&call.first).abs_diff(track(&call.second)) == 1);
    }
    assert!(NO_GAPS.iter().all(|gap| gaps[gap] > 200), "{gaps:?}");
    assert!(counts[&17] > 1000 && counts[&32] > 500 && counts[&16] > 300, "{counts:?}");
    assert!(tracks > 1000, "{tracks} tracks differ by 1");
}

#[test]
fn some_couplings_of_every_sort() {
    let mut random = Random::new(0x0d13_1004);
    let mut seen = BTreeMap::new();
    for _ in 0..20_000 {
        let call = some_coupling(&mut random);
        let files = [&call.first, &call.second].map(|file| reader::vehicle(file).is_ok());
        let answer = said(&call).map_err(|(number, place)| (number, place > 0)).err();
        *seen.entry((answer, files)).or_insert(0) += 1;
    }
    let own = [(1, false), (2, false), (3, false), (7, false), (7, true)].map(Some);
    let refused = [[false, true], [true, false], [false; 2]];
    let own = own.into_iter().flat_map(|fault| refused.map(|files| (fault, files)));
    let of_both = [None, Some((7, false)), Some((3, false))].map(|answer| (answer, [true; 2]));
    for sort in own.chain(of_both) {
        assert!(seen.get(&sort).is_some_and(|&times| times > 20), "{sort:?}: {seen:?}");
    }
    assert!(seen[&(None, [true; 2])] > 5000, "{seen:?}");
}
