//! Lorry and trailer coupled, by hand: the vehicle that is loaded, and every refusal in its order.
//! Then what is claimed of the loads, by trial: "For every member the coupled load is at most the
//! sum of the two loads, and at least each of them."

mod couplings;
mod records;

use couplings::{said, Said};
use records::{with, ALL, BEAM, CHORD, STRINGER};
use reference::generate::*;
use reference::influence::{exact_load, vehicle_load};
use reference::judge::{judge_members, Judged};
use reference::layout::*;
use reference::{reader, Axle, Member, Vehicle};

/// Class 0 and track 190, in this version.
fn words(version: u16, axles: &[AxleWords]) -> VehicleWords {
    VehicleWords { version, class: 0, track: 190, axles: axles.to_vec() }
}

fn file(version: u16, axles: &[AxleWords]) -> Vec<u8> {
    vehicle_bytes(&words(version, axles))
}

const LORRY: [AxleWords; 2] = [[1500, 0], [3000, 370]];
const TRAILER: [AxleWords; 2] = [[2000, 0], [2500, 130]];

fn coupled(first: &[u8], second: &[u8], gap: u16) -> Said {
    said(&Coupling { first: first.to_vec(), second: second.to_vec(), gap })
}

/// So many axles, all alike.
fn row(count: usize) -> Vec<AxleWords> {
    (0..count).map(|i| [5000, if i == 0 { 0 } else { 200 }]).collect()
}

/// Only the distance of the second's first axle changes, in each pair of versions.
#[test]
fn the_axles_of_both() {
    let axles = |gap| [(1500, 0), (3000, 370), (2000, gap), (2500, 130)];
    for [one, other] in VERSIONS.into_iter().flat_map(|one| VERSIONS.map(|other| [one, other])) {
        for gap in [1, 2, 255, 256, 1999, 2000] {
            let axles = axles(gap).map(|(weight, distance)| Axle { weight, distance }).to_vec();
            let vehicle = Vehicle { class: 0, track: 190, axles };
            let answer = coupled(&file(one, &LORRY), &file(other, &TRAILER), gap);
            assert_eq!(answer, Ok(vehicle), "versions {one} and {other}, gap {gap}");
        }
    }
}

/// Case A: an axle at mid-span gives 0.4 of its weight, and each cm away from it 0.0016 less.
#[test]
fn loads_by_hand() {
    let stringer = reader::member(&STRINGER);
    let load = |gap| {
        let vehicle = coupled(&file(1, &[[3000, 0]]), &file(1, &[[5000, 0]]), gap);
        vehicle_load(&stringer, &vehicle.expect("a sound coupling"))
    };
    // The heavier one at mid-span, 2000 kgf/m, and the other so far from it, until it is off.
    assert_eq!([1, 100, 249].map(load), [3196, 2720, 2005]);
    assert_eq!([250, 251, 2000].map(load), [2000; 3]);
    // A cross beam has twice the panel as base, 400 cm: half the weight at its middle.
    let beam = reader::member(&BEAM);
    let vehicle = coupled(&file(1, &LORRY), &file(1, &TRAILER), 100).expect("a sound coupling");
    let alone = |axles| vehicle_load(&beam, &reader::vehicle(&file(1, axles)).expect("sound"));
    assert_eq!([alone(&LORRY), alone(&TRAILER)], [1500, 1600]);
    // The trailer's front axle at the middle has 1000, its second 437.5, and the lorry's last 750.
    assert_eq!(vehicle_load(&beam, &vehicle), 2188);
}

/// 7 for a gap outside 1 to 2000, whatever else it is.
#[test]
fn every_gap() {
    let files = [file(1, &LORRY), file(2, &TRAILER)];
    for gap in 0..=u16::MAX {
        let refusal = coupled(&files[0], &files[1], gap).err();
        let good = (1..=2000).contains(&gap);
        assert_eq!(refusal, (!good).then_some((7, 0)), "gap {gap}");
    }
}

/// 7 for a class or a track that differs, from either file's side.
#[test]
fn every_class_and_track() {
    let of = |class, track| vehicle_bytes(&VehicleWords { class, track, ..words(1, &LORRY) });
    for (class, track) in [0, 1].into_iter().flat_map(|class| (100..=300).map(move |t| (class, t)))
    {
        for (other_class, other_track) in [(0, 100), (0, 190), (1, 190), (1, 300)] {
            let refusal = coupled(&of(class, track), &of(other_class, other_track), 150).err();
            let equal = (class, track) == (other_class, other_track);
            assert_eq!(refusal, (!equal).then_some((7, 0)), "{class} {track}");
        }
    }
}

/// 3 for more than 16 axles of both, whatever the versions; 7 before it.
#[test]
fn every_number_of_axles() {
    for (one, other) in (1..=16).flat_map(|one| (1..=16).map(move |other| (one, other))) {
        for version in VERSIONS {
            let files = [file(version, &row(one)), file(2, &row(other))];
            let answer = coupled(&files[0], &files[1], 150);
            let axles = answer.as_ref().map_or(0, |vehicle| vehicle.axles.len());
            let many = one + other > 16;
            assert_eq!(answer.err(), many.then_some((3, 0)), "{one} and {other}");
            assert_eq!(axles, if many { 0 } else { one + other });
            assert_eq!(coupled(&files[0], &files[1], 0).err(), Some((7, 0)), "{one} and {other}");
        }
    }
}

/// Files with two faults and more, each test before the next.
#[test]
fn the_order_of_the_tests() {
    let [lorry, trailer] = [file(1, &LORRY), file(2, &TRAILER)];
    let axle_2 = file(2, &[[2000, 0], [200_001, 130]]);
    let axle_1 = file(1, &[[1500, 1], [3000, 370]]);
    let tractor = vehicle_bytes(&VehicleWords { class: 1, ..words(1, &row(15)) });
    let refusal = |first: &[u8], second: &[u8], gap| coupled(first, second, gap).err();
    assert_eq!(refusal(&axle_1, &axle_2, 0), Some((7, 1)), "the first's before the second's");
    assert_eq!(refusal(&axle_2, &axle_1, 0), Some((7, 2)), "the first's before the second's");
    assert_eq!(refusal(&axle_2, &[], 150), Some((7, 2)), "7 of the first before 1 of the second");
    assert_eq!(refusal(&lorry, &axle_2, 2001), Some((7, 2)), "the second's before a gap");
    assert_eq!(refusal(&tractor, &axle_2, 150), Some((7, 2)), "the second's before a class");
    assert_eq!(refusal(&tractor, &trailer[..20], 150), Some((1, 0)), "and its length");
    assert_eq!(refusal(&tractor, &trailer, 150), Some((7, 0)), "a class before 17 axles");
    assert_eq!(refusal(&file(1, &row(15)), &trailer, 150), Some((3, 0)), "17 axles");
    assert_eq!(refusal(&lorry, &trailer, 150), None);
}

/// What a coupling is made of, and what it makes.
struct Coupled {
    first: Vehicle,
    second: Vehicle,
    both: Vehicle,
}

fn some_coupled(random: &mut Random, turn: usize, spread: Spread) -> Coupled {
    let call = sound_coupling(random, turn, spread);
    let [first, second] =
        [&call.first, &call.second].map(|file| reader::vehicle(file).expect("a sound vehicle"));
    Coupled { first, second, both: said(&call).expect("a sound coupling") }
}

/// How often the coupled load is above each of the two, just the greater, and below the sum.
#[derive(Debug, Default)]
struct Seen {
    above: u32,
    greater: u32,
    below: u32,
}

/// "at most the sum of the two loads, and at least each of them", exactly and rounded up.
fn hold_law(member: &Member, coupled: &Coupled, seen: &mut Seen) {
    let vehicles = [&coupled.first, &coupled.second, &coupled.both];
    let [first, second, both] = vehicles.map(|vehicle| exact_load(member, vehicle));
    assert!(both <= first + second, "{member:?}");
    assert!(first <= both && second <= both, "{member:?}");
    let [one, other, all] = vehicles.map(|vehicle| vehicle_load(member, vehicle));
    assert!(all <= one + other && all >= one.max(other), "{member:?}: {one} {other} {all}");
    seen.above += u32::from(both > first && both > second);
    seen.greater += u32::from(both == first || both == second);
    seen.below += u32::from(both < first + second);
}

#[test]
fn loads_of_coupled_vehicles() {
    let mut random = Random::new(0x0d13_0001);
    let mut seen = Seen::default();
    for round in 0..3000 {
        let spread = [Spread::Wide, Spread::Usual][round / 4 % 2];
        let coupled = some_coupled(&mut random, round, spread);
        for words in survey(&mut random, spread, 3) {
            hold_law(&reader::member(&words), &coupled, &mut seen);
        }
    }
    assert!(seen.above > 3000 && seen.greater > 1000 && seen.below > 8000, "{seen:?}");
}

/// Every kind under gaps from end to end: the load never rises by more than the other half, and
/// far enough behind, the other half is off the base.
#[test]
fn loads_under_every_gap() {
    let mut seen = Seen::default();
    let [first, second] =
        [&LORRY, &TRAILER].map(|axles| reader::vehicle(&file(1, axles)).expect("a sound vehicle"));
    for (words, gap) in ALL.iter().flat_map(|words| (1..=2000).step_by(37).map(move |g| (words, g)))
    {
        let both = said(&Coupling { first: file(1, &LORRY), second: file(1, &TRAILER), gap });
        let both = both.expect("a sound coupling");
        let coupled = Coupled { first: first.clone(), second: second.clone(), both };
        hold_law(&reader::member(words), &coupled, &mut seen);
    }
    assert!(seen.above > 100 && seen.greater > 100 && seen.below > 400, "{seen:?}");
}

/// Sixteen axles of 200,000 as close as they stand, on a short span and on the longest.
#[test]
fn the_heaviest_coupled_vehicle() {
    let axles: Vec<AxleWords> = row(8).iter().map(|axle| [200_000, axle[1].min(1)]).collect();
    let half = file(2, &axles);
    let both = coupled(&half, &half, 1).expect("a sound coupling");
    let alone = reader::vehicle(&half).expect("a sound vehicle");
    let coupled = Coupled { first: alone.clone(), second: alone, both };
    for (span, x) in [(100, 50), (5000, 1), (5000, 2500), (5000, 4999)] {
        let member = reader::member(&with(CHORD, &[(SPAN, span), (FROM_SUPPORT, x)]));
        hold_law(&member, &coupled, &mut Seen::default());
    }
}

/// One vehicle and a heavier one on one survey: no member's vehicle load falls, no permitted load
/// changes, and what is refused does not pass. Did the verdict turn?
fn never_lighter(alone: &Judged, coupled: &Judged) -> bool {
    for (one, other) in alone.members.iter().zip(&coupled.members) {
        assert!(other.vehicle >= one.vehicle, "{one:?} then {other:?}");
        assert_eq!(other.permitted, one.permitted, "class and track are the same");
        assert!(one.passes() || !other.passes(), "{one:?} then {other:?}");
    }
    assert_eq!(coupled.figure, alone.figure);
    assert!(alone.passes || !coupled.passes, "{alone:?} then {coupled:?}");
    alone.passes && !coupled.passes
}

/// Beside the first alone, axles are added behind; beside the second alone, in front.
#[test]
fn coupling_never_turns_a_refusal() {
    let mut random = Random::new(0x0d13_0002);
    let mut turned = [0; 2];
    for round in 0..1500 {
        let members = bearing_survey(&mut random, 2);
        let members: Vec<Member> = members.iter().map(reader::member).collect();
        let Coupled { first, second, both } = some_coupled(&mut random, round, Spread::Usual);
        let coupled = judge_members(&members, &both);
        for (turned, alone) in turned.iter_mut().zip([first, second]) {
            *turned += u32::from(never_lighter(&judge_members(&members, &alone), &coupled));
        }
    }
    assert!(turned.iter().all(|&times| times > 50), "{turned:?} verdicts turned");
}

/// A worn survey under the coupled vehicle beside a sound one under the first alone: no figure
/// rises, and what is refused does not pass.
#[test]
fn worn_bridges_under_coupled_vehicles() {
    let mut random = Random::new(0x0d13_0003);
    let (mut lower, mut turned) = (0, 0);
    for round in 0..1500 {
        let records = bearing_survey(&mut random, 2);
        let worse = worse_survey(&mut random, &records, Wear::SameSpread, 1);
        let Coupled { first, both, .. } = some_coupled(&mut random, round, Spread::Usual);
        let judged = |records: &[Words], vehicle: &Vehicle| {
            let members: Vec<Member> = records.iter().map(reader::member).collect();
            judge_members(&members, vehicle)
        };
        let (one, other) = (judged(&records, &first), judged(&worse, &both));
        assert!(other.figure <= one.figure, "{one:?} then {other:?}");
        assert!(one.passes || !other.passes, "{one:?} then {other:?}");
        for (one, other) in one.members.iter().zip(&other.members) {
            assert!(other.permitted <= one.permitted && other.vehicle >= one.vehicle);
        }
        lower += u32::from(other.figure < one.figure);
        turned += u32::from(one.passes && !other.passes);
    }
    assert!(lower > 300 && turned > 50, "{lower} figures fell, {turned} verdicts turned");
}
