//! The proved library against the reference: 100,000 pairs of files, every answer equal, with the
//! two loads of every member.

mod common;

use common::{expected, library, seed};
use reference::generate::*;
use reference::layout::{HEAVY_AXLES, MOST_MEMBERS};
use reference::{reader, Judged};
use std::collections::BTreeMap;

const PAIRS: u64 = 100_000;

/// Files for the library: most are small, as brute force is dear; one in 400 is large, and one in
/// 2000 of the largest. The sorts take turns by the seed, and so do the versions of the vehicle but
/// for those that are damaged or at the limit, which are of any.
fn pair(seed: u64) -> (Vec<u8>, Vec<u8>) {
    let random = &mut Random::new(seed);
    let spread = if random.once_in(3) { Spread::Wide } else { Spread::Usual };
    let version = VERSIONS[(seed / 400 % 2) as usize];
    let (members, axles) = match seed % 400 {
        0 => {
            let counts = [64, 65, 128, 180, MOST_MEMBERS];
            let members = kinds_in_turn(random, spread, counts[(seed / 400 % 5) as usize]);
            let survey = some_version(random, &members);
            return (survey, vehicle_bytes(&vehicle_of(random, version, spread, 16)));
        }
        1..=60 => return some_damage(random),
        61..=120 => match at_the_limit(random) {
            Some((survey, vehicle)) => return (survey, vehicle_bytes(&vehicle)),
            None => (1, 1),
        },
        121..=140 => (1 + random.below(16), 1 + random.below(16)),
        _ => (1 + random.below(3), 1 + random.below(5)),
    };
    let survey = survey_file(random, spread, members);
    (survey, vehicle_bytes(&vehicle_of(random, version, spread, axles)))
}

/// Is the least permitted load another member's than the governing one's?
fn governs_without_the_figure(judged: &Judged) -> bool {
    let place = usize::try_from(judged.governing).expect("a place");
    judged.members[place - 1].permitted != judged.figure
}

#[test]
fn the_library_answers_as_the_reference() {
    let first = seed(0x7b2_0001);
    let mut seen: BTreeMap<String, u64> = BTreeMap::new();
    let (mut apart, mut ordered, mut heavy) = (0, 0, 0);
    for seed in first..first + PAIRS {
        let (survey, vehicle) = pair(seed);
        ordered += u64::from(survey.starts_with(b"TBR\x02\x00"));
        heavy += u64::from(vehicle.starts_with(b"TBV\x02\x00"));
        let answer = library(&survey, &vehicle);
        assert_eq!(answer, expected(&survey, &vehicle), "TBR_SEED={seed}");
        apart += u32::from(answer.as_ref().is_ok_and(governs_without_the_figure));
        let what = match answer {
            Ok(judged) if judged.figure == 0 => "figure 0".to_string(),
            Ok(judged) => format!("passes {}", judged.passes),
            Err(refused) => format!("{:?} {}", refused.file, refused.number),
        };
        *seen.entry(what).or_default() += 1;
    }
    println!("{seen:?}");
    // The pairs are worth something only if all answers are among them.
    let refusals = (1..=8).chain([16]).map(|n| format!("Survey {n}"));
    let refusals = refusals.chain([1, 2, 3, 7].map(|n| format!("Vehicle {n}")));
    let usual = ["passes true", "passes false", "figure 0"].map(str::to_string);
    for what in usual.into_iter().chain(refusals) {
        assert!(seen.get(&what).copied().unwrap_or(0) >= 20, "{what} is rare: {seen:?}");
    }
    assert!(apart >= 2000, "the governing member has not the figure in {apart} pairs");
    assert!(ordered >= PAIRS / 4, "{ordered} surveys of version 2");
    assert!(heavy >= PAIRS / 4, "{heavy} vehicles of version 2");
}

/// "A vehicle rates alike in both versions", and as the reference has it; then with an axle that
/// only version 2 holds.
#[test]
fn both_versions_of_a_vehicle_rate_alike() {
    let first = seed(0x7b2_0007);
    for seed in first..first + 10_000 {
        let random = &mut Random::new(seed);
        let spread = if random.once_in(3) { Spread::Wide } else { Spread::Usual };
        let (members, axles) = (1 + random.below(3), 1 + random.below(5));
        let survey = survey_file(random, spread, members);
        let mut heavy = fitting_vehicle(random, spread, axles);
        let light = vehicle_bytes(&VehicleWords { version: 1, ..heavy.clone() });
        let answer = library(&survey, &light);
        assert_eq!(answer, expected(&survey, &light), "TBR_SEED={seed}");
        assert_eq!(library(&survey, &vehicle_bytes(&heavy)), answer, "TBR_SEED={seed}");
        heavy.axles[random.below(axles)][0] = random.large(60_001, 200_000);
        let heavy = vehicle_bytes(&heavy);
        assert_eq!(library(&survey, &heavy), expected(&survey, &heavy), "TBR_SEED={seed}");
    }
}

/// Each edge of a weight of four bytes, at each axle, and 16 such axles close together, on every
/// kind.
#[test]
fn weights_at_the_edges() {
    let seed = seed(0x7b2_0008);
    let mut random = Random::new(seed);
    let members = kinds_in_turn(&mut random, Spread::Usual, 64);
    let survey = some_version(&mut random, &members);
    for weight in HEAVY_EDGES.into_iter().chain(NO_WEIGHTS) {
        for i in 0..16 {
            let mut words = vehicle_of(&mut random, HEAVY_AXLES, Spread::Wide, 16);
            words.axles[i][0] = weight;
            let vehicle = vehicle_bytes(&words);
            let read = reader::vehicle(&vehicle).is_ok();
            assert_eq!(read, !NO_WEIGHTS.contains(&weight), "{weight} kgf at {i}");
            let answer = library(&survey, &vehicle);
            assert_eq!(answer, expected(&survey, &vehicle), "TBR_SEED={seed}, {weight} at {i}");
        }
        let axles = (0..16).map(|i| [weight, i.min(1)]).collect();
        let vehicle = VehicleWords { version: HEAVY_AXLES, class: 1, track: 300, axles };
        let vehicle = vehicle_bytes(&vehicle);
        assert_eq!(library(&survey, &vehicle), expected(&survey, &vehicle), "{weight} kgf");
    }
}

/// Two members or more with the least margin: the first of them governs, whatever their loads.
#[test]
fn the_first_governs_on_a_tie() {
    let first = seed(0x7b2_0006);
    let (mut ties, mut apart) = (0, 0);
    for seed in first..first + 20_000 {
        let Some((survey, vehicle)) = at_a_tie(&mut Random::new(seed)) else { continue };
        let vehicle = vehicle_bytes(&vehicle);
        let answer = library(&survey, &vehicle);
        assert_eq!(answer, expected(&survey, &vehicle), "TBR_SEED={seed}");
        ties += 1;
        apart += u32::from(answer.as_ref().is_ok_and(governs_without_the_figure));
    }
    assert!(ties > 1000 && apart > 200, "{ties} ties, in {apart} another has the figure");
}

/// The heaviest vehicle that passes, and 1 kgf more on one axle: verdicts as the reference has them.
#[test]
fn verdicts_turn_at_the_limit() {
    let first = seed(0x7b2_0002);
    let (mut at, mut over) = (0, 0);
    for seed in first..first + 10_000 {
        let Some((survey, vehicle)) = at_the_limit(&mut Random::new(seed)) else { continue };
        let vehicle = vehicle_bytes(&vehicle);
        let judged = reference::judge(&survey, &vehicle).expect("a sound pair");
        let rated = judged.members[0];
        at += u32::from(rated.vehicle == rated.permitted);
        over += u32::from(rated.vehicle == rated.permitted + 1);
        let answer = tbr::judge(&survey, &vehicle).expect("a sound pair");
        assert_eq!(answer.passes, rated.vehicle <= rated.permitted, "TBR_SEED={seed}");
    }
    assert!(at > 1000 && over > 1000, "{at} at the limit, {over} just over");
}

/// Each kind alone, each of its sections, every answer equal.
#[test]
fn each_kind_and_section_alone() {
    let seed = seed(0x7b2_0003);
    let mut random = Random::new(seed);
    let mut seen: BTreeMap<(u16, u16), u32> = BTreeMap::new();
    for i in 0..3000 {
        let spread = if i % 2 == 0 { Spread::Wide } else { Spread::Usual };
        let members = survey(&mut random, spread, 1);
        let version = VERSIONS[i / 2 % 2];
        let vehicle = vehicle_bytes(&vehicle_of(&mut random, version, spread, 2));
        let survey = survey_bytes(&members);
        assert_eq!(library(&survey, &vehicle), expected(&survey, &vehicle), "TBR_SEED={seed}, {i}");
        *seen.entry((members[0][0], members[0][7])).or_default() += 1;
    }
    assert!(seen.len() == 12 && seen.values().all(|&times| times > 100), "{seen:?}");
}

/// All used numbers at the edges of their ranges, in every choice of edges: the largest products
/// and the smallest divisors are among them.
#[test]
fn numbers_at_the_edges() {
    let seed = seed(0x7b2_0004);
    let mut random = Random::new(seed);
    for words in corners() {
        let mut lorry = vehicle(&mut random, Spread::Wide, 2);
        lorry.track = *random.pick(&[100, 300]);
        let (survey, vehicle) = (survey_bytes(&[words]), vehicle_bytes(&lorry));
        let answer = library(&survey, &vehicle);
        assert_eq!(answer, expected(&survey, &vehicle), "TBR_SEED={seed}, {words:?}");
    }
}

/// One damage in each way at each place of the largest files, versions that no file has, and
/// lengths that its version does not have.
#[test]
fn refusals_at_every_place() {
    let first = seed(0x7b2_0005);
    for seed in first..first + 5 {
        let mut random = Random::new(seed);
        let of_records = [damaged_surveys(&mut random), damaged_vehicles(&mut random)];
        let of_order = [misplaced_surveys(&mut random), wrong_versions(&mut random)];
        let of_length = [wrong_lengths(&mut random)];
        for all in of_records.into_iter().chain(of_order).chain(of_length) {
            for Damaged { survey, vehicle, refusal } in all {
                assert_eq!(library(&survey, &vehicle), Err(refusal), "TBR_SEED={seed}");
            }
        }
    }
}
