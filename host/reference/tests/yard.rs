//! The yard by hand: answers, the lengths of files, and the order of refusals.

use reference::generate::*;
use reference::{judge, reader, yard, File, Member, Refused};

/// Case A with this rot: 1720 and 1343 kgf/m for rot 0 and 1, class 0 and track 190.
fn stringer(rot: u8) -> Vec<u8> {
    let mut words = [0u16; 16];
    words[..8].copy_from_slice(&[1, 1, 500, 140, 0, 0, 100, 1]);
    words[8..11].copy_from_slice(&[28, u16::from(rot), 1]);
    survey_bytes(&[words])
}

fn bridge(survey: &[u8]) -> Vec<Member> {
    reader::survey(survey).expect("a sound survey")
}

fn lorry(weights: [u32; 2]) -> VehicleWords {
    VehicleWords {
        version: 1,
        class: 0,
        track: 190,
        axles: vec![[weights[0], 0], [weights[1], 370]],
    }
}

/// The vehicle of case L: 1200 kgf/m on case A.
fn case_l() -> Vec<u8> {
    vehicle_bytes(&lorry([1500, 3000]))
}

/// Three times its weight: 3600 kgf/m.
fn heavy() -> Vec<u8> {
    vehicle_bytes(&lorry([4500, 9000]))
}

/// The answers on case A, as figure, governing place, verdict and margin, and the number of passes;
/// or number and place of the refusal.
type Said = Result<(Vec<(u64, u64, bool, i64)>, u64), (u64, u64)>;

fn said_of(survey: Option<&[Member]>, bytes: &[u8], entries: usize) -> Said {
    let answers = |answers: &[reference::Answer]| {
        answers.iter().map(|a| (a.figure, a.governing, a.passes, a.margin)).collect()
    };
    match yard(survey, bytes, entries) {
        Ok(yard) => Ok((answers(&yard.answers), yard.passes)),
        Err(Refused { number, place, .. }) => Err((number, place)),
    }
}

fn said(bytes: &[u8], entries: usize) -> Said {
    said_of(Some(&bridge(&stringer(0))), bytes, entries)
}

fn with(bytes: &[u8], at: usize, byte: u8) -> Vec<u8> {
    let mut bytes = bytes.to_vec();
    bytes[at] = byte;
    bytes
}

#[test]
fn one_answer_a_vehicle() {
    let (pass, refuse) = ((1720, 1, true, 520), (1720, 1, false, -1880));
    assert_eq!(said(&joined(&[case_l()]), 1), Ok((vec![pass], 1)));
    assert_eq!(said(&joined(&[heavy()]), 1), Ok((vec![refuse], 0)));
    let mixed = joined(&[heavy(), case_l(), heavy(), case_l(), case_l()]);
    assert_eq!(said(&mixed, 5), Ok((vec![refuse, pass, refuse, pass, pass], 3)));
    let full = joined(&vec![case_l(); 32]);
    assert_eq!(said(&full, 32), Ok((vec![pass; 32], 32)));
}

/// n = 1.1 for class 1: 1720.2 × 1.4 / 1.1 is above 2189.
#[test]
fn each_vehicle_has_its_own_figure() {
    let tractor = vehicle_bytes(&VehicleWords { version: 1, class: 1, ..lorry([1500, 3000]) });
    let two = said(&joined(&[case_l(), tractor]), 2);
    assert_eq!(two, Ok((vec![(1720, 1, true, 520), (2189, 1, true, 989)], 2)));
    let worn = said_of(Some(&bridge(&stringer(1))), &joined(&[case_l()]), 1);
    assert_eq!(worn, Ok((vec![(1343, 1, true, 143)], 1)));
}

/// Case A before case F under one axle: 1720 − 0.4w and 1939 − 0.5w, the same for 2190 kgf. The
/// margin is the governing member's, not the first one's.
#[test]
fn each_vehicle_has_its_own_governing_member() {
    let mut beam = [0u16; 16];
    beam[..11].copy_from_slice(&[2, 1, 300, 0, 200, 0, 100, 1, 24, 0, 1]);
    let survey = [&stringer(0)[..], &survey_bytes(&[beam])[6..]].concat();
    let survey = bridge(&with(&survey, 5, 2));
    let axle = |weight| VehicleWords { axles: vec![[weight, 0]], ..lorry([0, 0]) };
    let yard = yard_bytes(&[1000, 2190, 3000, 4300, 9000, 1].map(axle));
    let of_first = |margin| (1720, 1, true, margin);
    let of_second = |passes, margin| (1720, 2, passes, margin);
    let light = [of_first(1320), of_first(844), of_second(true, 439)];
    let heavy = [of_second(false, -211), of_second(false, -2561), of_first(1719)];
    assert_eq!(said_of(Some(&survey), &yard, 6), Ok(([light, heavy].concat(), 4)));
}

/// The missing count byte, a count outside 1 to 32.
#[test]
fn counts() {
    assert_eq!(said(&[], 40), Err((1, 0)));
    for count in [0, 33, 34, 255] {
        assert_eq!(said(&[count], 40), Err((3, 0)), "count {count} alone");
        let many = [&[count], &vec![case_l(); 33].concat()[..]].concat();
        assert_eq!(said(&many, 255), Err((3, 0)), "count {count}");
    }
}

/// A file is as long as its own axle byte says: one that says too little or too much moves where
/// the next begins.
#[test]
fn lengths() {
    let two = joined(&[case_l(), case_l()]);
    for length in 1..two.len() {
        assert_eq!(said(&two[..length], 2), Err((1, 0)), "cut to {length}");
    }
    assert_eq!(said(&[1], 1), Err((1, 0)), "no file at all");
    // One axle: it is sound, and the second axle stands where the next file should.
    assert_eq!(said(&with(&two, 1 + 8, 1), 2), Err((2, 0)));
    assert_eq!(said(&with(&two, 1 + 17 + 8, 1), 2), Err((1, 0)), "4 bytes left over");
    // Three axles: "TBV" and 1 are weight 16980 and distance 342, and the next file lacks 4 bytes.
    assert_eq!(said(&with(&two, 1 + 8, 3), 2), Err((2, 0)));
    assert_eq!(said(&with(&two, 1 + 8, 3)[..22], 2), Err((1, 0)), "nothing is left for the next");
    // Sixteen: all that is left is too short for it.
    assert_eq!(said(&with(&two, 1 + 8, 16), 2), Err((1, 0)));
    assert_eq!(said(&with(&two, 1 + 8, 0), 2), Err((3, 0)));
    assert_eq!(said(&with(&two, 1 + 8, 17), 2), Err((3, 0)));
    assert_eq!(said(&with(&two, 0, 1), 2), Err((1, 0)), "a file left over");
    assert_eq!(said(&with(&two, 0, 3), 3), Err((1, 0)), "a file too few");
    assert_eq!(said(&[&two[..], &[0]].concat(), 2), Err((1, 0)), "a byte left over");
}

/// The place is the faulty vehicle's own: the axle, not the vehicle.
#[test]
fn the_first_faulty_vehicle() {
    let (class, second_axle) = (with(&case_l(), 5, 2), with(&case_l(), 14, 255));
    for i in 0..32 {
        let mut files = vec![case_l(); 32];
        files[i] = second_axle.clone();
        assert_eq!(said(&joined(&files), 32), Err((7, 2)), "vehicle {i}");
        files[31] = with(&files[31], 0, b'?');
        let answer = if i == 31 { (2, 0) } else { (7, 2) };
        assert_eq!(said(&joined(&files), 32), Err(answer), "vehicle {i}, and the last");
    }
    let both = [class, second_axle];
    assert_eq!(said(&joined(&both), 2), Err((7, 0)));
    assert_eq!(said(&joined(&[&both[1..], &both[..1]].concat()), 2), Err((7, 2)));
}

#[test]
fn lists() {
    let three = joined(&vec![case_l(); 3]);
    for entries in 0..3 {
        assert_eq!(said(&three, entries), Err((14, 0)), "{entries} entries");
    }
    for entries in [3, 4, 40] {
        assert_eq!(said(&three, entries), Ok((vec![(1720, 1, true, 520); 3], 3)));
    }
}

/// Two faults at once, each pair: "11 comes first, then the missing count byte, 3, the vehicles,
/// bytes left over, 14".
#[test]
fn the_order_of_refusals() {
    let sound = joined(&[case_l(), case_l()]);
    let (faulty, longer) = (with(&sound, 1 + 17 + 11, 1), [&sound[..], &[0]].concat());
    let survey = bridge(&stringer(0));
    for bytes in [&[][..], &[0], &sound, &faulty, &longer] {
        for entries in [0, 2] {
            assert_eq!(said_of(None, bytes, entries), Err((11, 0)));
        }
    }
    let said = |bytes: &[u8], entries| said_of(Some(&survey), bytes, entries);
    assert_eq!(said(&[], 0), Err((1, 0)), "the missing count byte before 14");
    for wrong in [&sound, &faulty, &longer] {
        assert_eq!(said(&with(wrong, 0, 0), 0), Err((3, 0)), "3 before the rest");
        assert_eq!(said(&with(wrong, 0, 33), 2), Err((3, 0)));
    }
    let both = [&faulty[..], &[0]].concat();
    assert_eq!(said(&both, 2), Err((7, 1)), "the vehicles before bytes left over");
    assert_eq!(said(&faulty, 0), Err((7, 1)), "the vehicles before 14");
    assert_eq!(said(&both, 0), Err((7, 1)));
    assert_eq!(said(&longer, 0), Err((1, 0)), "bytes left over before 14");
    assert_eq!(said(&longer, 1), Err((1, 0)));
    assert_eq!(said(&sound, 1), Err((14, 0)));
}

/// Whose refusal it is: the yard's, the vehicle's, or that there is no survey.
#[test]
fn whose_refusal() {
    let survey = bridge(&stringer(0));
    let file = |survey, bytes: &[u8], entries| yard(survey, bytes, entries).unwrap_err().file;
    let one = joined(&[case_l()]);
    assert_eq!(file(None, &one, 1), File::Survey);
    assert_eq!(file(Some(&survey[..]), &[], 1), File::Yard);
    assert_eq!(file(Some(&survey[..]), &one, 0), File::Yard);
    assert_eq!(file(Some(&survey[..]), &one[..17], 1), File::Vehicle);
}

/// "Every answer is that of loading that vehicle alone and judging", "the number of passes".
#[test]
fn each_answer_is_that_of_the_vehicle_alone() {
    const SEED: u64 = 0x9a4d_0001;
    let mut random = Random::new(SEED);
    let mut mixed = 0;
    for round in 0..400 {
        let spread = if round % 4 == 0 { Spread::Wide } else { Spread::Usual };
        let (members, vehicles) = (1 + random.below(4), 1 + random.below(32));
        let survey = survey_bytes(&survey(&mut random, spread, members));
        let vehicles = generate_yard(&mut random, spread, vehicles);
        let entries = vehicles.len() + random.below(3);
        let answer = yard(Some(&bridge(&survey)), &yard_bytes(&vehicles), entries);
        let answer =
            answer.unwrap_or_else(|refused| panic!("seed {SEED:#x}, {round}: {refused:?}"));
        assert_eq!(answer.answers.len(), vehicles.len());
        for (answer, vehicle) in answer.answers.iter().zip(&vehicles) {
            let alone = judge(&survey, &vehicle_bytes(vehicle)).expect("a sound pair");
            let alone = (alone.figure, alone.governing, alone.passes, alone.margin);
            assert_eq!((answer.figure, answer.governing, answer.passes, answer.margin), alone);
        }
        let passes = answer.answers.iter().filter(|answer| answer.passes).count();
        assert_eq!(u64::try_from(passes).ok(), Some(answer.passes), "seed {SEED:#x}, {round}");
        mixed += u32::from(0 < passes && passes < vehicles.len());
    }
    assert!(mixed > 40, "{mixed} yards of which some pass and some do not");
}

fn generate_yard(random: &mut Random, spread: Spread, count: usize) -> Vec<VehicleWords> {
    reference::generate::yard(random, spread, count, 4)
}

#[test]
fn each_damage_has_its_number_and_place() {
    const SEED: u64 = 0x9a4d_0002;
    let mut random = Random::new(SEED);
    for round in 0..20 {
        for DamagedYard { yard, number, place } in damaged_yards(&mut random) {
            assert_eq!(said(&yard, 40), Err((number, place)), "seed {SEED:#x}, round {round}");
        }
    }
}

/// The damaged yards have every number, at every place that it can have.
#[test]
fn some_damage_of_every_sort() {
    let mut random = Random::new(0x9a4d_0003);
    let mut seen = std::collections::BTreeMap::new();
    for _ in 0..20_000 {
        let what = match said(&some_yard_damage(&mut random, 6), 40) {
            Ok(_) => (0, 0),
            Err(refused) => refused,
        };
        *seen.entry(what).or_insert(0) += 1;
    }
    for what in [(0, 0), (1, 0), (2, 0), (3, 0), (7, 0), (7, 1), (7, 2)] {
        assert!(seen.get(&what).copied().unwrap_or(0) > 200, "{what:?} is rare: {seen:?}");
    }
}
