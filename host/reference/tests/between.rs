//! Rot between two readings: figures by hand, every survey between two of one bridge, what is not
//! of one bridge, and the order of refusals.

mod two_surveys;

use reference::generate::*;
use reference::layout::*;
use reference::script::MOST_ENTRIES;
use reference::{between, judge, reader, Between, Passing, Vehicle};
use std::collections::BTreeMap;
use two_surveys::*;

/// Class 0, track 190, one axle.
fn one_axle(weight: u32) -> Vehicle {
    read(&VehicleWords { version: 1, class: 0, track: 190, axles: vec![[weight, 0]] })
}

/// The vehicle of case L: 1200 kgf/m on case A.
fn case_l() -> Vehicle {
    read(&VehicleWords { version: 1, class: 0, track: 190, axles: vec![[1500, 0], [3000, 370]] })
}

/// Case A with this rot: 1720, 1343, 64 and 0 kgf/m for rot 0, 1, 7 and 8.
fn case_a(rot: u16) -> Words {
    let mut words: Words = [0; 16];
    words[..8].copy_from_slice(&[1, 1, 500, 140, 0, 0, 100, 1]);
    words[8..11].copy_from_slice(&[28, rot, 1]);
    words
}

/// Two surveys under case L, with a list of so many entries.
fn call(first: &[Words], second: &[Words], entries: usize) -> Call {
    call_of([FREE_ORDER; 2], first, second, entries)
}

/// The same of these versions.
fn call_of(versions: [u16; 2], first: &[Words], second: &[Words], entries: usize) -> Call {
    let first = survey_bytes_of(versions[0], first);
    let second = survey_bytes_of(versions[1], second);
    Call { vehicle: Some(case_l()), first, second, entries }
}

fn stringers(rots: [u16; 2], vehicle: Vehicle) -> Said {
    let [first, second] = rots.map(case_a);
    said(&Call { vehicle: Some(vehicle), ..call(&[first], &[second], 2) })
}

#[test]
fn a_stringer_between_two_readings() {
    let case_l = |rots| stringers(rots, case_l());
    assert_eq!(case_l([0, 1]), Ok((Passing::All, vec![(1343, 1720)])));
    assert_eq!(case_l([0, 7]), Ok((Passing::Undecided, vec![(64, 1720)])));
    assert_eq!(case_l([1, 8]), Ok((Passing::Undecided, vec![(0, 1343)])));
    assert_eq!(case_l([7, 8]), Ok((Passing::None, vec![(0, 64)])));
    assert_eq!(case_l([1, 1]), Ok((Passing::All, vec![(1343, 1343)])));
    assert_eq!(case_l([8, 8]), Ok((Passing::None, vec![(0, 0)])));
}

/// One axle at mid-span gives 0.4 of its weight: the limits are 3357 and 4300 kgf.
#[test]
fn verdicts_turn_at_both_limits() {
    for (weight, passing) in [
        (1, Passing::All),
        (3357, Passing::All),
        (3358, Passing::Undecided),
        (4300, Passing::Undecided),
        (4301, Passing::None),
        (60000, Passing::None),
    ] {
        let answer = stringers([0, 1], one_axle(weight));
        assert_eq!(answer, Ok((passing, vec![(1343, 1720)])), "{weight} kgf");
    }
}

/// One member that may refuse leaves the bridge undecided, whatever the others do.
#[test]
fn the_verdict_is_the_bridges() {
    let [sound, worn, bad] = [0, 1, 7].map(case_a);
    let answer = |first: &[Words], second: &[Words]| said(&call(first, second, 4)).map(|a| a.0);
    assert_eq!(answer(&[sound, sound], &[worn, worn]), Ok(Passing::All));
    assert_eq!(answer(&[sound, sound], &[worn, bad]), Ok(Passing::Undecided));
    assert_eq!(answer(&[sound, sound], &[bad, sound]), Ok(Passing::Undecided));
    assert_eq!(answer(&[sound, bad], &[sound, bad]), Ok(Passing::None));
    assert_eq!(answer(&[sound, bad], &[bad, bad]), Ok(Passing::None));
}

/// The figures of a survey under a vehicle.
fn judged(records: &[Words], vehicle: &VehicleWords) -> reference::Judged {
    judge(&survey_bytes(records), &vehicle_bytes(vehicle)).expect("an acceptable survey")
}

/// Every figure of a survey between the two is within the bounds, and its verdict is theirs.
fn hold_within(answer: &Between, middle: &reference::Judged, what: &str) {
    for (bounds, rated) in answer.members.iter().zip(&middle.members) {
        let within = bounds.lowest <= rated.permitted && rated.permitted <= bounds.highest;
        assert!(within, "{what}: {bounds:?}, {rated:?}");
    }
    let least = |end: fn(&reference::Bounds) -> u64| answer.members.iter().map(end).min();
    let (lowest, highest) = (least(|bounds| bounds.lowest), least(|bounds| bounds.highest));
    let figure = Some(middle.figure);
    assert!(lowest <= figure && figure <= highest, "{what}: {lowest:?} {figure:?} {highest:?}");
    match answer.passing {
        Passing::All => assert!(middle.passes, "{what}"),
        Passing::None => assert!(!middle.passes, "{what}"),
        Passing::Undecided => {}
    }
}

#[test]
fn every_survey_between_is_within_the_bounds() {
    const SEED: u64 = 0xbe20_0001;
    let mut random = Random::new(SEED);
    let (mut verdicts, mut inside, mut turned) = ([0; 3], 0, [0; 2]);
    for round in 0..1500 {
        let what = format!("seed {SEED:#x}, round {round}");
        let count = 1 + random.below(4);
        let first = match round % 4 {
            0 => survey(&mut random, Spread::Wide, count),
            _ => bearing_survey(&mut random, count),
        };
        let second = worn(&mut random, &first);
        let vehicle = vehicle_near(&mut random, &first, &second);
        let [one, other] =
            [&first, &second].map(|records| file_as_they_stand(&mut random, records));
        let answer = between(Some(&read(&vehicle)), &one, &other, 2 * count);
        let answer = answer.unwrap_or_else(|refused| panic!("{what}: {refused:?}"));
        let ends = [&first, &second].map(|records| judged(records, &vehicle));
        let differ = ends[0].passes != ends[1].passes;
        assert_eq!(answer.passing == Passing::Undecided, differ, "{what}");
        verdicts[answer.passing as usize] += 1;
        ends.iter().for_each(|end| hold_within(&answer, end, &what));
        for _ in 0..4 {
            let middle = judged(&survey_between(&mut random, &first, &second), &vehicle);
            hold_within(&answer, &middle, &what);
            inside += u32::from(ends[1].figure < middle.figure && middle.figure < ends[0].figure);
            turned[usize::from(middle.passes)] += u32::from(differ);
        }
    }
    assert!(verdicts.iter().all(|&times| times > 200), "{verdicts:?}");
    assert!(inside > 300, "{inside} figures between those of the ends");
    assert!(turned.iter().all(|&times| times > 100), "undecided and: {turned:?}");
}

/// All surveys between two, one by one.
fn all_between(first: &Words, second: &Words) -> Vec<Words> {
    let mut all = vec![*first];
    for word in 0..16 {
        let values = first[word]..=second[word];
        let with = |words: &Words, value| {
            let mut words = *words;
            words[word] = value;
            words
        };
        all = values.flat_map(|value| all.iter().map(move |words| with(words, value))).collect();
    }
    all
}

/// Up to two more of every number that may grow: the bounds are the least and the greatest of all
/// permitted loads between, and the verdict is that of all of them.
#[test]
fn the_bounds_are_met_by_trying_all() {
    let mut random = Random::new(0xbe20_0002);
    let mut fell = 0;
    for _ in 0..40 {
        for first in of_each_kind(&mut random, Spread::Usual) {
            let mut second = first;
            growing(first[KIND], first[SECTION]).iter().for_each(|&word| second[word] += 2);
            let vehicle = vehicle_near(&mut random, &[first], &[second]);
            let all = all_between(&first, &second);
            let all: Vec<_> = all.iter().map(|words| judged(&[*words], &vehicle)).collect();
            let (least, greatest) =
                (all.iter().map(|one| one.figure).min(), all.iter().map(|one| one.figure).max());
            let call = Call { vehicle: Some(read(&vehicle)), ..call(&[first], &[second], 2) };
            let (passing, bounds) = said(&call).expect("two surveys of one bridge");
            assert_eq!(least.zip(greatest), Some(bounds[0]), "{first:?} to {second:?}");
            let every = all.iter().all(|one| one.passes);
            let none = all.iter().all(|one| !one.passes);
            assert_eq!((passing == Passing::All, passing == Passing::None), (every, none));
            fell += u32::from(least < greatest);
        }
    }
    assert!(fell > 200, "{fell} figures fell");
}

/// Rot, lost area and dead load by the documents' sentences; of kind 7 the dead load alone.
fn growing(kind: u16, code: u16) -> &'static [usize] {
    match (kind, code) {
        (7, _) => &[DEAD_LOAD],
        (1 | 2, 1 | 5) => &[DEAD_LOAD, S2],
        (1 | 2, 2) => &[DEAD_LOAD, S3, S4],
        (3, 2) => &[DEAD_LOAD, S3, S4, S6],
        (4, 3) => &[DEAD_LOAD, S5],
        (5 | 6, 4) => &[DEAD_LOAD, S2],
        _ => panic!("no kind {kind} has section {code}"),
    }
}

/// Each of the sixteen words one greater or one less in the second survey, both acceptable.
#[test]
fn every_word_of_every_kind() {
    let mut random = Random::new(0xbe20_0003);
    let mut tried = BTreeMap::new();
    for _ in 0..300 {
        for first in of_each_kind(&mut random, Spread::Usual) {
            for word in 0..16 {
                for other in [first[word].wrapping_add(1), first[word].wrapping_sub(1)] {
                    let mut second = first;
                    second[word] = other;
                    if reader::records(&survey_bytes(&[second])).is_err() {
                        continue;
                    }
                    let grew = other > first[word];
                    let taken = grew && growing(first[KIND], first[SECTION]).contains(&word);
                    let answer = said(&call(&[first], &[second], 2)).map(|_| ());
                    let expected = if taken { Ok(()) } else { Err((15, 1)) };
                    assert_eq!(answer, expected, "{first:?}, word {word} is {other}");
                    *tried.entry((word, grew)).or_insert(0) += 1;
                }
            }
        }
    }
    // The kind cannot change alone, as other words are used then, and no code by one.
    let untried =
        |word: &usize| [true, false].iter().any(|&grew| !tried.contains_key(&(*word, grew)));
    assert_eq!((0..16).filter(untried).collect::<Vec<_>>(), [KIND, SECTION], "{tried:?}");
}

/// A log and a crescent have the same fields: only the code tells them apart.
#[test]
fn the_section_code_alone() {
    let (log, mut crescent) = (case_a(1), case_a(1));
    crescent[SECTION] = 5;
    assert_eq!(said(&call(&[log], &[crescent], 2)), Err((15, 1)));
    assert_eq!(said(&call(&[crescent], &[log], 2)), Err((15, 1)));
    assert_eq!(said(&call(&[case_a(1), log], &[case_a(2), crescent], 4)), Err((15, 2)));
}

/// 15: a different count, place 0, else the first record.
#[test]
fn counts_and_the_first_record() {
    let [sound, worn] = [1, 2].map(case_a);
    let said = |first: &[Words], second: &[Words]| said(&call(first, second, 8)).map(|_| ());
    assert_eq!(said(&[sound], &[sound, sound]), Err((15, 0)));
    assert_eq!(said(&[sound, sound], &[sound]), Err((15, 0)));
    assert_eq!(said(&[worn], &[sound, sound]), Err((15, 0)), "the count before the records");
    assert_eq!(said(&[worn, sound], &[sound, sound]), Err((15, 1)));
    assert_eq!(said(&[sound, worn], &[worn, sound]), Err((15, 2)));
    assert_eq!(said(&[worn, worn], &[sound, sound]), Err((15, 1)));
    assert_eq!(said(&[sound, sound], &[worn, sound]), Ok(()));
}

#[test]
fn lists() {
    let (first, second) = ([case_a(0); 3], [case_a(1); 3]);
    for entries in 0..6 {
        assert_eq!(said(&call(&first, &second, entries)), Err((14, 0)), "{entries} entries");
    }
    for entries in [6, 7, MOST_ENTRIES] {
        let answer = Ok((Passing::All, vec![(1343, 1720); 3]));
        assert_eq!(said(&call(&first, &second, entries)), answer);
    }
}

/// Two and more faults at once: "12 comes first, then the first survey's own refusals, the
/// second's, 15, and 14".
#[test]
fn the_order_of_refusals() {
    let [sound, worn] = [1, 2].map(case_a);
    let (mut no_kind, mut no_species) = (sound, sound);
    (no_kind[KIND], no_species[SPECIES]) = (0, 0);
    let order = |first: &[Words], second: &[Words], entries| said(&call(first, second, entries));
    for first in [sound, worn, no_kind] {
        for second in [sound, worn, no_kind] {
            for entries in [0, 2] {
                let without = Call { vehicle: None, ..call(&[first], &[second], entries) };
                assert_eq!(said(&without), Err((12, 0)));
            }
        }
    }
    assert_eq!(order(&[no_species], &[no_kind], 0), Err((5, 1)), "the first's before the second's");
    assert_eq!(order(&[sound, no_species], &[no_kind], 0), Err((5, 2)), "whatever the places");
    assert_eq!(order(&[worn, sound], &[sound, no_kind], 0), Err((4, 2)), "the second's before 15");
    assert_eq!(order(&[sound], &[sound, no_kind], 0), Err((4, 2)), "and before the count's");
    assert_eq!(order(&[worn], &[sound], 0), Err((15, 1)), "15 before 14");
    assert_eq!(order(&[sound], &[worn, worn], 0), Err((15, 0)), "15 of the count before 14");
    assert_eq!(order(&[sound], &[worn], 1), Err((14, 0)));
}

/// Two stringers that the order has in these places, each with this rot.
fn two(spans: [u16; 2], rot: u16) -> [Words; 2] {
    spans.map(|span| {
        let mut words = case_a(rot);
        words[SPAN] = span;
        words
    })
}

/// "Two surveys that are taken together may differ in version": the answer is that of version 1.
#[test]
fn surveys_of_any_two_versions() {
    let (first, second) = (two([400, 500], 0), two([400, 500], 1));
    let answer = said(&call(&first, &second, 4));
    assert!(answer.as_ref().is_ok_and(|(_, bounds)| bounds[1] == (1343, 1720)), "{answer:?}");
    for versions in [[1, 2], [2, 1], [2, 2]] {
        assert_eq!(said(&call_of(versions, &first, &second, 4)), answer, "{versions:?}");
    }
}

/// 16 in its survey's own turn: behind 12 and the first's refusals, before the second's, 15 and 14.
#[test]
fn a_survey_out_of_order_is_refused_in_its_turn() {
    let (rising, falling) = (two([400, 500], 0), two([500, 400], 0));
    let mut faulty = two([400, 500], 1);
    faulty[1][KIND] = 0;
    let said = |versions, first: &[Words], second: &[Words], entries| {
        said(&call_of(versions, first, second, entries)).map(|_| ())
    };
    let late = Err((16, 2));
    assert_eq!(said([2, 1], &falling, &falling, 4), late, "the first");
    assert_eq!(said([1, 2], &falling, &falling, 4), late, "the second");
    assert_eq!(said([1, 1], &falling, &falling, 4), Ok(()), "free order");
    assert_eq!(said([2, 1], &falling, &faulty, 0), late, "the first's before the second's");
    assert_eq!(said([2, 1], &falling, &rising[..1], 0), late, "before a different count");
    assert_eq!(said([1, 2], &rising, &falling, 0), late, "before 15 and 14");
    assert_eq!(said([1, 2], &rising[..1], &falling, 0), late, "before a different count");
    assert_eq!(said([1, 2], &faulty, &falling, 4), Err((4, 2)), "behind the first's");
    let last = [falling[0], falling[0], falling[1]];
    assert_eq!(said([2, 2], &last, &falling, 4), Err((16, 3)), "the first's own place");
    for versions in [[2, 1], [1, 2], [2, 2]] {
        let without = Call { vehicle: None, ..call_of(versions, &falling, &falling, 4) };
        assert_eq!(self::said(&without), Err((12, 0)), "12 before it");
    }
}

/// Own refusals of the whole file: its length, mark and count, place 0.
#[test]
fn files_that_are_no_surveys() {
    let sound = survey_bytes(&[case_a(1)]);
    let mut marked = sound.clone();
    marked[2] = b'V';
    let none = survey_bytes(&[]);
    for (bytes, number) in [(&sound[..37], 1), (&sound[..0], 1), (&marked, 2), (&none, 3)] {
        let both = Call { first: bytes.to_vec(), second: marked.clone(), ..call(&[], &[], 2) };
        assert_eq!(said(&both), Err((number, 0)));
        let second = Call { first: sound.clone(), second: bytes.to_vec(), ..call(&[], &[], 2) };
        assert_eq!(said(&second), Err((number, 0)));
    }
}

#[test]
fn each_damage_has_its_number_and_place() {
    const SEED: u64 = 0xbe20_0004;
    let mut random = Random::new(SEED);
    let mut seen = BTreeMap::new();
    for round in 0..2 {
        for DamagedPair { first, second, number, place } in damaged_pairs(&mut random) {
            let answer =
                said(&Call { vehicle: Some(case_l()), first, second, entries: MOST_ENTRIES });
            assert_eq!(answer, Err((number, place)), "seed {SEED:#x}, round {round}");
            *seen.entry((number, place)).or_insert(0) += 1;
        }
    }
    for place in 0..=MOST_MEMBERS as u64 {
        assert!(seen.get(&(15, place)).is_some_and(|&times| times >= 4), "15 at {place}");
    }
    for number in [4, 5, 6, 7, 8, 16] {
        assert!(seen.keys().filter(|key| key.0 == number).count() > 200, "{number}");
    }
}

/// Each way at each kind that it can have, both records acceptable still.
#[test]
fn records_out_of_order() {
    let mut random = Random::new(0xbe20_0005);
    let mut met = BTreeMap::new();
    for _ in 0..200 {
        for mut first in of_each_kind(&mut random, Spread::Usual) {
            let mut second = worn(&mut random, &[first])[0];
            let (kind, way) = (first[KIND], *random.pick(&Disorder::ALL));
            if disorder(&mut random, &mut first, &mut second, way) {
                let answer = said(&call(&[first], &[second], 2));
                assert_eq!(answer, Err((15, 1)), "{way:?}: {first:?}, {second:?}");
                *met.entry((way, kind)).or_insert(0) += 1;
            }
        }
    }
    let ways = |kind| met.keys().filter(|key| key.1 == kind).count();
    // Close rot is of kind 7, species of all but 6; kinds 3 to 6 have one section.
    assert_eq!([1, 2, 3, 4, 5, 6, 7].map(ways), [5, 5, 4, 4, 4, 3, 6], "{met:?}");
    assert!(met.values().all(|&times| times > 10), "{met:?}");
}

/// The damaged pairs have every number.
#[test]
fn some_damage_of_every_sort() {
    let mut random = Random::new(0xbe20_0006);
    let mut seen = BTreeMap::new();
    for _ in 0..20_000 {
        let [first, second] = some_pair_damage(&mut random, 3);
        let vehicle = Some(one_axle(1));
        let entries = some_entries(&mut random, 3);
        let answer = said(&Call { vehicle, first, second, entries });
        *seen.entry(answer.err().map_or(0, |refused| refused.0)).or_insert(0) += 1;
    }
    for number in [0, 1, 2, 3, 4, 5, 6, 7, 8, 14, 15, 16] {
        assert!(seen.get(&number).is_some_and(|&times| times > 100), "{number}: {seen:?}");
    }
}
