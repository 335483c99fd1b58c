//! Two measurers: what the generator makes can be joined, or is refused for what it names; and what
//! is claimed of every joined survey.

mod joins;

use joins::said;
use reference::generate::*;
use reference::layout::*;
use reference::reader;
use std::collections::{BTreeMap, BTreeSet};

#[test]
fn each_damage_has_its_number_and_place() {
    const SEED: u64 = 0x0a10_1001;
    let mut random = Random::new(SEED);
    let mut seen: BTreeMap<(u64, u64), u32> = BTreeMap::new();
    for round in 0..3 {
        for DamagedJoin { join, number, place } in damaged_joins(&mut random) {
            assert_eq!(said(&join), Err((number, place)), "seed {SEED:#x}, round {round}");
            *seen.entry((number, place)).or_default() += 1;
        }
    }
    let times = |number, place| seen.get(&(number, place)).copied().unwrap_or(0);
    for place in 1..=MOST_MEMBERS as u64 {
        // Kind, number, and both a size and a number at least, in every round.
        assert!(times(18, place) >= 8, "18 at {place}");
        assert!(times(19, place) >= 1, "19 at {place}");
    }
    for number in [4, 5, 6, 7, 8, 16] {
        assert!(seen.keys().filter(|key| key.0 == number).count() > 200, "{number}");
    }
    for (number, least) in [(1, 60), (2, 60), (3, 6), (14, 120), (18, 1500)] {
        assert!(times(number, 0) >= least, "{number} at 0");
    }
}

/// Each record beside those that differ from it in one number: sound, and refused as it should be.
#[test]
fn records_apart_in_one_number() {
    let mut random = Random::new(0x0a10_1002);
    let mut seen: BTreeMap<(usize, Option<u64>), u32> = BTreeMap::new();
    for round in 0..40 {
        let spread = [Spread::Wide, Spread::Usual][round % 2];
        for Apart { first, second, word, number } in
            of_each_kind(&mut random, spread).iter().flat_map(apart_in_one)
        {
            assert!((0..16).all(|other| (first[other] != second[other]) == (other == word)));
            let [first, second] = [first, second].map(|record| survey_bytes(&[record]));
            let answer = said(&Join { first, second, room: 38 });
            assert_eq!(answer.err(), number.map(|number| (number, 1)), "word {word}");
            *seen.entry((word, number)).or_default() += 1;
        }
    }
    for word in [SPAN, SPACING, TRUSS_HEIGHT, S1, S2, S3, S4, S5] {
        assert!(seen.contains_key(&(word, Some(19))), "word {word} is never too far");
    }
    let taken: Vec<usize> = (0..16).filter(|&word| seen.contains_key(&(word, None))).collect();
    let [sizes, rest] = [[SPAN, SPACING, TRUSS_HEIGHT, DEAD_LOAD], [S1, S2, S3, S4]];
    assert_eq!(taken, [&sizes[..], &rest, &[S5, S6]].concat());
    // Kind and code cannot change alone by a number, and the dead load is never refused.
    let refused: Vec<usize> = (0..16).filter(|&w| seen.contains_key(&(w, Some(18)))).collect();
    let [front, section] = [[SPECIES, FROM_SUPPORT, TRUSS_HEIGHT, S1], [S2, S3, S5, S6]];
    assert_eq!(refused, [&front[..], &section, &[PART_A, WHOLE_B]].concat());
}

/// A survey's version and records, where it is accepted.
fn read(bytes: &[u8]) -> (u16, Vec<Words>) {
    let records = reader::records(bytes).expect("an accepted survey");
    (u16::from_le_bytes([bytes[3], bytes[4]]), records)
}

/// A joined field lies between the two and within half a unit of their mean.
fn hold_mean(joined: &Words, first: &Words, second: &Words, what: &str) {
    for word in 0..16 {
        let [joined, one, other] = [joined, first, second].map(|words| i32::from(words[word]));
        assert!((2 * joined - one - other).abs() <= 1, "{what}, word {word}");
        assert!(one.min(other) <= joined && joined <= one.max(other), "{what}, word {word}");
    }
}

/// "A mean outside its range cannot arise": what is written is an accepted survey of version 1, its
/// records as the first's stand; in either order of the two, and for a survey with itself.
#[test]
fn joined_surveys_are_accepted() {
    const SEED: u64 = 0x0a10_1003;
    let mut random = Random::new(SEED);
    let (mut versions, mut sections) = (BTreeMap::new(), BTreeSet::new());
    let (mut moved, mut free) = (0, [0; 2]);
    for round in 0..6000 {
        let what = format!("seed {SEED:#x}, round {round}");
        let members = if round % 100 == 0 { MOST_MEMBERS } else { 1 + random.below(5) };
        let call = sound_join(&mut random, round, members);
        let written = said(&call).unwrap_or_else(|fault| panic!("{what}: {fault:?}"));
        let [(one, first), (other, second)] = [&call.first, &call.second].map(|file| read(file));
        let (version, joined) = read(&written);
        assert_eq!((version, joined.len(), written.len()), (1, members, 6 + 32 * members));
        for (joined, (first, second)) in joined.iter().zip(first.iter().zip(&second)) {
            hold_mean(joined, first, second, &what);
            sections.insert((joined[KIND], joined[SECTION]));
            moved += u32::from(joined != first && joined != second);
        }
        let with = |first: &[u8], second: &[u8]| {
            said(&Join { first: first.to_vec(), second: second.to_vec(), room: written.len() })
        };
        assert_eq!(with(&call.second, &call.first), Ok(written.clone()), "{what}: exchanged");
        assert_eq!(with(&written, &written), Ok(written.clone()), "{what}: with itself");
        assert_eq!(with(&call.first, &call.first), Ok(survey_bytes(&first)), "{what}: alike");
        assert!(with(&call.first, &written).is_ok(), "{what}: the first with the joined");
        *versions.entry((one, other)).or_insert(0) += 1;
        if one != other {
            let end = usize::from(one == IN_ORDER);
            free[end] += u32::from(in_order([&first, &second][end]) != *[&first, &second][end]);
        }
    }
    assert!(versions.len() == 4 && versions.values().all(|&times| times == 1500), "{versions:?}");
    assert_eq!(sections.len(), 12, "{sections:?}");
    assert!(moved > 5000, "{moved} records are of neither");
    assert!(free.iter().all(|&times| times > 50), "{free:?} in free order beside an order");
}

/// Both in order, and their joined records are not: they have version 1 alone.
#[test]
fn joined_records_out_of_order() {
    let mut random = Random::new(0x0a10_1004);
    for _ in 0..500 {
        let [first, second] =
            crossing(&mut random).map(|records| survey_bytes_of(IN_ORDER, &records));
        let written = said(&Join { first, second, room: 70 }).expect("two surveys in order");
        let refused = reader::records(&with_version(&written, IN_ORDER)).expect_err("out of order");
        assert_eq!((read(&written).0, refused.number, refused.place), (1, 16, 2));
    }
}

/// Each way at each kind that it can have, both records acceptable still.
#[test]
fn records_that_disagree() {
    let mut random = Random::new(0x0a10_1005);
    let mut met = BTreeMap::new();
    for round in 0..400 {
        let spread = [Spread::Wide, Spread::Usual][round % 2];
        for mut first in of_each_kind(&mut random, spread) {
            let mut second = measured(&mut random, &first);
            let (kind, way) = (first[KIND], *random.pick(&Disagreement::ALL));
            if disagree(&mut random, &mut first, &mut second, way) {
                let [one, other] = [first, second].map(|record| survey_bytes(&[record]));
                let answer = said(&Join { first: one, second: other, room: 38 });
                assert_eq!(answer, Err((way.number(), 1)), "{way:?}: {first:?}, {second:?}");
                *met.entry((way, kind)).or_insert(0) += 1;
            }
        }
    }
    let ways = |kind| met.keys().filter(|key| key.1 == kind).count();
    // Species is of all but 6; kinds 3 to 6 have one section.
    assert_eq!([1, 2, 3, 4, 5, 6, 7].map(ways), [6, 6, 5, 5, 5, 4, 6], "{met:?}");
    assert!(met.values().all(|&times| times > 10), "{met:?}");
}

#[test]
fn some_joins_of_every_sort() {
    let mut random = Random::new(0x0a10_1006);
    let mut seen = BTreeMap::new();
    for _ in 0..20_000 {
        let answer = said(&some_join(&mut random, 3));
        *seen.entry(answer.err().map_or(0, |refused| refused.0)).or_insert(0) += 1;
    }
    for number in [0, 1, 2, 3, 4, 5, 6, 7, 8, 14, 16, 18, 19] {
        assert!(seen.get(&number).is_some_and(|&times| times > 100), "{number}: {seen:?}");
    }
}
