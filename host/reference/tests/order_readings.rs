//! Records in one order: what the request could be taken for. The right reading is worked a second
//! time here, and the generated files must show each wrong one; and what the generator makes.

mod raw;

use raw::raw;
use reference::generate::*;
use reference::layout::*;
use reference::reader;
use std::collections::BTreeMap;

/// What the request could be taken for, and is not.
#[derive(Clone, Copy, Debug, PartialEq, Eq)]
enum Wrong {
    KindLeftOut,
    SpanLeftOut,
    SpacingLeftOut,
    SpanBeforeKind,
    SpacingBeforeSpan,
    NoWordMayFall,
    LowBytes,
    Falling,
    EqualsRefused,
    PlaceOfTheEarlier,
    LastOfSeveral,
    BeforeTheRecordsFaults,
    BeforeTheFaultsBehind,
    VersionOneInOrder,
    VersionTwoFree,
    VersionThreeTaken,
    LowByteOfVersion,
}

const WRONG: [Wrong; 17] = [
    Wrong::KindLeftOut,
    Wrong::SpanLeftOut,
    Wrong::SpacingLeftOut,
    Wrong::SpanBeforeKind,
    Wrong::SpacingBeforeSpan,
    Wrong::NoWordMayFall,
    Wrong::LowBytes,
    Wrong::Falling,
    Wrong::EqualsRefused,
    Wrong::PlaceOfTheEarlier,
    Wrong::LastOfSeveral,
    Wrong::BeforeTheRecordsFaults,
    Wrong::BeforeTheFaultsBehind,
    Wrong::VersionOneInOrder,
    Wrong::VersionTwoFree,
    Wrong::VersionThreeTaken,
    Wrong::LowByteOfVersion,
];

/// Does the later of two records stand before the earlier?
fn before(wrong: Option<Wrong>, earlier: &Words, later: &Words) -> bool {
    let [one, other] = [earlier, later].map(|words| [words[KIND], words[SPAN], words[SPACING]]);
    let by = |words: &[usize]| {
        let pairs = words.iter().map(|&i| (other[i], one[i]));
        pairs.into_iter().find(|(later, earlier)| later != earlier).is_some_and(|(a, b)| a < b)
    };
    match wrong {
        Some(Wrong::KindLeftOut) => by(&[1, 2]),
        Some(Wrong::SpanLeftOut) => by(&[0, 2]),
        Some(Wrong::SpacingLeftOut) => by(&[0, 1]),
        Some(Wrong::SpanBeforeKind) => by(&[1, 0, 2]),
        Some(Wrong::SpacingBeforeSpan) => by(&[0, 2, 1]),
        Some(Wrong::NoWordMayFall) => (0..3).any(|i| other[i] < one[i]),
        Some(Wrong::LowBytes) => other.map(|word| word & 255) < one.map(|word| word & 255),
        Some(Wrong::Falling) => one != other && !by(&[0, 1, 2]),
        Some(Wrong::EqualsRefused) => by(&[0, 1, 2]) || one == other,
        _ => by(&[0, 1, 2]),
    }
}

/// The places of all records that stand before their predecessors.
fn misplaced(wrong: Option<Wrong>, records: &[Words]) -> Vec<u64> {
    let places = records.windows(2).zip(2..);
    let late = places.filter(|(pair, _)| before(wrong, &pair[0], &pair[1]));
    late.map(|(_, place)| if wrong == Some(Wrong::PlaceOfTheEarlier) { place - 1 } else { place })
        .collect()
}

/// Is this a version with records in order, or in any? None where it is no version.
fn ordered(wrong: Option<Wrong>, version: u16) -> Option<bool> {
    match version {
        1 => Some(wrong == Some(Wrong::VersionOneInOrder)),
        2 => Some(wrong != Some(Wrong::VersionTwoFree)),
        3 if wrong == Some(Wrong::VersionThreeTaken) => Some(true),
        257 | 258 if wrong == Some(Wrong::LowByteOfVersion) => Some(version == 258),
        _ => None,
    }
}

/// The refusal of a survey, read in one wrong way or rightly. Read as of version 1 it has every
/// refusal but that of the order.
fn refusal(wrong: Option<Wrong>, bytes: &[u8]) -> Option<(u64, u64)> {
    let own = |bytes: &[u8]| reader::records(bytes).err().map(|fault| (fault.number, fault.place));
    if bytes.len() < 6 {
        return own(bytes);
    }
    let version = u16::from_le_bytes([bytes[3], bytes[4]]);
    let Some(ordered) = ordered(wrong, version) else { return Some((2, 0)) };
    let own = own(&with_version(bytes, 1));
    let places = if ordered { misplaced(wrong, &raw(bytes)) } else { vec![] };
    let place = if wrong == Some(Wrong::LastOfSeveral) { places.last() } else { places.first() };
    let late = place.map(|&place| (16, place));
    match (own, late) {
        (Some((_, 0)), _) => own,
        (Some(_), Some(_)) if wrong == Some(Wrong::BeforeTheRecordsFaults) => late,
        (Some((_, fault)), Some((_, place)))
            if wrong == Some(Wrong::BeforeTheFaultsBehind) && place < fault =>
        {
            late
        }
        _ => own.or(late),
    }
}

/// Survey files as the tests of the library have them.
fn files(random: &mut Random) -> Vec<Vec<u8>> {
    let mut all = Vec::new();
    for _ in 0..3000 {
        all.push(some_damage(random).0);
        let count = 1 + random.below(8);
        all.push(survey_file(random, Spread::Wide, count));
        all.extend(some_pair_damage(random, 4));
    }
    let damaged = [damaged_surveys(random), misplaced_surveys(random), wrong_versions(random)];
    all.extend(damaged.into_iter().flatten().map(|damaged| damaged.survey));
    all
}

/// The right reading agrees with the reference on every file; each wrong one is seen.
#[test]
fn wrong_readings_are_seen() {
    const SEED: u64 = 0x02de_0003;
    let mut random = Random::new(SEED);
    let mut seen = [0; WRONG.len()];
    for (i, file) in files(&mut random).iter().enumerate() {
        let answer = reader::records(file).err().map(|fault| (fault.number, fault.place));
        assert_eq!(refusal(None, file), answer, "seed {SEED:#x}, file {i}");
        for (seen, wrong) in seen.iter_mut().zip(WRONG) {
            *seen += u32::from(refusal(Some(wrong), file) != answer);
        }
    }
    println!("{seen:?}");
    for (seen, wrong) in seen.iter().zip(WRONG) {
        assert!(*seen > 15, "{wrong:?} is seen {seen} times");
    }
}

#[test]
fn each_damage_has_its_number_and_place() {
    const SEED: u64 = 0x02de_0004;
    let mut random = Random::new(SEED);
    let mut seen = BTreeMap::new();
    for round in 0..4 {
        for all in [misplaced_surveys(&mut random), wrong_versions(&mut random)] {
            for Damaged { survey, vehicle, refusal } in all {
                let answer = reference::judge(&survey, &vehicle).err();
                assert_eq!(answer, Some(refusal), "seed {SEED:#x}, round {round}");
                *seen.entry((refusal.number, refusal.place)).or_insert(0) += 1;
            }
        }
    }
    // Three ways at each place, in every round.
    for place in 2..=MOST_MEMBERS as u64 {
        assert_eq!(seen.get(&(16, place)), Some(&12), "16 at {place}");
    }
    for number in 4..=8 {
        assert!(seen.keys().filter(|key| key.0 == number).count() > 30, "{number}: {seen:?}");
    }
}

/// One record before another by one word: those before it are the same, and where the next can be
/// greater it often is.
#[test]
fn one_before_by_one_word() {
    let mut random = Random::new(0x02de_0005);
    let (mut met, mut opposite) = (BTreeMap::new(), 0);
    for _ in 0..3000 {
        let record = any_survey(&mut random, Spread::Wide, 1)[0];
        for (i, way) in Misplaced::ALL.into_iter().enumerate() {
            let Some(before) = one_before(&mut random, &record, way) else { continue };
            let words = [KIND, SPAN, SPACING];
            assert!(words[..i].iter().all(|&word| before[word] == record[word]), "{way:?}");
            assert!(before[words[i]] < record[words[i]], "{way:?}: {before:?} {record:?}");
            opposite += u32::from(words[i + 1..].iter().any(|&word| before[word] > record[word]));
            assert_eq!(reader::records(&survey_bytes(&[before])), Ok(vec![before]));
            *met.entry((record[KIND], i)).or_insert(0) += 1;
        }
    }
    // No kind is before the first, and cross beams have no spacing.
    assert_eq!(met.len(), 7 * 3 - 2, "{met:?}");
    assert!(met.values().all(|&times| times > 100) && opposite > 2000, "{met:?}, {opposite}");
}

/// Half of the files are of version 2, and all are sound; many have equals, and many records that
/// only the spacing sets apart.
#[test]
fn files_of_both_versions() {
    let mut random = Random::new(0x02de_0006);
    let (mut versions, mut equals, mut by_spacing) = ([0; 2], 0, 0);
    for _ in 0..2000 {
        let file = survey_file(&mut random, Spread::Usual, 5);
        let records = reader::records(&file).expect("a sound survey");
        let version = usize::from(file[3]);
        versions[version - 1] += 1;
        if version == 2 {
            let pairs = || records.windows(2).map(|pair| [&pair[0], &pair[1]]);
            let same = |[one, other]: &[&Words; 2], words: &[usize]| {
                words.iter().all(|&word| one[word] == other[word])
            };
            let all = pairs().filter(|pair| same(pair, &[KIND, SPAN, SPACING])).count();
            let two = pairs().filter(|pair| same(pair, &[KIND, SPAN])).count();
            equals += u32::from(all > 0);
            by_spacing += u32::from(two > all);
        }
    }
    assert!(versions.iter().all(|&times| times > 800), "{versions:?}");
    assert!(equals > 200 && by_spacing > 100, "{equals} with equals, {by_spacing} by spacing");
}

/// The damaged files have 16 at every place that four members have.
#[test]
fn some_damage_of_every_sort() {
    let mut random = Random::new(0x02de_0007);
    let mut seen = BTreeMap::new();
    for _ in 0..20_000 {
        let (survey, _) = some_damage(&mut random);
        let answer = reader::records(&survey).err().map(|fault| (fault.number, fault.place));
        *seen.entry(answer).or_insert(0) += 1;
    }
    for what in [None, Some((16, 2)), Some((16, 3)), Some((16, 4))] {
        assert!(seen.get(&what).is_some_and(|&times| times > 50), "{what:?}: {seen:?}");
    }
}

/// Every record of the first survey has a partner of its own that is it, worn; the others are
/// added. In either version partners stand in other places, and added ones before them.
#[test]
fn worse_surveys_with_records_in_other_places() {
    let mut random = Random::new(0x02de_0008);
    let (mut moved, mut added_before) = ([0; 2], [0; 2]);
    for round in 0..2000 {
        let version = if round % 2 == 0 { FREE_ORDER } else { IN_ORDER };
        let first = in_order(&any_survey(&mut random, Spread::Usual, 5));
        let Matched { records, partners } =
            matched_survey(&mut random, &first, Wear::SameSpread, 3, version);
        assert!(reader::records(&survey_bytes_of(version, &records)).is_ok(), "round {round}");
        for (one, &partner) in first.iter().zip(&partners) {
            let other = &records[partner];
            assert!((0..16).all(|i| one[i] == other[i] || wears(one, i) && one[i] < other[i]));
        }
        let mut places = partners.clone();
        places.sort_unstable();
        places.dedup();
        assert_eq!(places.len(), first.len(), "no two with the same");
        let end = usize::from(version - 1);
        moved[end] += u32::from(partners.iter().enumerate().any(|(i, &partner)| partner != i));
        added_before[end] += u32::from(places.last() > Some(&4));
    }
    assert!(moved.iter().all(|&times| times > 500), "{moved:?}");
    assert!(added_before.iter().all(|&times| times > 500), "{added_before:?}");
}
