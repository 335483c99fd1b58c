//! Two surveys of one bridge, the second worn as much or more, surveys between them, vehicles that
//! one end just bears; and pairs that are refused, for every reason.

use super::brink::brink;
use super::damage::{damage_survey, spoil, SurveyDamage};
use super::disorder::{disorder, Disorder};
use super::order::misplace_one;
use super::worse::grows;
use super::{
    any_survey, full_survey, in_order, misplace, survey, survey_bytes_of, vehicle, worse_survey,
    Misplaced, Random, Spread, VehicleWords, Wear,
};
use crate::layout::{
    used, Limit, Words, CLOSE_STRINGER, FREE_ORDER, IN_ORDER, KIND, MOST_MEMBERS, SECTION,
};
use crate::script::MOST_ENTRIES;
use crate::{reader, twin, Axle, Vehicle};

/// So many members that each bear something, as on a bridge in use.
pub fn bearing_survey(random: &mut Random, count: usize) -> Vec<Words> {
    let axles = vec![Axle { weight: 1, distance: 0 }];
    let light = Vehicle { class: 0, track: 190, axles };
    let bears = |words: &Words| twin::rate(&reader::member(words), &light).passes();
    let mut members = Vec::with_capacity(count);
    while members.len() < count {
        members.extend(survey(random, Spread::Usual, 1).into_iter().filter(bears));
    }
    members
}

/// One number a record grown by up to 3, as a drill finds rot "between two and four".
fn little_worn(random: &mut Random, first: &[Words]) -> Vec<Words> {
    let mut worn = first.to_vec();
    for words in &mut worn {
        let grows = |limit: &&Limit| grows(Wear::SameSpread, words, limit.0);
        let limits: Vec<Limit> = used(words[KIND], words[SECTION]).filter(grows).copied().collect();
        let &(word, _, greatest) = random.pick(&limits);
        words[word] = (words[word] + random.between(0, 3)).min(greatest);
    }
    worn
}

/// The second survey of the bridge: the same, worn a little, or worn up to any degree. Of a closely
/// spaced stringer only the dead load grows.
pub fn worn(random: &mut Random, first: &[Words]) -> Vec<Words> {
    match random.below(8) {
        0 => first.to_vec(),
        1..=3 => worse_survey(random, first, Wear::SameSpread, 0),
        _ => little_worn(random, first),
    }
}

/// A survey between the two, field by field, often with a field of one end.
pub fn survey_between(random: &mut Random, first: &[Words], second: &[Words]) -> Vec<Words> {
    let ends = first.iter().zip(second);
    ends.map(|(one, other)| std::array::from_fn(|word| random.edgy(one[word], other[word])))
        .collect()
}

/// A vehicle of up to four axles: as heavy as the first survey or the second just bears, or 1 kgf
/// heavier; any vehicle now and then, and where there is none such.
pub fn vehicle_near(random: &mut Random, first: &[Words], second: &[Words]) -> VehicleWords {
    let axles = 1 + random.below(4);
    let any = vehicle(random, Spread::Usual, axles);
    let ends = match random.below(5) {
        0 => return any,
        1 | 2 => [first, second],
        _ => [second, first],
    };
    let ends = ends.map(|end| end.iter().map(reader::member).collect::<Vec<_>>());
    match ends.iter().find_map(|members| brink(random, members, &any)) {
        Some([passing, heavier]) => [passing, heavier][random.below(2)].clone(),
        None => any,
    }
}

/// Entries of a list for so many members: mostly enough, often just too few or more.
pub fn some_entries(random: &mut Random, members: usize) -> usize {
    let enough = 2 * members;
    let any = random.below(MOST_ENTRIES + 1);
    let more = (enough + 1).min(MOST_ENTRIES);
    *random.pick(&[enough, enough, enough, enough, enough - 1, more, MOST_ENTRIES, any])
}

/// Two files with one thing wrong, or with more of what is looked at later, and the number and
/// place that they must be refused with.
pub struct DamagedPair {
    pub first: Vec<u8>,
    pub second: Vec<u8>,
    pub number: u64,
    pub place: u64,
}

/// Two surveys of one bridge, both in order: matched records are in the same place still, as no
/// number of the order wears and equals stay as they come.
pub fn ordered_pair(ends: &[Vec<Words>; 2]) -> [Vec<Words>; 2] {
    ends.each_ref().map(|records| in_order(records))
}

/// A version that has these records as they stand: either where they are in order.
fn version_of(random: &mut Random, records: &[Words]) -> u16 {
    let versions = [FREE_ORDER, IN_ORDER];
    *random.pick(if in_order(records) == records { &versions } else { &versions[..1] })
}

/// The file of these records as they stand.
pub fn file_as_they_stand(random: &mut Random, records: &[Words]) -> Vec<u8> {
    survey_bytes_of(version_of(random, records), records)
}

fn versions_of(random: &mut Random, ends: &[Vec<Words>; 2]) -> [u16; 2] {
    ends.each_ref().map(|records| version_of(random, records))
}

/// The files of two surveys in these versions and their refusal.
fn pair(ends: &[Vec<Words>; 2], versions: [u16; 2], number: u64, place: u64) -> DamagedPair {
    let [first, second] = [0, 1].map(|end| survey_bytes_of(versions[end], &ends[end]));
    DamagedPair { first, second, number, place }
}

/// Changes two acceptable records so that they cannot be taken together; false where they cannot be
/// changed in this way.
pub(super) type Change<W> = fn(&mut Random, &mut Words, &mut Words, W) -> bool;

/// The two records at this place so changed, each way that they can be, with the way's number; all
/// behind them often too.
pub(super) fn unfit<W: Copy>(
    random: &mut Random,
    sound: &[Vec<Words>; 2],
    i: usize,
    (ways, change): (&[W], Change<W>),
    number: fn(W) -> u64,
) -> Vec<DamagedPair> {
    let mut all = Vec::new();
    for &way in ways {
        let [mut first, mut second] = sound.clone();
        if !change(random, &mut first[i], &mut second[i], way) {
            continue;
        }
        if random.once_in(2) {
            for behind in i + 1..first.len() {
                let way = *random.pick(ways);
                change(random, &mut first[behind], &mut second[behind], way);
            }
        }
        let ends = [first, second];
        all.push(pair(&ends, versions_of(random, &ends), number(way), i as u64 + 1));
    }
    all
}

/// What comes later than a fault of one end is often wrong too: the second survey, where it is the
/// first that is refused, and the count.
fn spoil_later(random: &mut Random, ends: &mut [Vec<Words>; 2], end: usize, i: usize) {
    match random.below(3) {
        0 if end == 0 => ends[1][random.below(i + 1)][KIND] = 0,
        1 => ends[1 - end].truncate(1 + i),
        _ => {}
    }
}

/// A record of one end that no survey has, in each way; often the second survey's first record is
/// of another bridge, or what comes later is wrong too.
pub(super) fn refused(random: &mut Random, sound: &[Vec<Words>; 2], i: usize) -> Vec<DamagedPair> {
    let mut all = Vec::new();
    for end in [0, 1] {
        for damage in SurveyDamage::ALL {
            let mut ends = sound.clone();
            if !damage_survey(random, &mut ends[end][i], damage) {
                continue;
            }
            if i > 0 && random.once_in(4) {
                ends[1][0] = ends[1][i - 1];
            } else {
                spoil_later(random, &mut ends, end, i);
            }
            all.push(pair(&ends, versions_of(random, sound), damage.number(), i as u64 + 1));
        }
    }
    all
}

/// A record of one end before its predecessor, in each way: 16 in its own turn, which is before the
/// second survey's refusals and before the two are compared.
pub(super) fn misplaced(
    random: &mut Random,
    sound: &[Vec<Words>; 2],
    i: usize,
) -> Vec<DamagedPair> {
    let mut all = Vec::new();
    for end in [0, 1] {
        for way in Misplaced::ALL {
            let mut ends = ordered_pair(sound);
            let mut versions = versions_of(random, &ends);
            if !misplace(random, &mut ends[end], i, way) {
                continue;
            }
            spoil_later(random, &mut ends, end, i);
            versions[end] = IN_ORDER;
            all.push(pair(&ends, versions, 16, i as u64 + 1));
        }
    }
    all
}

/// Different counts, whatever the records.
pub(super) fn counted<W: Copy>(
    random: &mut Random,
    sound: &[Vec<Words>; 2],
    i: usize,
    (ways, change): (&[W], Change<W>),
    number: u64,
) -> Vec<DamagedPair> {
    let mut all = Vec::new();
    for end in [0, 1] {
        let mut ends = sound.clone();
        ends[end].truncate(i);
        if random.once_in(2) {
            let ([first, second], way) = (&mut ends, *random.pick(ways));
            change(random, &mut first[0], &mut second[0], way);
        }
        all.push(pair(&ends, versions_of(random, &ends), number, 0));
    }
    all
}

/// Two of the largest surveys, refused in each way at each place.
pub fn damaged_pairs(random: &mut Random) -> Vec<DamagedPair> {
    let first = full_survey(random, Spread::Wide);
    let second = worse_survey(random, &first, Wear::SameSpread, 0);
    let free = [first, second];
    let both = [ordered_pair(&free), free];
    let ways: (&[Disorder], Change<Disorder>) = (&Disorder::ALL, disorder);
    let mut all = Vec::new();
    for i in 0..MOST_MEMBERS {
        let sound = random.pick(&both);
        all.extend(unfit(random, sound, i, ways, |_| 15));
        all.extend(refused(random, sound, i));
        if i > 0 {
            all.extend(misplaced(random, sound, i));
            all.extend(counted(random, sound, i, ways, 15));
        }
    }
    all
}

/// One more record or one less at an end, records of either end that are not in order, then such as
/// no survey has.
fn damage(random: &mut Random, ends: &mut [Vec<Words>; 2]) {
    let end = random.below(2);
    match random.below(3) {
        0 => ends[end].extend(survey(random, Spread::Usual, 1)),
        1 => ends[end].truncate(ends[end].len() - 1),
        _ => {}
    }
    for _ in 0..random.below(3) {
        let end = random.below(2);
        misplace_one(random, &mut ends[end]);
    }
    for _ in 0..random.below(3) {
        let records = &mut ends[random.below(2)];
        if !records.is_empty() {
            let (i, damage) = (random.below(records.len()), *random.pick(&SurveyDamage::ALL));
            damage_survey(random, &mut records[i], damage);
        }
    }
}

/// The files of two surveys, often with records that no survey has, or with other bytes.
pub(super) fn some_files(
    random: &mut Random,
    mut ends: [Vec<Words>; 2],
    ordered: bool,
) -> [Vec<u8>; 2] {
    if random.once_in(3) {
        damage(random, &mut ends);
    }
    // Free order seldom has the version of the order: it is refused then.
    let seldom = if ordered { 2 } else { 6 };
    let version = |random: &mut Random| if random.once_in(seldom) { IN_ORDER } else { FREE_ORDER };
    let mut files = ends.map(|records| survey_bytes_of(version(random), &records));
    if random.once_in(4) {
        let end = random.below(2);
        spoil(random, &mut files[end]);
    }
    files
}

/// Any way; often one that few kinds have.
fn some_way(random: &mut Random, first: &Words) -> Disorder {
    match first[KIND] {
        CLOSE_STRINGER if random.once_in(2) => Disorder::CloseRot,
        1 | 2 if random.once_in(3) => Disorder::Section,
        _ => *random.pick(&Disorder::ALL),
    }
}

/// Two surveys of one bridge of up to so many members, then out of order, with records that no
/// survey has, or with other bytes. Some of them are sound still.
pub fn some_pair_damage(random: &mut Random, most: usize) -> [Vec<u8>; 2] {
    let count = 1 + random.below(most);
    let spread = *random.pick(&[Spread::Wide, Spread::Usual]);
    let mut first = any_survey(random, spread, count);
    let ordered = !random.once_in(3);
    if ordered {
        first = in_order(&first);
    }
    let mut second = worn(random, &first);
    for (one, other) in first.iter_mut().zip(&mut second) {
        if random.once_in(count + 1) {
            let way = some_way(random, one);
            disorder(random, one, other, way);
        }
    }
    some_files(random, [first, second], ordered)
}
