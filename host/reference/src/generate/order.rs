//! Surveys of version 2, whose records stand in one order, surveys whose records do not, and the
//! versions that no file has.

use super::damage::{damage_survey, SurveyDamage};
use super::survey::{full_survey, member, survey, survey_bytes};
use super::vehicle::{vehicle, vehicle_bytes, vehicle_of, VERSIONS};
use super::{Damaged, Random, Spread};
use crate::layout::*;
use crate::reader::{File, Refused};

/// The records in the order of version 2; equals stay as they come.
pub fn in_order(records: &[Words]) -> Vec<Words> {
    let mut records = records.to_vec();
    records.sort_by_key(standing);
    records
}

/// The file of these members: as they come in version 1, or in order in version 2.
pub fn some_version(random: &mut Random, members: &[Words]) -> Vec<u8> {
    match random.below(2) {
        0 => survey_bytes(members),
        _ => survey_bytes_of(IN_ORDER, &in_order(members)),
    }
}

/// A member of this kind that stands here, as near as its ranges let it.
fn member_at(random: &mut Random, spread: Spread, [kind, span, spacing]: [u16; 3]) -> Words {
    let mut words = member(random, spread, kind);
    for &(word, least, greatest) in of_kind(kind) {
        match word {
            SPAN => words[SPAN] = span.clamp(least, greatest),
            SPACING => words[SPACING] = spacing.clamp(least, greatest),
            // The span stands before it in the list.
            FROM_SUPPORT if in_truss(kind) => words[word] = words[word].min(words[SPAN] - 1),
            _ => {}
        }
    }
    words
}

/// So many members of two kinds, two spans and two spacings, each next to the other: many are
/// equals in the order, and others differ by the last word of it. Often the low byte alone would
/// say the opposite.
pub fn alike_survey(random: &mut Random, spread: Spread, count: usize) -> Vec<Words> {
    let kind = random.between(1, LAST_KIND - 1);
    let any = [random.between(100, 900), random.between(30, 99)];
    let (span, spacing) = (*random.pick(&[any[0], 255, 511]), *random.pick(&[any[1], 255]));
    let mut members = Vec::with_capacity(count);
    for _ in 0..count {
        let at = [kind, span, spacing].map(|value| value + random.between(0, 1));
        members.push(member_at(random, spread, at));
    }
    members
}

/// So many members, often alike.
pub fn any_survey(random: &mut Random, spread: Spread, count: usize) -> Vec<Words> {
    match random.below(3) {
        0 => alike_survey(random, spread, count),
        _ => survey(random, spread, count),
    }
}

/// The file of so many members, in either version.
pub fn survey_file(random: &mut Random, spread: Spread, count: usize) -> Vec<u8> {
    let members = any_survey(random, spread, count);
    some_version(random, &members)
}

/// The file of as many members as there may be, of all kinds, in either version.
pub fn full_survey_file(random: &mut Random, spread: Spread) -> Vec<u8> {
    let members = full_survey(random, spread);
    some_version(random, &members)
}

/// So many members and a version. In version 2 they stand in order, or one is misplaced, or all
/// stand as they come.
pub(super) fn some_order(random: &mut Random, spread: Spread, count: usize) -> (u16, Vec<Words>) {
    let members = any_survey(random, spread, count);
    match random.below(8) {
        0..=2 => return (FREE_ORDER, members),
        3 => return (IN_ORDER, members),
        _ => {}
    }
    let mut ordered = in_order(&members);
    if random.once_in(3) {
        misplace_one(random, &mut ordered);
    }
    (IN_ORDER, ordered)
}

/// The word by which a record stands before its predecessor; those before it in the order are the
/// same.
#[derive(Clone, Copy, Debug, PartialEq, Eq)]
pub enum Misplaced {
    Kind,
    Span,
    Spacing,
}

impl Misplaced {
    pub const ALL: [Misplaced; 3] = [Misplaced::Kind, Misplaced::Span, Misplaced::Spacing];
}

/// A number below this one that this kind may have, where there is one.
fn lower(random: &mut Random, kind: u16, word: usize, value: u16) -> Option<u16> {
    let limit = of_kind(kind).iter().find(|limit| limit.0 == word);
    let &(_, least, _) = limit.filter(|limit| value > limit.1)?;
    Some(random.edgy(least, value - 1))
}

/// A record that stands before this one by this word, and mostly behind it by the words that follow.
/// None where there is none: no kind is before the first, and cross beams have no spacing.
pub fn one_before(random: &mut Random, record: &Words, way: Misplaced) -> Option<Words> {
    let [kind, span, spacing] = [record[KIND], record[SPAN], record[SPACING]];
    let wider = random.edgy(spacing, spacing.max(1000));
    let at = match way {
        Misplaced::Kind if kind == 1 => return None,
        Misplaced::Kind => [random.between(1, kind - 1), random.edgy(span, 5000), wider],
        Misplaced::Span => [kind, lower(random, kind, SPAN, span)?, wider],
        Misplaced::Spacing => [kind, span, lower(random, kind, SPACING, spacing)?],
    };
    Some(member_at(random, Spread::Usual, at))
}

/// Puts a record that stands before its predecessor at this index; false where there is none.
pub fn misplace(random: &mut Random, records: &mut [Words], i: usize, way: Misplaced) -> bool {
    let before = one_before(random, &records[i - 1], way);
    records[i] = before.unwrap_or(records[i]);
    before.is_some()
}

/// The same at any index, where there is such a record.
pub(super) fn misplace_one(random: &mut Random, records: &mut [Words]) {
    if records.len() > 1 {
        let (i, way) = (1 + random.below(records.len() - 1), *random.pick(&Misplaced::ALL));
        misplace(random, records, i, way);
    }
}

/// As many records as there may be, in order but for the one at this place.
fn misplaced_at(random: &mut Random, i: usize, way: Misplaced) -> Vec<Words> {
    loop {
        let mut records = in_order(&alike_survey(random, Spread::Wide, MOST_MEMBERS));
        if misplace(random, &mut records, i, way) {
            return records;
        }
    }
}

/// The number and place of one more fault, at any place: it ends the reading before the order does.
fn damaged_too(random: &mut Random, records: &mut [Words]) -> (u64, u64) {
    loop {
        let (i, damage) = (random.below(records.len()), *random.pick(&SurveyDamage::ALL));
        if damage_survey(random, &mut records[i], damage) {
            return (damage.number(), i as u64 + 1);
        }
    }
}

/// The largest surveys of version 2, one record before its predecessor in each way at each place,
/// often with others behind it, then with another fault; the vehicle is sound.
pub fn misplaced_surveys(random: &mut Random) -> Vec<Damaged> {
    let vehicle = vehicle_bytes(&vehicle(random, Spread::Wide, 16));
    let mut all = Vec::new();
    let mut add = |records: &[Words], (number, place)| {
        let (survey, vehicle) = (survey_bytes_of(IN_ORDER, records), vehicle.clone());
        let refusal = Refused { file: File::Survey, number, place };
        all.push(Damaged { survey, vehicle, refusal });
    };
    for i in 1..MOST_MEMBERS {
        for way in Misplaced::ALL {
            let mut records = misplaced_at(random, i, way);
            for behind in i + 1..MOST_MEMBERS {
                if i % 2 == 0 && random.once_in(4) {
                    let way = *random.pick(&Misplaced::ALL);
                    misplace(random, &mut records, behind, way);
                }
            }
            add(&records, (16, i as u64 + 1));
            let refusal = damaged_too(random, &mut records);
            add(&records, refusal);
        }
    }
    all
}

/// Versions that no file has: the next, and such whose low byte alone would be one.
pub const NO_VERSIONS: [u16; 8] = [0, 3, 4, 256, 257, 258, 512, u16::MAX];

/// A file with this version in its header.
pub fn with_version(bytes: &[u8], version: u16) -> Vec<u8> {
    [&bytes[..3], &version.to_le_bytes(), &bytes[5..]].concat()
}

/// Sound files but for their version: surveys whose records are in order or not, and vehicles of
/// either version.
pub fn wrong_versions(random: &mut Random) -> Vec<Damaged> {
    let (members, axles) = (1 + random.below(MOST_MEMBERS), 1 + random.below(16));
    let survey = survey_bytes(&alike_survey(random, Spread::Wide, members));
    let vehicles =
        VERSIONS.map(|version| vehicle_bytes(&vehicle_of(random, version, Spread::Wide, axles)));
    let refusal = |file| Refused { file, number: 2, place: 0 };
    let mut all = Vec::new();
    for (vehicle, version) in vehicles.iter().flat_map(|vehicle| NO_VERSIONS.map(|v| (vehicle, v)))
    {
        all.push(Damaged {
            survey: with_version(&survey, version),
            vehicle: vehicle.clone(),
            refusal: refusal(File::Survey),
        });
        all.push(Damaged {
            survey: survey.clone(),
            vehicle: with_version(vehicle, version),
            refusal: refusal(File::Vehicle),
        });
    }
    all
}
