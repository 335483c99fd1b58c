//! Bridges on which two members have the least margin, most often with unlike loads: only the order
//! of the records says which of them governs.

use super::{
    some_version, survey, survey_bytes, vehicle, vehicle_bytes, Random, Spread, VehicleWords,
};
use crate::layout::{Words, DEAD_LOAD};
use crate::{reader, twin, Vehicle};

/// The greatest dead load of a record.
const MOST_DEAD_LOAD: u16 = 10_000;

fn margin(words: &Words, vehicle: &Vehicle) -> Option<i64> {
    let members = reader::survey(&survey_bytes(&[*words])).ok()?;
    Some(twin::rate(&members[0], vehicle).margin())
}

/// The member with the least dead load that gives it this margin. None where no dead load does: a
/// step of 1 kgf/m may lower a permitted load by more.
fn with_margin(words: &Words, vehicle: &Vehicle, wanted: i64) -> Option<Words> {
    let mut words = *words;
    let (mut least, mut greatest) = (0, MOST_DEAD_LOAD);
    while least < greatest {
        let middle = least + (greatest - least) / 2;
        words[DEAD_LOAD] = middle;
        if margin(&words, vehicle)? > wanted {
            least = middle + 1;
        } else {
            greatest = middle;
        }
    }
    words[DEAD_LOAD] = least;
    (margin(&words, vehicle)? == wanted).then_some(words)
}

/// Two to four members and a vehicle of up to three axles: a member is loaded until its margin is
/// the bridge's least. None where no member can be brought to it.
pub fn at_a_tie(random: &mut Random) -> Option<(Vec<u8>, VehicleWords)> {
    let (count, axles) = (2 + random.below(3), 1 + random.below(3));
    let mut members = survey(random, Spread::Usual, count);
    let words = vehicle(random, Spread::Usual, axles);
    let vehicle = reader::vehicle(&vehicle_bytes(&words)).ok()?;
    let margins: Option<Vec<i64>> = members.iter().map(|member| margin(member, &vehicle)).collect();
    let (margins, first) = (margins?, random.below(count));
    let least = margins.iter().copied().min()?;
    let mut others = (0..count).map(|i| (first + i) % count).filter(|&i| margins[i] > least);
    let (i, tied) = others.find_map(|i| Some((i, with_margin(&members[i], &vehicle, least)?)))?;
    members[i] = tied;
    Some((some_version(random, &members), words))
}
