//! The second file of a pair as demand 3 has it: deeper rot, more lost area, more dead load,
//! heavier axles, members and axles added; all else the same.

use super::heavier::too_heavy;
use super::survey::survey;
use super::vehicle::{fitting_vehicle, vehicle_of, VehicleWords};
use super::{Random, Spread};
use crate::layout::*;

/// A number that stays, grows by 1 or grows as far as its range goes.
fn grown(random: &mut Random, value: u16, greatest: u16) -> u16 {
    match random.below(4) {
        0 | 1 => value,
        2 => (value + 1).min(greatest),
        _ => random.between(value, greatest),
    }
}

/// How the shared members of two surveys wear.
#[derive(Clone, Copy, PartialEq, Eq)]
pub enum Wear {
    /// Every rot, lost area and dead load may grow. No vehicle load falls.
    Any,
    /// "A kind 7 record has the same rot in both surveys, deck rot included." No permitted load
    /// rises either.
    SameSpread,
}

/// Does this number of a shared member grow?
pub(super) fn grows(wear: Wear, words: &Words, word: usize) -> bool {
    let keeps_rot = wear == Wear::SameSpread && words[KIND] == CLOSE_STRINGER;
    wears(words, word) && !(keeps_rot && is_rot(words, word))
}

/// The same members, none sounder or lighter, and up to `more` others behind them.
pub fn worse_survey(random: &mut Random, members: &[Words], wear: Wear, more: usize) -> Vec<Words> {
    let mut worse = members.to_vec();
    for words in &mut worse {
        for &(word, _, greatest) in used(words[KIND], words[SECTION]) {
            if grows(wear, words, word) {
                words[word] = grown(random, words[word], greatest);
            }
        }
    }
    let added = random.below((MOST_MEMBERS - members.len()).min(more) + 1);
    worse.extend(survey(random, Spread::Usual, added));
    worse
}

/// A worse survey whose records may stand in other places than those of the first.
pub struct Matched {
    pub records: Vec<Words>,
    /// Where the record that each record of the first is matched with stands, from 0.
    pub partners: Vec<usize>,
}

/// A worse survey with its records, the added ones among them, in any places; or in the places
/// that the order of this version gives them, equals in any.
pub fn matched_survey(
    random: &mut Random,
    members: &[Words],
    wear: Wear,
    more: usize,
    version: u16,
) -> Matched {
    let worse = worse_survey(random, members, wear, more);
    let mut places: Vec<usize> = (0..worse.len()).collect();
    random.shuffle(&mut places);
    if version == IN_ORDER {
        places.sort_by_key(|&i| standing(&worse[i]));
    }
    let partner = |i| places.iter().position(|&other| other == i).expect("every record is placed");
    let partners = (0..members.len()).map(partner).collect();
    Matched { records: places.iter().map(|&i| worse[i]).collect(), partners }
}

/// A weight that stays, grows by 1 or grows as far as its range goes.
fn heavier(random: &mut Random, weight: u32, greatest: u32) -> u32 {
    match random.below(4) {
        0 | 1 => weight,
        2 => (weight + 1).min(greatest),
        _ => random.large(weight, greatest),
    }
}

/// The same axles in this version, which each weight fits, none lighter, and up to `more` others
/// behind them.
fn worse_vehicle(
    random: &mut Random,
    first: &VehicleWords,
    version: u16,
    more: usize,
) -> VehicleWords {
    let mut worse = VehicleWords { version, ..first.clone() };
    for axle in &mut worse.axles {
        axle[0] = heavier(random, axle[0], heaviest(version));
    }
    let added = random.below((16 - first.axles.len()).min(more) + 1);
    // The first axle of a vehicle has no distance, so the added ones are the axles after it.
    let others = vehicle_of(random, version, Spread::Usual, added + 1);
    worse.axles.extend(&others.axles[1..]);
    worse
}

/// A vehicle of so many axles and a heavier one, in these versions.
pub fn two_vehicles(
    random: &mut Random,
    versions: [u16; 2],
    spread: Spread,
    axles: usize,
    more: usize,
) -> [VehicleWords; 2] {
    let first = match versions {
        [HEAVY_AXLES, LIGHT_AXLES] => fitting_vehicle(random, spread, axles),
        _ => vehicle_of(random, versions[0], spread, axles),
    };
    let second = worse_vehicle(random, &first, versions[1], more);
    [first, second]
}

/// The same with both in version 2, where an axle of the first weighs more than version 1 holds.
pub fn two_heavy_vehicles(
    random: &mut Random,
    spread: Spread,
    axles: usize,
    more: usize,
) -> [VehicleWords; 2] {
    let mut first = vehicle_of(random, HEAVY_AXLES, spread, axles);
    first.axles[random.below(axles)][0] = too_heavy(random);
    let second = worse_vehicle(random, &first, HEAVY_AXLES, more);
    [first, second]
}
