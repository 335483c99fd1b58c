//! Bridges at the limit: a vehicle as heavy as the one member just bears, or 1 kgf heavier. They
//! make the verdict tell a vehicle load that is wrong by a little.

use super::{survey, survey_bytes, vehicle, vehicle_bytes, Random, Spread, VehicleWords};
use crate::layout::heaviest;
use crate::{reader, twin, Member, Rated};

/// Every weight in the same proportion, rounded down; None where one leaves its range.
fn scaled(vehicle: &VehicleWords, by: u64, over: u64) -> Option<VehicleWords> {
    let mut scaled = vehicle.clone();
    let heaviest = heaviest(vehicle.version);
    for axle in &mut scaled.axles {
        let weight = u32::try_from(u64::from(axle[0]) * by / over).ok()?;
        axle[0] = Some(weight).filter(|weight| (1..=heaviest).contains(weight))?;
    }
    Some(scaled)
}

/// The member that bears the least of its vehicle load.
fn weakest(rated: &[Rated]) -> Option<&Rated> {
    let part = |one: &Rated, other: &Rated| u128::from(one.permitted) * u128::from(other.vehicle);
    rated.iter().min_by(|one, other| part(one, other).cmp(&part(other, one)))
}

/// Like this vehicle: the heaviest that passes but for less than 1 kgf on an axle, and one that is
/// 1 kgf heavier and does not. None where the members bear nothing, or more than axles bring.
pub(super) fn brink(
    random: &mut Random,
    members: &[Member],
    any: &VehicleWords,
) -> Option<[VehicleWords; 2]> {
    let rate = |words: &VehicleWords| -> Option<Vec<Rated>> {
        let vehicle = reader::vehicle(&vehicle_bytes(words)).ok()?;
        Some(members.iter().map(|member| twin::rate(member, &vehicle)).collect())
    };
    let rated = rate(any)?;
    let weakest = weakest(&rated)?;
    let mut passing = scaled(any, weakest.permitted, weakest.vehicle)?;
    // Rounding down took less than 1 kgf from each axle: it is given back in small steps.
    loop {
        let mut heavier = passing.clone();
        let weight = &mut heavier.axles[random.below(any.axles.len())][0];
        *weight = Some(*weight + 1).filter(|weight| *weight <= heaviest(any.version))?;
        if !rate(&heavier)?.iter().all(|rated| rated.passes()) {
            return Some([passing, heavier]);
        }
        passing = heavier;
    }
}

/// One member and a vehicle of up to five axles: one kgf on the heaviest vehicle that passes, or
/// not even that. None where the member bears nothing, or more than such axles bring.
pub fn at_the_limit(random: &mut Random) -> Option<(Vec<u8>, VehicleWords)> {
    let survey = survey_bytes(&survey(random, Spread::Usual, 1));
    let axles = 1 + random.below(5);
    let any = vehicle(random, Spread::Usual, axles);
    let [passing, heavier] = brink(random, &reader::survey(&survey).ok()?, &any)?;
    Some((survey, if random.once_in(2) { heavier } else { passing }))
}
