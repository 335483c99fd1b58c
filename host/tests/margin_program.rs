//! Margins and governing members against the reference: scripts of rate, judge and yards on
//! thousands of bridges through the program `cases`, every line equal.

mod common;

use common::scripts::*;
use common::seed;
use reference::generate::*;
use reference::layout::heaviest;
use reference::script::Script;

/// A round of calls is shorter than this: two small files and a yard.
const LONGEST_ROUND: usize = 2000;

/// A survey and a vehicle: at the limit of one member, at a tie of two, or any.
fn bridge(random: &mut Random) -> (Vec<u8>, VehicleWords) {
    let near = match random.below(3) {
        0 => at_the_limit(random),
        1 => at_a_tie(random),
        _ => None,
    };
    near.unwrap_or_else(|| {
        let (spread, members, axles) = (spread(random), 1 + random.below(6), 1 + random.below(4));
        let survey = survey_file(random, spread, members);
        (survey, vehicle(random, spread, axles))
    })
}

/// The vehicle with up to so much more or less on an axle.
fn like(random: &mut Random, vehicle: &VehicleWords, by: u32) -> VehicleWords {
    let mut like = vehicle.clone();
    let axle = random.below(like.axles.len());
    let weight = &mut like.axles[axle][0];
    let greatest = heaviest(vehicle.version).min(*weight + by);
    *weight = random.large(weight.saturating_sub(by).max(1), greatest);
    like
}

/// Every member rated, the bridge judged, and vehicles that differ by a little and by much joined
/// to a yard with a list that holds them, or just not.
fn round(random: &mut Random, script: &mut Script) {
    let (survey, vehicle) = bridge(random);
    script.survey(&survey);
    script.vehicle(&vehicle_bytes(&vehicle));
    script.all(usize::from(survey[5]));
    let near = [0, 1, 3, 500, 9000].map(|by| like(random, &vehicle, by));
    script.yard(&yard_bytes(&near), *random.pick(&[4, 5, 5, 7]));
}

/// Where the margin that ends an answer stands to 0.
fn margin(answer: &str) -> &str {
    let margin = answer.rsplit(' ').next().unwrap_or(answer);
    match margin.parse() {
        Ok(0) => "0",
        Ok(i64::MIN..=-1) => "below",
        Ok(1..) => "above",
        Err(_) => answer,
    }
}

fn scripts() -> Scripts {
    Scripts { seed: seed(0x3a61_1001), scripts: 4, longest: LONGEST_ROUND, round }
}

/// The scripts are worth something only if margins of every sign are among them.
#[test]
fn the_scripts_have_every_margin() {
    for name in ["rate", "judge"] {
        let seen = scripts().answers(name, margin, 2000);
        hold_often(&seen, &["below", "0", "above"], 200);
    }
}

#[test]
fn thousands_of_bridges() {
    scripts().agree();
}
