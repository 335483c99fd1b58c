//! The largest files with one damage, in each way and at each place that it can have.

use super::damage::{damage_survey, damage_vehicle, SurveyDamage, VehicleDamage};
use super::vehicle::{vehicle, vehicle_bytes, vehicle_of, VERSIONS};
use super::{full_survey, survey_bytes, Random, Spread};
use crate::reader::{File, Refused};

/// A pair of files and the refusal that it must have.
pub struct Damaged {
    pub survey: Vec<u8>,
    pub vehicle: Vec<u8>,
    pub refusal: Refused,
}

/// The largest survey damaged in each way at each place; the vehicle is sound.
pub fn damaged_surveys(random: &mut Random) -> Vec<Damaged> {
    let members = full_survey(random, Spread::Wide);
    let vehicle = vehicle_bytes(&vehicle(random, Spread::Wide, 16));
    let mut all = Vec::new();
    for (i, place) in (0..members.len()).zip(1..) {
        for damage in SurveyDamage::ALL {
            let mut damaged = members.clone();
            if damage_survey(random, &mut damaged[i], damage) {
                let refusal = Refused { file: File::Survey, number: damage.number(), place };
                let (survey, vehicle) = (survey_bytes(&damaged), vehicle.clone());
                all.push(Damaged { survey, vehicle, refusal });
            }
        }
    }
    all
}

/// A vehicle of 16 axles, of each version, damaged in each way at each place; the survey is sound.
pub fn damaged_vehicles(random: &mut Random) -> Vec<Damaged> {
    let survey = survey_bytes(&full_survey(random, Spread::Wide));
    let mut all = Vec::new();
    for version in VERSIONS {
        let sound = vehicle_of(random, version, Spread::Wide, 16);
        let axles = (0..16).flat_map(|i| [VehicleDamage::Weight(i), VehicleDamage::Distance(i)]);
        for damage in axles.chain([VehicleDamage::Class, VehicleDamage::Track]) {
            let mut damaged = sound.clone();
            let place = damage_vehicle(random, &mut damaged, damage);
            let refusal = Refused { file: File::Vehicle, number: 7, place };
            all.push(Damaged { survey: survey.clone(), vehicle: vehicle_bytes(&damaged), refusal });
        }
    }
    all
}
