//! The whole yard in one go, request 3 of document 02: up to 32 vehicles against one bridge.

use crate::judge::{judge_members, Judged};
use crate::layout::axle_bytes;
use crate::reader::{self, File, Member, Refused, Vehicle, VEHICLE_HEADER};

/// The answer for one vehicle; the margin is the governing member's.
#[derive(Clone, Copy, Debug, PartialEq, Eq)]
pub struct Answer {
    pub figure: u64,
    pub governing: u64,
    pub passes: bool,
    pub margin: i64,
}

/// An answer a vehicle, and the number of vehicles that pass.
#[derive(Clone, Debug, PartialEq, Eq)]
pub struct Yard {
    pub answers: Vec<Answer>,
    pub passes: u64,
}

/// "a count outside 1..32 gives 3"
const MOST_VEHICLES: u8 = 32;

/// What is wrong with the call as a whole has place 0.
fn refused(file: File, number: u64) -> Refused {
    Refused { file, number, place: 0 }
}

/// "Each vehicle file is as long as its own counts say, or all that is left if fewer": the first of
/// these bytes, and what is left behind it. Its version is in bytes 3 and 4, its count in byte 8; a
/// file without one is short.
pub fn first_file(left: &[u8]) -> (&[u8], &[u8]) {
    let length = left.get(..VEHICLE_HEADER).map_or(left.len(), |header| {
        let version = u16::from_le_bytes([header[3], header[4]]);
        VEHICLE_HEADER + axle_bytes(version) * usize::from(header[VEHICLE_HEADER - 1])
    });
    left.split_at(length.min(left.len()))
}

/// "Take a u8 count and that many vehicle files joined": the missing count byte, 3, the vehicles,
/// bytes left over. The first faulty vehicle has its own refusal and place.
pub fn vehicles(yard: &[u8]) -> Result<Vec<Vehicle>, Refused> {
    let (&count, mut left) = yard.split_first().ok_or(refused(File::Yard, 1))?;
    if !(1..=MOST_VEHICLES).contains(&count) {
        return Err(refused(File::Yard, 3));
    }
    let mut vehicles = Vec::new();
    for _ in 0..count {
        let (file, behind) = first_file(left);
        vehicles.push(reader::vehicle(file)?);
        left = behind;
    }
    if !left.is_empty() {
        return Err(refused(File::Yard, 1));
    }
    Ok(vehicles)
}

/// "Every answer is that of loading that vehicle alone and judging."
fn answer(members: &[Member], vehicle: &Vehicle) -> Answer {
    let Judged { figure, governing, passes, margin, .. } = judge_members(members, vehicle);
    Answer { figure, governing, passes, margin }
}

/// The call on the loaded survey, where one is loaded, with a list of so many answers: "11 comes
/// first, then the missing count byte, 3, the vehicles, bytes left over, 14".
pub fn yard(survey: Option<&[Member]>, yard: &[u8], entries: usize) -> Result<Yard, Refused> {
    let members = survey.ok_or(refused(File::Survey, 11))?;
    let vehicles = vehicles(yard)?;
    if entries < vehicles.len() {
        return Err(refused(File::Yard, 14));
    }
    let answers: Vec<Answer> = vehicles.iter().map(|vehicle| answer(members, vehicle)).collect();
    let passes = answers.iter().map(|answer| u64::from(answer.passes)).sum();
    Ok(Yard { answers, passes })
}
