//! A call on two surveys, and what is said of it.

use reference::generate::*;
use reference::{between, reader, Between, Passing, Refused, Vehicle};

/// Two survey files, the loaded vehicle and the list's entries.
pub struct Call {
    pub vehicle: Option<Vehicle>,
    pub first: Vec<u8>,
    pub second: Vec<u8>,
    pub entries: usize,
}

/// The verdict and each member's lowest and highest permitted load, or number and place of the
/// refusal.
pub type Said = Result<(Passing, Vec<(u64, u64)>), (u64, u64)>;

pub fn said(call: &Call) -> Said {
    match between(call.vehicle.as_ref(), &call.first, &call.second, call.entries) {
        Ok(Between { passing, members }) => {
            Ok((passing, members.iter().map(|bounds| (bounds.lowest, bounds.highest)).collect()))
        }
        Err(Refused { number, place, .. }) => Err((number, place)),
    }
}

pub fn read(vehicle: &VehicleWords) -> Vehicle {
    reader::vehicle(&vehicle_bytes(vehicle)).expect("a sound vehicle")
}
