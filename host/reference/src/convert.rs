//! The converter of vehicle files, request 9 of document 02: "A converter goes from 1 to 2 with
//! every number kept, and back where each weight fits".

use crate::layout::{heaviest, HEAVY_AXLES, LIGHT_AXLES};
use crate::reader::{self, Axle, File, Refused, Vehicle};

/// A weight as this version has it. None where it does not fit: "a weight above 60,000 going back".
fn weight(axle: &Axle, version: u16) -> Option<Vec<u8>> {
    let fits = axle.weight <= heaviest(version);
    let bytes = match version {
        HEAVY_AXLES => axle.weight.to_le_bytes().to_vec(),
        _ => u16::try_from(axle.weight).ok()?.to_le_bytes().to_vec(),
    };
    fits.then_some(bytes)
}

/// The file of this vehicle in this version, or "place of the first such axle" whose weight does
/// not fit.
fn written(vehicle: &Vehicle, version: u16) -> Result<Vec<u8>, u64> {
    let mut bytes = b"TBV".to_vec();
    bytes.extend(version.to_le_bytes());
    bytes.push(vehicle.class);
    bytes.extend(vehicle.track.to_le_bytes());
    bytes.push(u8::try_from(vehicle.axles.len()).expect("at most 16 axles"));
    for (axle, place) in vehicle.axles.iter().zip(1u64..) {
        bytes.extend(weight(axle, version).ok_or(place)?);
        bytes.extend(axle.distance.to_le_bytes());
    }
    Ok(bytes)
}

/// The bytes that are written for a file and the version that is wanted, 1 or 2 and no other, into
/// an output of so many bytes. "The wrong version for the way asked gives 2, at that refusal's
/// usual place"; then 17, "after the file is accepted"; "an output too short gives 14, last".
pub fn convert(file: &[u8], wanted: u16, room: usize) -> Result<Vec<u8>, Refused> {
    let refused = |number, place| Refused { file: File::Vehicle, number, place };
    let from = match wanted {
        HEAVY_AXLES => LIGHT_AXLES,
        LIGHT_AXLES => HEAVY_AXLES,
        _ => panic!("there is no way to version {wanted}"),
    };
    let vehicle = reader::vehicle_of_version(file, from)?;
    let bytes = written(&vehicle, wanted).map_err(|place| refused(17, place))?;
    if room < bytes.len() {
        return Err(refused(14, 0));
    }
    Ok(bytes)
}
