//! Vehicle files that the document allows, of both versions.

use super::{Random, Spread};
use crate::layout::{heaviest, HEAVIEST_LIGHT, HEAVY_AXLES, LIGHT_AXLES};

/// An axle's two numbers: weight and distance from the axle in front.
pub type AxleWords = [u32; 2];

/// A vehicle's numbers as they stand in its file.
#[derive(Clone)]
pub struct VehicleWords {
    pub version: u16,
    pub class: u8,
    pub track: u16,
    pub axles: Vec<AxleWords>,
}

/// Both versions of a vehicle.
pub const VERSIONS: [u16; 2] = [LIGHT_AXLES, HEAVY_AXLES];

/// Weights of version 2 by which readings differ: both sides of what version 1 holds, of two bytes
/// and of three, and the ends.
pub const HEAVY_EDGES: [u32; 9] =
    [1, 59_999, 60_000, 60_001, 65_535, 65_536, 131_072, 199_999, 200_000];

/// Weights that version 2 does not have: next to its ends; such whose lower half, whose three lower
/// bytes or whose halves exchanged would be within its range; and the greatest.
pub const NO_WEIGHTS: [u32; 8] =
    [0, 200_001, 4 << 16, 4 << 16 | 1, 5 << 16, 1 << 24 | 70_000, 1 << 31 | 1, u32::MAX];

/// A weight from the whole range of this version, its edges often.
fn wide_weight(random: &mut Random, version: u16) -> u32 {
    match version {
        HEAVY_AXLES if random.once_in(2) => *random.pick(&HEAVY_EDGES),
        HEAVY_AXLES => random.large(1, heaviest(version)),
        _ => random.edgy(1, HEAVIEST_LIGHT).into(),
    }
}

fn axle(random: &mut Random, version: u16, spread: Spread, first: bool) -> AxleWords {
    let (weight, distance) = match spread {
        Spread::Wide => (wide_weight(random, version), random.edgy(1, 2000)),
        Spread::Usual => (random.between(300, 9000).into(), random.between(90, 700)),
    };
    [weight, if first { 0 } else { distance.into() }]
}

/// A vehicle of this version with so many axles.
pub fn vehicle_of(random: &mut Random, version: u16, spread: Spread, count: usize) -> VehicleWords {
    let class = *random.pick(&[0, 1]);
    let track = random.edgy(100, 300);
    let axles = (0..count).map(|i| axle(random, version, spread, i == 0)).collect();
    VehicleWords { version, class, track, axles }
}

/// A vehicle of either version with so many axles.
pub fn vehicle(random: &mut Random, spread: Spread, count: usize) -> VehicleWords {
    let version = *random.pick(&VERSIONS);
    vehicle_of(random, version, spread, count)
}

/// A vehicle of version 2 whose weights fit version 1, so many axles.
pub fn fitting_vehicle(random: &mut Random, spread: Spread, count: usize) -> VehicleWords {
    let light = vehicle_of(random, LIGHT_AXLES, spread, count);
    VehicleWords { version: HEAVY_AXLES, ..light }
}

/// The file of this vehicle; a weight of version 1 is one of two bytes.
pub fn vehicle_bytes(vehicle: &VehicleWords) -> Vec<u8> {
    let mut bytes = b"TBV".to_vec();
    bytes.extend(vehicle.version.to_le_bytes());
    bytes.push(vehicle.class);
    bytes.extend(vehicle.track.to_le_bytes());
    bytes.push(u8::try_from(vehicle.axles.len()).expect("a count of one byte"));
    let two_bytes = |number: u32| u16::try_from(number).expect("a number of two bytes");
    for &[weight, distance] in &vehicle.axles {
        match vehicle.version {
            HEAVY_AXLES => bytes.extend(weight.to_le_bytes()),
            _ => bytes.extend(two_bytes(weight).to_le_bytes()),
        }
        bytes.extend(two_bytes(distance).to_le_bytes());
    }
    bytes
}
