//! Lorry and trailer coupled, request 13 of document 02: "Join two vehicle files of equal class and
//! track, the second's axles behind the first's with one stated gap of 1..2000 cm, and load the
//! result."

use crate::layout::MOST_AXLES;
use crate::reader::{self, Axle, File, Refused, Vehicle};
use std::ops::RangeInclusive;

/// "one stated gap of 1..2000 cm"
const GAPS: RangeInclusive<u16> = 1..=2000;

/// "the second's axles behind the first's": the first of them stands the gap behind the first
/// vehicle's last axle.
fn coupled_axles(first: &[Axle], second: &[Axle], gap: u16) -> Vec<Axle> {
    let mut axles = [first, second].concat();
    axles[first.len()].distance = gap;
    axles
}

/// The vehicle that is loaded for two vehicle files: "The first file's own refusals come first,
/// then the second's. Then a class or track that differs, or a bad gap, gives 7, and then more than
/// 16 axles give 3, both at place 0."
pub fn couple(first: &[u8], second: &[u8], gap: u16) -> Result<Vehicle, Refused> {
    let refused = |number| Refused { file: File::Vehicle, number, place: 0 };
    let (first, second) = (reader::vehicle(first)?, reader::vehicle(second)?);
    let equal = first.class == second.class && first.track == second.track;
    if !equal || !GAPS.contains(&gap) {
        return Err(refused(7));
    }
    let axles = coupled_axles(&first.axles, &second.axles, gap);
    if axles.len() > MOST_AXLES {
        return Err(refused(3));
    }
    Ok(Vehicle { axles, ..first })
}
