//! Gauges under a test load, request 11 of document 02: "For the simple load test a gauge writes
//! three f32 readings in mm".

use crate::fraction::{over, whole, Fraction};
use crate::judge::loaded_at;
use crate::layout::CLOSE_STRINGER;
use crate::reader::{Member, Vehicle};

/// "three f32 readings in mm: empty, loaded, after"
#[derive(Clone, Copy, Debug)]
pub struct Readings {
    pub empty: f32,
    pub loaded: f32,
    pub after: f32,
}

impl Readings {
    /// The readings whose bits these are, in their order.
    pub fn of_bits(bits: [u32; 3]) -> Readings {
        let [empty, loaded, after] = bits.map(f32::from_bits);
        Readings { empty, loaded, after }
    }
}

/// "The answer is within or over, each carrying the deflection"
#[derive(Clone, Copy, Debug, PartialEq)]
pub enum Deflection {
    Within(f32),
    Over(f32),
}

/// A reading counted in 64ths of a mm, where it is one: "All are multiples of 1/64 from 0 up to but
/// not including 512, with the sign bit clear." An f64 holds the product exactly.
fn sixty_fourths(reading: f32) -> Option<i128> {
    let count = f64::from(reading) * 64.0;
    let good =
        reading.is_sign_positive() && (0.0..512.0).contains(&reading) && count.fract() == 0.0;
    good.then_some(count as i128)
}

/// "Limit, with the span l in mm: span/180 for kinds 1, 2 and 7, span/300 for the rest, a fifth
/// more for class 1." The survey has l in cm.
fn limit(member: &Member, vehicle: &Vehicle) -> Fraction {
    let span = 10 * i128::from(member.l);
    let limit = match member.kind {
        1 | 2 | CLOSE_STRINGER => over(span, 180),
        _ => over(span, 300),
    };
    match vehicle.class {
        1 => limit * (whole(1) + over(1, 5)),
        _ => limit,
    }
}

/// The 64ths of the elastic deflection, or the place of 20: "1 to 3 of the first bad reading, 0 for
/// the second cause, tested where no reading is bad".
fn elastic(readings: &Readings) -> Result<i128, u64> {
    sixty_fourths(readings.empty).ok_or(1u64)?;
    let loaded = sixty_fourths(readings.loaded).ok_or(2u64)?;
    let after = sixty_fourths(readings.after).ok_or(3u64)?;
    if after > loaded {
        return Err(0);
    }
    Ok(loaded - after)
}

/// The call with what is loaded, on the member at a place; or the number and place of its refusal:
/// 20 comes "after 11, 12 and 13". "at the limit it is within, and the comparison is exact"
pub fn gauge(
    survey: Option<&[Member]>,
    vehicle: Option<&Vehicle>,
    place: usize,
    readings: &Readings,
) -> Result<Deflection, (u64, u64)> {
    let (member, vehicle) = loaded_at(survey, vehicle, place).map_err(|number| (number, 0))?;
    let elastic = elastic(readings).map_err(|place| (20, place))?;
    // "The elastic deflection is loaded − after; for such readings the subtraction loses nothing".
    let deflection = readings.loaded - readings.after;
    if over(elastic, 64) <= limit(member, vehicle) {
        Ok(Deflection::Within(deflection))
    } else {
        Ok(Deflection::Over(deflection))
    }
}
