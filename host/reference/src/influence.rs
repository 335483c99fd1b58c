//! The vehicle load of a member by brute force: every half-centimetre position of the front axle,
//! in both directions of travel.

use crate::fraction::{over, Fraction};
use crate::layout::CLOSE_STRINGER;
use crate::reader::{Axle, Member, Vehicle};

/// Base and apex of the influence line, in half centimetres.
pub fn triangle(member: &Member) -> (usize, usize) {
    let (l, x) = (usize::from(member.l), usize::from(member.x));
    match member.kind {
        1 | CLOSE_STRINGER => (2 * l, l),
        2 => (4 * x, 2 * x),
        _ => (2 * l, 2 * x),
    }
}

/// The height at every half centimetre of the base, times apex × (base − apex).
fn heights(base: usize, apex: usize) -> Vec<u64> {
    let height = |s| if s <= apex { s * (base - apex) } else { (base - s) * apex };
    (0..=base).map(|s| height(s) as u64).collect()
}

/// How far each axle stands behind the front axle, in half centimetres.
pub fn offsets(axles: &[Axle]) -> Vec<usize> {
    let add = |behind: &mut usize, axle: &Axle| {
        *behind += 2 * usize::from(axle.distance);
        Some(*behind)
    };
    axles.iter().scan(0, add).collect()
}

/// The greatest sum of weight × height with the front axle any number of half centimetres on.
/// An axle at `s` on the base has the front axle at `s` + its offset; elsewhere it counts 0.
fn greatest_sum(heights: &[u64], axles: &[Axle]) -> u64 {
    let behind = offsets(axles);
    let mut sums = vec![0u64; heights.len() + behind.last().unwrap_or(&0)];
    for (axle, offset) in axles.iter().zip(behind) {
        for (sum, height) in sums[offset..].iter_mut().zip(heights) {
            *sum += u64::from(axle.weight) * height;
        }
    }
    sums.into_iter().max().unwrap_or(0)
}

/// 200 × (sum of weight × height) / base at its greatest, kgf/m. The other direction of travel is
/// the same line seen from its other end.
pub fn exact_load(member: &Member, vehicle: &Vehicle) -> Fraction {
    let (base, apex) = triangle(member);
    let forth = greatest_sum(&heights(base, apex), &vehicle.axles);
    let back = greatest_sum(&heights(base, base - apex), &vehicle.axles);
    let (base, apex) = (base as i128, apex as i128);
    let sum = over(forth.max(back).into(), apex * (base - apex));
    over(200, 1) * sum / over(base, 2)
}

/// The vehicle load, kgf/m: the exact one "rounded up once".
pub fn vehicle_load(member: &Member, vehicle: &Vehicle) -> u64 {
    let load = exact_load(member, vehicle).ceiling();
    u64::try_from(load).expect("a vehicle load is never below 0")
}

#[cfg(test)]
mod tests {
    use super::*;

    /// The document word for word: the front axle at `front` from the left end, the others to the
    /// left of it (`ahead` = 1) or to the right (`ahead` = -1).
    fn one_position(base: i64, apex: i64, front: i64, ahead: i64, axles: &[Axle]) -> i64 {
        let mut at = front;
        let mut sum = 0;
        for axle in axles {
            at -= ahead * 2 * i64::from(axle.distance);
            let height = match at {
                s if s < 0 || s > base => 0,
                s if s <= apex => s * (base - apex),
                s => (base - s) * apex,
            };
            sum += i64::from(axle.weight) * height;
        }
        sum
    }

    #[test]
    fn the_two_sweeps_meet_every_position() {
        let axle = |weight, distance| Axle { weight, distance };
        let axles = [axle(700, 0), axle(1900, 23), axle(300, 1), axle(2500, 61), axle(2400, 9)];
        for (base, apex) in [(200, 100), (202, 2), (202, 200), (240, 77), (90, 45)] {
            for count in 1..=axles.len() {
                let axles = &axles[..count];
                let every = (-400..=base + 400).flat_map(|front| [(front, 1), (front, -1)]);
                let sums =
                    every.map(|(front, ahead)| one_position(base, apex, front, ahead, axles));
                let (base, apex) = (base as usize, apex as usize);
                let forth = greatest_sum(&heights(base, apex), axles);
                let back = greatest_sum(&heights(base, base - apex), axles);
                assert_eq!(sums.max(), i64::try_from(forth.max(back)).ok());
            }
        }
    }
}
