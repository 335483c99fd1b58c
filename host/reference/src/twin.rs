//! The fast twin, for the benchmark: the library's algorithm in plain Rust, in 64-bit arithmetic.
//! Only the positions that put an axle over the apex are tried, a sum ends at the first axle that
//! is not on the base yet, and a triangle with its apex in the middle is tried once.

use crate::crescent::crescent_modulus;
use crate::influence::{offsets, triangle};
use crate::judge::{Judged, Rated};
use crate::layout::CLOSE_STRINGER;
use crate::permitted::SPECIES;
use crate::reader::{self, Axle, Member, Refused, Vehicle};
use crate::section::log_modulus;
use crate::yard::vehicles;

/// Thirty times W, which is a whole number of sixths or tenths of a cm³.
fn modulus_in_thirtieths(m: &Member) -> u64 {
    let s = m.s.map(u64::from);
    if m.code == 2 {
        let (b, h) = (s[0].saturating_sub(s[2]), s[1].saturating_sub(s[3]));
        return 5 * s[4] * b * h * h;
    }
    let top = match m.code {
        1 => 30 * log_modulus(m.s[0].saturating_sub(2 * m.s[1])),
        _ => 3 * crescent_modulus(m.s[0], m.s[1]),
    };
    u64::from(top) + 30 * (s[2] - 1) * u64::from(log_modulus(m.s[0]))
}

/// F in cm².
fn area(m: &Member) -> u64 {
    let s = m.s.map(u64::from);
    if m.code == 2 {
        let (b, h) = (s[0].saturating_sub(s[2]), s[1].saturating_sub(s[3]));
        return (s[4] * b * h).saturating_sub(s[5]);
    }
    s[0].saturating_sub(s[1])
}

/// A hundred times T, the diameter being in mm.
fn dowel_in_hundredths(m: &Member) -> u64 {
    let s = m.s.map(u64::from);
    let (delta, c, a) = (s[1], s[2].saturating_sub(s[4]), s[3].saturating_sub(s[4]));
    let square = delta * delta;
    let terms = match s[0] {
        1 => [450 * c * delta, 700 * a * delta, 165 * square + 200 * a * a, 230 * square],
        2 => [450 * c * delta, 700 * a * delta, 230 * square + 100 * a * a, 370 * square],
        _ => [250 * c * delta, 450 * a * delta, 40 * square + 200 * a * a, 60 * square],
    };
    terms[0].min(terms[1]).min(terms[2]).min(terms[3])
}

/// Twelve times I of a closely spaced stringer.
fn inertia_in_twelfths(m: &Member) -> u64 {
    let s = m.s.map(u64::from);
    if m.code == 2 {
        let (b, h) = (s[0].saturating_sub(s[2]), s[1].saturating_sub(s[3]));
        return s[4] * b * h * h * h;
    }
    let log = |net: u16| 6 * u64::from(log_modulus(net)) * u64::from(net);
    log(m.s[0].saturating_sub(2 * m.s[1])) + (s[2] - 1) * log(m.s[0])
}

/// k in ten-thousandths: thousandths first, as the whole product would leave 64 bits, then the next
/// digit, then what is left is rounded half up.
fn stiffness_number(m: &Member) -> u64 {
    let [d, l, width, count] = [m.d, m.l, m.a, m.x].map(u64::from);
    let thickness = u64::from(m.h.saturating_sub(m.b));
    let deck = l * l * l * (width * thickness * thickness * thickness * count);
    if deck == 0 {
        return 100_000;
    }
    let stringer = 1000 * (8 * d * d * d * inertia_in_twelfths(m));
    let rest = 10 * (stringer % deck);
    let rounded = rest / deck + u64::from(2 * (rest % deck) >= deck);
    (10 * (stringer / deck) + rounded).min(100_000)
}

/// The shares of a stringer and of those one, two and three places off, and their divisor.
fn shares(k: u64) -> ([u64; 4], u64) {
    if 3 * k >= 10_000 {
        return ([10_000 + 2 * k, 10_000, 0, 0], 30_000 + 2 * k);
    }
    if k >= 550 {
        let (linear, square) = (10_000 * k, 7 * k * k);
        let own = 100_000_000 + 18 * linear + square;
        let parts = [own, 100_000_000 + 11 * linear, 100_000_000 - 3 * linear, 0];
        return (parts, 500_000_000 + 34 * linear + square);
    }
    let one = 1_000_000_000_000;
    let (linear, square, cube) = (100_000_000 * k, 10_000 * k * k, 26 * k * k * k);
    let own = one + 72 * linear + 131 * square + cube;
    let (next, second) = (one + 57 * linear + 46 * square, one + 23 * linear - 18 * square);
    let third = one + 3 * square - 18 * linear;
    ([own, next, second, third], 7 * one + 196 * linear + 193 * square + cube)
}

/// β in ten-thousandths, over the stringers that both wheels' shares reach.
///
/// No track is below a spacing, so no stringer carries more than the two greatest shares. Over
/// seven stringers these are below 9.63 × 10¹²: times a spacing of 100 and ten thousand, 9.63 ×
/// 10¹⁸ is within 64 bits.
fn beta(k: u64, spacing: u16, track: u16) -> u64 {
    let (parts, divisor) = shares(k);
    let (d, r) = (u64::from(spacing), u64::from(track % spacing));
    // Places are counted from three left of the first wheel, so that none is below 0. Three places
    // to each side for every spread: a loop that asks how far a spread reaches takes longer.
    let (first, second) = (3, 3 + usize::from(track / spacing));
    let part = |place: usize, wheel: usize| parts.get(place.abs_diff(wheel)).copied().unwrap_or(0);
    let influence = |j| d * part(j, first) + (d - r) * part(j, second) + r * part(j, second + 1);
    let greatest = (0..=second + 4).map(influence).max().unwrap_or(0);
    (10_000 * greatest).div_ceil(divisor * d)
}

/// `number × factor / divisor` rounded down, where the product alone may leave 64 bits.
fn scaled(number: u64, factor: u64, divisor: u64) -> u64 {
    number / divisor * factor + number % divisor * factor / divisor
}

/// The permitted load from whole numbers, the formulas' constants multiplied out.
fn permitted_load(m: &Member, vehicle: &Vehicle) -> u64 {
    let [l, x, h, q, d] = [m.l, m.x, m.h, m.q, m.d].map(u64::from);
    let n = if vehicle.class == 0 { 14 } else { 11 };
    let (k, shear) = match m.kind {
        6 => (0, 0),
        _ => SPECIES[usize::from(m.species - 1)],
    };
    let (k, shear) = (u64::from(k), u64::from(shear));
    let side = 2 * d - u64::from(vehicle.track.min(m.d));
    if m.kind == 1 {
        let net = (5_120 * modulus_in_thirtieths(m) * k).saturating_sub(12 * q * l * l);
        return scaled(net, 2 * d, n * side * l * l);
    }
    if m.kind == 2 {
        let net = (12_800 * modulus_in_thirtieths(m) * k).saturating_sub(36 * q * l * l);
        return net / (3 * n * x * l);
    }
    if m.kind == CLOSE_STRINGER {
        let net = (10_240 * modulus_in_thirtieths(m) * k).saturating_sub(24 * q * l * l);
        let beta = beta(stiffness_number(m), m.d, vehicle.track);
        return scaled(net, 10_000, n * beta * l * l);
    }
    let (a, b) = if m.kind == 3 { (1, 1) } else { (m.a.into(), m.b.into()) };
    let front = match m.kind {
        3 => 20_000 * area(m) * k,
        4 => 2 * dowel_in_hundredths(m) * k * u64::from(m.s[5]),
        5 => 2_240 * area(m) * shear,
        _ => 3_800_000 * area(m),
    };
    let reach = (l - x) * x;
    let net = (front * h * b).saturating_sub(12 * q * a * reach);
    scaled(net, 2 * d, a * n * side * reach)
}

/// The greatest sum over the positions that put an axle over the apex.
fn greatest_sum(base: usize, apex: usize, axles: &[Axle], behind: &[usize]) -> u64 {
    let mut greatest = 0;
    for over_apex in behind {
        let front = apex + over_apex;
        let mut sum = 0;
        for (axle, offset) in axles.iter().zip(behind) {
            let s = front.saturating_sub(*offset);
            // This axle and all behind it are not on the base yet.
            if s == 0 {
                break;
            }
            let height = if s <= apex { s * (base - apex) } else { base.saturating_sub(s) * apex };
            sum += u64::from(axle.weight) * height as u64;
        }
        greatest = greatest.max(sum);
    }
    greatest
}

fn vehicle_load(m: &Member, axles: &[Axle], behind: &[usize]) -> u64 {
    let (base, apex) = triangle(m);
    let forth = greatest_sum(base, apex, axles, behind);
    // From the other end an apex in the middle is the same.
    let back =
        if 2 * apex == base { forth } else { greatest_sum(base, base - apex, axles, behind) };
    (400 * forth.max(back)).div_ceil((apex * (base - apex) * base) as u64)
}

fn rate_with(member: &Member, vehicle: &Vehicle, behind: &[usize]) -> Rated {
    Rated {
        permitted: permitted_load(member, vehicle),
        vehicle: vehicle_load(member, &vehicle.axles, behind),
    }
}

/// A member's loads, fast.
pub fn rate(member: &Member, vehicle: &Vehicle) -> Rated {
    rate_with(member, vehicle, &offsets(&vehicle.axles))
}

/// The bridge in one pass over its members. No load of files comes near 2^63, so the wrapped
/// difference of two is their margin.
fn bridge(members: Vec<Rated>) -> Judged {
    let (mut figure, mut governing, mut margin) = (u64::MAX, 0, i64::MAX);
    for (rated, place) in members.iter().zip(1..) {
        let own = rated.permitted.wrapping_sub(rated.vehicle).cast_signed();
        figure = figure.min(rated.permitted);
        if own < margin {
            (governing, margin) = (place, own);
        }
    }
    Judged { figure, governing, passes: margin >= 0, margin, members }
}

fn judge_members(members: &[Member], vehicle: &Vehicle) -> Judged {
    let behind = offsets(&vehicle.axles);
    bridge(members.iter().map(|member| rate_with(member, vehicle, &behind)).collect())
}

/// The judgement, fast.
pub fn judge(survey: &[u8], vehicle: &[u8]) -> Result<Judged, Refused> {
    let members = reader::survey(survey)?;
    let vehicle = reader::vehicle(vehicle)?;
    Ok(judge_members(&members, &vehicle))
}

/// The judgements of a yard's vehicles, fast: the survey is read once.
pub fn yard(survey: &[u8], yard: &[u8]) -> Result<Vec<Judged>, Refused> {
    let members = reader::survey(survey)?;
    let vehicles = vehicles(yard)?;
    Ok(vehicles.iter().map(|vehicle| judge_members(&members, vehicle)).collect())
}

#[cfg(test)]
mod tests {
    use super::*;
    use crate::spread;

    /// The wheels at every distance: β is that of 128 bits.
    fn agrees(k: u64, spacing: u16) {
        for track in 100..=300 {
            let (fast, exact) = (beta(k, spacing, track), spread::beta(k.into(), spacing, track));
            assert_eq!(i128::from(fast), exact, "k {k}, spacing {spacing}, track {track}");
        }
    }

    /// The greatest numbers are those of k = 549 with a spacing of 100.
    #[test]
    fn beta_of_seven_stringers_fits_64_bits() {
        for k in 0..550 {
            [30, 61, 99, 100].into_iter().for_each(|spacing| agrees(k, spacing));
        }
    }

    /// On both sides of 0.055 and of 1/3, and at the ends.
    #[test]
    fn beta_at_every_spacing() {
        for k in [0, 1, 548, 549, 550, 551, 3333, 3334, 99_999, 100_000] {
            (30..=100).for_each(|spacing| agrees(k, spacing));
        }
    }
}
