//! The permitted load of a member: formulas (13), (30), (27), (29), (33), (34), (10) as they are
//! printed.

use crate::fraction::{over, whole, Fraction};
use crate::reader::{Member, Vehicle};
use crate::section::{area, dowel_capacity, section_modulus};
use crate::spread::{beta, stiffness_number, WHOLE};

/// Factors of a species in tenths: K for bending and tension, S for shear.
pub(crate) const SPECIES: [(u16, u16); 8] =
    [(10, 10), (10, 10), (12, 10), (9, 9), (8, 8), (13, 13), (13, 16), (11, 13)];

/// K of the member's species.
fn factor_k(member: &Member) -> Fraction {
    over(SPECIES[usize::from(member.species - 1)].0.into(), 10)
}

/// S of the member's species.
fn factor_s(member: &Member) -> Fraction {
    over(SPECIES[usize::from(member.species - 1)].1.into(), 10)
}

/// n: 1.4 for class 0, 1.1 for class 1.
fn factor_n(vehicle: &Vehicle) -> Fraction {
    over(if vehicle.class == 0 { 14 } else { 11 }, 10)
}

/// Kₐ = (2d − e) / 2d, with e the lesser of E and d.
fn factor_ka(member: &Member, vehicle: &Vehicle) -> Fraction {
    let (d, e) = (i128::from(member.d), i128::from(vehicle.track.min(member.d)));
    over(2 * d - e, 2 * d)
}

/// Kind 1, formula (13).
fn stringer(m: &Member, v: &Vehicle) -> Fraction {
    let (w, k, n, ka) = (section_modulus(m), factor_k(m), factor_n(v), factor_ka(m, v));
    let (q, l) = (over(m.q.into(), 100), whole(m.l));
    (whole(1536) * w * k - over(12, 10) * q * l * l) / (n * ka * l * l)
}

/// Kind 2, formula (30).
fn cross_beam(m: &Member, v: &Vehicle) -> Fraction {
    let (w, k, n) = (section_modulus(m), factor_k(m), factor_n(v));
    let (q, l, x) = (over(m.q.into(), 100), whole(m.l), whole(m.x));
    (whole(1280) * w * k - over(12, 10) * q * l * l) / (n * x * l)
}

/// Kind 3, formula (27).
fn chord(m: &Member, v: &Vehicle) -> Fraction {
    let (f, k, n, ka) = (area(m), factor_k(m), factor_n(v), factor_ka(m, v));
    let (q, l, x, h) = (over(m.q.into(), 100), whole(m.l), whole(m.x), whole(m.h));
    (whole(200) * h * f * k - over(12, 10) * q * (l - x) * x) / (n * ka * (l - x) * x)
}

/// Kinds 4, 5 and 6 with their own front: formulas (29), (33), (34).
fn joint(front: Fraction, m: &Member, v: &Vehicle) -> Fraction {
    let (n, ka, mu) = (factor_n(v), factor_ka(m, v), over(m.a.into(), m.b.into()));
    let (q, l, x) = (over(m.q.into(), 100), whole(m.l), whole(m.x));
    (front - over(12, 10) * q * mu * (l - x) * x) / (mu * n * ka * (l - x) * x)
}

/// The front of formula (29).
fn dowelled(m: &Member) -> Fraction {
    whole(2) * whole(m.h) * dowel_capacity(m) * factor_k(m) * whole(m.s[5])
}

/// The front of formula (33).
fn keyed(m: &Member) -> Fraction {
    over(224, 10) * whole(m.h) * area(m) * factor_s(m)
}

/// The front of formula (34).
fn plates(m: &Member) -> Fraction {
    whole(3800) * whole(m.h) * area(m)
}

/// Kind 7, formula (10), with the β that is kept.
fn close_stringer(m: &Member, v: &Vehicle) -> Fraction {
    let (w, k, n) = (section_modulus(m), factor_k(m), factor_n(v));
    let (q, l) = (over(m.q.into(), 100), whole(m.l));
    let beta = over(beta(stiffness_number(m), m.d, v.track), WHOLE);
    (whole(3072) * w * k - over(24, 10) * q * l * l) / (n * beta * l * l)
}

/// The exact value in kgf/m: the formula's result, in kgf/cm, times 100.
pub fn exact(member: &Member, vehicle: &Vehicle) -> Fraction {
    let result = match member.kind {
        1 => stringer(member, vehicle),
        2 => cross_beam(member, vehicle),
        3 => chord(member, vehicle),
        4 => joint(dowelled(member), member, vehicle),
        5 => joint(keyed(member), member, vehicle),
        6 => joint(plates(member), member, vehicle),
        _ => close_stringer(member, vehicle),
    };
    result * whole(100)
}

/// The permitted load, kgf/m: the exact value rounded down once, 0 where it is negative.
pub fn permitted_load(member: &Member, vehicle: &Vehicle) -> u64 {
    let load = exact(member, vehicle).floor().max(0);
    u64::try_from(load).expect("a permitted load beyond 64 bits")
}
