//! The document's twelve cases, and figures that are easy to work out by hand.

use reference::fraction::{over, whole};
use reference::permitted::{exact, permitted_load};
use reference::section::{dowel_capacity, section_modulus};
use reference::{influence::vehicle_load, Axle, Member, Vehicle};

const NOTHING: Member =
    Member { kind: 0, species: 1, l: 0, d: 0, x: 0, h: 0, q: 0, code: 0, s: [0; 6], a: 0, b: 0 };

/// Case A with this rot.
fn stringer(rot: u16) -> Member {
    Member { kind: 1, l: 500, d: 140, q: 100, code: 1, s: [28, rot, 1, 0, 0, 0], ..NOTHING }
}

/// Case E.
fn chord() -> Member {
    let s = [5, 20, 0, 0, 4, 0];
    Member { kind: 3, l: 1000, d: 500, x: 200, h: 150, q: 500, code: 2, s, ..NOTHING }
}

/// Class 0, track 190, these weights so far apart.
fn vehicle(weights: &[u32], apart: u16) -> Vehicle {
    let axle = |(i, &weight)| Axle { weight, distance: if i == 0 { 0 } else { apart } };
    Vehicle { class: 0, track: 190, axles: weights.iter().enumerate().map(axle).collect() }
}

#[test]
fn permitted_loads_of_cases_a_to_f() {
    let any = vehicle(&[1], 0);
    for (rot, load) in [(0, 1720), (1, 1343), (7, 64), (8, 0)] {
        assert_eq!(permitted_load(&stringer(rot), &any), load, "rot {rot}");
    }
    assert_eq!(permitted_load(&chord(), &any), 6084);
    let s = [24, 0, 1, 0, 0, 0];
    let cross_beam = Member { kind: 2, l: 300, x: 200, q: 100, code: 1, s, ..NOTHING };
    assert_eq!(permitted_load(&cross_beam, &any), 1939);
}

#[test]
fn dowels_of_cases_g_and_h() {
    let dowels = |rot| Member { kind: 4, code: 3, s: [1, 16, 10, 6, rot, 1], ..NOTHING };
    assert_eq!(dowel_capacity(&dowels(0)), over(4944, 10));
    assert_eq!(dowel_capacity(&dowels(3)), whole(336));
}

#[test]
fn vehicle_loads_of_cases_i_to_l() {
    let long = Member { l: 1000, ..stringer(0) };
    assert_eq!(vehicle_load(&long, &vehicle(&[2000, 4000], 300)), 960);
    assert_eq!(vehicle_load(&long, &vehicle(&[2000, 4001], 300)), 961);
    assert_eq!(vehicle_load(&chord(), &vehicle(&[2000, 4000], 300)), 1050);
    assert_eq!(vehicle_load(&stringer(0), &vehicle(&[1500, 3000], 370)), 1200);
}

/// Without dead load the permitted load is in proportion to W.
#[test]
fn three_sound_tiers_count_three_times() {
    let any = vehicle(&[1], 0);
    let tiers = |n| Member { q: 0, s: [28, 0, n, 0, 0, 0], ..stringer(0) };
    assert_eq!(exact(&tiers(3), &any), whole(3) * exact(&tiers(1), &any));
}

/// A log that rots from above, W by appendix 3.
fn crescent(diameter: u16, depth: u16, tiers: u16) -> Member {
    Member { code: 5, s: [diameter, depth, tiers, 0, 0, 0], ..stringer(0) }
}

#[test]
fn crescents_in_tiers() {
    let modulus = |diameter, depth, tiers| section_modulus(&crescent(diameter, depth, tiers));
    assert_eq!(modulus(14, 2, 1), over(1859, 10));
    // The top log is decayed, the others have the sound W, 269 at diameter 14.
    assert_eq!(modulus(14, 2, 2), over(1859 + 2690, 10));
    assert_eq!(modulus(14, 2, 3), over(1859 + 2 * 2690, 10));
    assert_eq!(modulus(14, 8, 3), whole(2 * 269));
    assert_eq!(modulus(36, 17, 2), whole(941 + 4580));
    assert_eq!(modulus(36, 18, 1), whole(0));
}

#[test]
fn a_crescent_of_depth_0_is_a_sound_log() {
    for diameter in 14..=36 {
        for tiers in 1..=3 {
            let log = Member { s: [diameter, 0, tiers, 0, 0, 0], ..stringer(0) };
            assert_eq!(section_modulus(&crescent(diameter, 0, tiers)), section_modulus(&log));
        }
    }
}

#[test]
fn the_joints_by_hand() {
    let any = vehicle(&[1], 0);
    let joint = Member { l: 1000, d: 190, x: 500, h: 100, q: 0, a: 1, b: 2, ..NOTHING };
    // Kₐ = 1/2, μ = 1/2, n = 1.4, (l − x)x = 250,000: the divisor is 87,500 kgf/cm.
    let keyed = Member { kind: 5, species: 7, code: 4, s: [100, 20, 0, 0, 0, 0], ..joint };
    assert_eq!(exact(&keyed, &any), over(224 * 100 * 80 * 16, 100) * over(100, 87_500));
    let plates = Member { kind: 6, species: 0, ..keyed };
    assert_eq!(exact(&plates, &any), whole(3800 * 100 * 80) * over(100, 87_500));
    let dowelled = Member { kind: 4, species: 3, code: 3, s: [1, 16, 10, 6, 0, 20], ..joint };
    assert_eq!(exact(&dowelled, &any), over(2 * 100 * 4944 * 12 * 20, 100) * over(100, 87_500));
}
