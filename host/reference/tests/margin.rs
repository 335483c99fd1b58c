//! Margins and the governing member by hand, from the numbers of document 01's cases A, D, E and F
//! under single axles: at mid-span of A an axle gives 0.4 of its weight, on F 0.5 and on E 0.2.

use reference::generate::*;
use reference::judge::{bridge, judge_members};
use reference::layout::MOST_MEMBERS;
use reference::{judge, Axle, Judged, Member, Rated, Vehicle};

const NOTHING: Member =
    Member { kind: 0, species: 1, l: 0, d: 0, x: 0, h: 0, q: 0, code: 0, s: [0; 6], a: 0, b: 0 };

/// Case A with this rot: 1720 and 0 kgf/m for rot 0 and 8.
fn stringer(rot: u16) -> Member {
    Member { kind: 1, l: 500, d: 140, q: 100, code: 1, s: [28, rot, 1, 0, 0, 0], ..NOTHING }
}

/// Case E with this lost area: 6084 kgf/m for none. 280 cm² leave F = 120, and
/// (200 × 150 × 120 − 960,000) / 181,440 is 14.55 kgf/cm.
fn chord(lost: u16) -> Member {
    let s = [5, 20, 0, 0, 4, lost];
    Member { kind: 3, l: 1000, d: 500, x: 200, h: 150, q: 500, code: 2, s, ..NOTHING }
}

/// Case F: 1939 kgf/m.
fn cross_beam() -> Member {
    Member { kind: 2, l: 300, x: 200, q: 100, code: 1, s: [24, 0, 1, 0, 0, 0], ..NOTHING }
}

/// Class 0, track 190, one axle.
fn axle(weight: u32) -> Vehicle {
    Vehicle { class: 0, track: 190, axles: vec![Axle { weight, distance: 0 }] }
}

/// Figure, governing place, verdict and margin.
fn said(judged: &Judged) -> (u64, u64, bool, i64) {
    (judged.figure, judged.governing, judged.passes, judged.margin)
}

fn under(members: &[Member], weight: u32) -> (u64, u64, bool, i64) {
    said(&judge_members(members, &axle(weight)))
}

/// The same of bare loads: permitted and vehicle.
fn of_loads(loads: &[[u64; 2]]) -> (u64, u64, bool, i64) {
    said(&bridge(loads.iter().map(|&[permitted, vehicle]| Rated { permitted, vehicle }).collect()))
}

#[test]
fn a_margin_is_permitted_minus_vehicle_load() {
    for (permitted, vehicle, margin) in
        [(1720, 1200, 520), (1720, 1720, 0), (1720, 1721, -1), (0, 1200, -1200), (0, 0, 0)]
    {
        assert_eq!(Rated { permitted, vehicle }.margin(), margin, "{permitted} and {vehicle}");
    }
}

/// 0.4 of 4297, 4300 and 4301 is 1719, 1720 and 1721, rounded up.
#[test]
fn positive_zero_and_negative() {
    let only = [stringer(0)];
    assert_eq!(under(&only, 4297), (1720, 1, true, 1));
    assert_eq!(under(&only, 4300), (1720, 1, true, 0));
    assert_eq!(under(&only, 4301), (1720, 1, false, -1));
    assert_eq!(under(&[stringer(8)], 3000), (0, 1, false, -1200));
}

/// Under the vehicle of case L: 6084 − 762, 1939 − 1500 and 1720 − 1200.
#[test]
fn the_member_with_the_figure_need_not_govern() {
    let members = [chord(0), cross_beam(), stringer(0)];
    let axles = [(1500, 0), (3000, 370)].map(|(weight, distance)| Axle { weight, distance });
    let case_l = Vehicle { axles: axles.to_vec(), ..axle(1) };
    let judged = judge_members(&members, &case_l);
    let margins: Vec<i64> = judged.members.iter().map(|rated| rated.margin()).collect();
    assert_eq!(margins, [5322, 439, 520]);
    assert_eq!(said(&judged), (1720, 2, true, 439));
}

/// "A long span with a low figure is often fine while a short cross beam fails": 10 m on a log of
/// 39 cm bears (1536 × 5824 − 1,200,000) / 700,000 = 11.06 kgf/cm and has 0.2 of the axle.
#[test]
fn a_long_span_with_a_low_figure() {
    let long = Member { l: 1000, s: [39, 0, 1, 0, 0, 0], ..stringer(0) };
    assert_eq!(under(&[long, cross_beam()], 5000), (1106, 2, false, 1939 - 2500));
    assert_eq!(under(&[cross_beam(), long], 5000), (1106, 1, false, -561));
}

/// 1720 − 0.4w, 1939 − 0.5w and 1455 − 0.2w: the chord governs up to 1325 kgf, the stringer to
/// 2190, the cross beam beyond. The figure is the chord's throughout.
#[test]
fn which_member_governs_is_the_vehicles() {
    let members = [stringer(0), cross_beam(), chord(280)];
    for (weight, governing, margin) in [
        (1000, 3, 1255),
        (1320, 3, 1191),
        (1330, 1, 1188),
        (2000, 1, 920),
        (2180, 1, 848),
        (2200, 2, 839),
        (3000, 2, 439),
    ] {
        assert_eq!(under(&members, weight), (1455, governing, true, margin), "{weight} kgf");
    }
}

/// The members differ in both loads; their margins are the same.
#[test]
fn the_first_governs_on_a_tie_of_unlike_members() {
    let [stringer, beam, chord] = [stringer(0), cross_beam(), chord(280)];
    // 1720 − 876 and 1939 − 1095.
    assert_eq!(under(&[stringer, beam], 2190), (1720, 1, true, 844));
    assert_eq!(under(&[beam, stringer], 2190), (1720, 1, true, 844));
    // 1720 − 530 and 1455 − 265, behind a member with 1939 − 663.
    assert_eq!(under(&[beam, stringer, chord], 1325), (1455, 2, true, 1190));
    assert_eq!(under(&[beam, chord, stringer], 1325), (1455, 2, true, 1190));
    assert_eq!(of_loads(&[[900, 380], [1720, 1200], [520, 0]]), (520, 1, true, 520));
    assert_eq!(of_loads(&[[10, 110], [0, 100], [200, 300]]), (0, 1, false, -100));
}

#[test]
fn the_first_governs_of_equal_members() {
    assert_eq!(under(&[stringer(0), stringer(0)], 3000), (1720, 1, true, 520));
    assert_eq!(under(&[stringer(0), cross_beam(), cross_beam()], 3000), (1720, 2, true, 439));
    assert_eq!(under(&vec![stringer(8); MOST_MEMBERS], 3000), (0, 1, false, -1200));
}

/// The most negative margin, not the one nearest to 0.
#[test]
fn the_least_of_negative_margins() {
    // −1880, −2561 and 1455 − 1800.
    assert_eq!(under(&[stringer(0), cross_beam(), chord(280)], 9000), (1455, 2, false, -2561));
    assert_eq!(under(&[cross_beam(), chord(280), stringer(0)], 9000), (1455, 1, false, -2561));
    // The figure is 0 and that of the first, whose margin is −1800.
    let long = Member { l: 1000, ..stringer(8) };
    assert_eq!(under(&[long, stringer(0)], 9000), (0, 2, false, -1880));
}

/// 6084 − 860, 1720 − 1720 and 1939 − 2150: a positive margin, none and a negative one.
#[test]
fn the_last_governs() {
    assert_eq!(under(&[chord(0), stringer(0), cross_beam()], 4300), (1720, 3, false, -211));
    assert_eq!(under(&[chord(0), stringer(0)], 4300), (1720, 2, true, 0));
    let mut members = vec![stringer(0); MOST_MEMBERS];
    members[254] = cross_beam();
    assert_eq!(under(&members, 3000), (1720, 255, true, 439));
}

/// No margin is below the governing member's, and those in front of it are above.
fn hold(judged: &Judged, what: &str) {
    let margins: Vec<i64> = judged.members.iter().map(|rated| rated.margin()).collect();
    let at = usize::try_from(judged.governing).expect("a place") - 1;
    assert_eq!(margins[at], judged.margin, "{what}");
    assert!(margins[..at].iter().all(|&margin| margin > judged.margin), "{what}");
    assert!(margins[at..].iter().all(|&margin| margin >= judged.margin), "{what}");
    assert!(judged.members.iter().all(|rated| rated.permitted >= judged.figure), "{what}");
    assert!(judged.members.iter().any(|rated| rated.permitted == judged.figure), "{what}");
    assert_eq!(
        judged.passes,
        judged.margin >= 0,
        "{what}: it passes just where no margin is below 0"
    );
}

#[test]
fn the_governing_member_of_any_bridge() {
    const SEED: u64 = 0x3a61_0001;
    let mut random = Random::new(SEED);
    let [mut apart, mut below] = [0; 2];
    for round in 0..2000 {
        let spread = if round % 3 == 0 { Spread::Wide } else { Spread::Usual };
        let (members, axles) = (1 + random.below(6), 1 + random.below(4));
        let survey = survey_bytes(&survey(&mut random, spread, members));
        let vehicle = vehicle_bytes(&vehicle(&mut random, spread, axles));
        let judged = judge(&survey, &vehicle).expect("a sound pair");
        hold(&judged, &format!("seed {SEED:#x}, round {round}"));
        let governing = judged.members[usize::try_from(judged.governing).expect("a place") - 1];
        apart += u32::from(governing.permitted != judged.figure);
        below += u32::from(judged.margin < 0);
    }
    assert!(apart > 100 && (200..1800).contains(&below), "{apart} apart, {below} below 0");
}

/// Do members with this margin differ in their permitted loads?
fn unlike(judged: &Judged) -> bool {
    let tied = judged.members.iter().filter(|rated| rated.margin() == judged.margin);
    let permitted: std::collections::BTreeSet<u64> = tied.map(|rated| rated.permitted).collect();
    permitted.len() > 1
}

#[test]
fn the_governing_member_of_bridges_at_a_tie() {
    const SEED: u64 = 0x3a61_0002;
    let mut random = Random::new(SEED);
    let (mut ties, mut below) = (0, 0);
    for round in 0..2000 {
        let Some((survey, vehicle)) = at_a_tie(&mut random) else { continue };
        let judged = judge(&survey, &vehicle_bytes(&vehicle)).expect("a sound pair");
        hold(&judged, &format!("seed {SEED:#x}, round {round}"));
        ties += u32::from(unlike(&judged));
        below += u32::from(unlike(&judged) && judged.margin < 0);
    }
    assert!(ties > 300 && below > 50 && ties - below > 50, "{ties} ties, {below} below 0");
}
