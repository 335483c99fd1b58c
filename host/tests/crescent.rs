//! Logs that rot from above, section code 5, through the exported library: W by appendix 3, the
//! ends of its rows, and that a deeper crescent never bears more.

mod common;

use common::{expected, library};
use reference::generate::{survey_bytes, vehicle_bytes, VehicleWords};
use reference::layout::*;

/// Diameter, depth and tiers.
type Crescent = [u16; 3];

/// A stringer of this section: pine, l = 100, d = 140, no dead load.
fn stringer(section: u16, [diameter, depth, tiers]: Crescent) -> Words {
    let mut words: Words = [0; 16];
    [words[KIND], words[SPECIES], words[SPAN], words[SPACING]] = [1, 1, 100, 140];
    [words[SECTION], words[S1], words[S2], words[S3]] = [section, diameter, depth, tiers];
    words
}

/// A cross beam: pine, l = 100, x = 10, no dead load.
fn cross_beam(crescent: Crescent) -> Words {
    let mut words = stringer(5, crescent);
    [words[KIND], words[SPACING], words[FROM_SUPPORT]] = [2, 0, 10];
    words
}

/// Class 0, track 190, an axle of 1 kgf.
fn vehicle() -> Vec<u8> {
    vehicle_bytes(&VehicleWords { version: 1, class: 0, track: 190, axles: vec![[1, 0]] })
}

/// The members' permitted loads.
fn permitted(members: &[Words]) -> Vec<u64> {
    let loads = tbr::member_loads(&survey_bytes(members), &vehicle());
    let loads = loads.unwrap_or_else(|refusal| panic!("{refusal}"));
    loads.iter().map(|member| member.permitted).collect()
}

/// All depths of a crescent, 0 to 60 cm.
fn all_depths(diameter: u16, tiers: u16) -> Vec<Words> {
    (0..=60).map(|depth| stringer(5, [diameter, depth, tiers])).collect()
}

/// Formula (13): 1536 W K / (n Kₐ l²) × 100 with K = 1, n = 1.4, Kₐ = 1/2 as the track is above d,
/// and l = 100 is 1536 W / 70. W = 185.9 gives 4079.2; 185.8 gives 4077.0 and 186 gives 4081.4.
/// Formula (30): 1280 W K / (n x l) × 100 with x = 10 is 1280 W / 14. W = 185.9 gives 16996.6; 185.8
/// gives 16987.4 and 186 gives 17005.7.
#[test]
fn diameter_14_with_depth_2_has_185_9() {
    assert_eq!(permitted(&[stringer(5, [14, 2, 1]), cross_beam([14, 2, 1])]), [4079, 16996]);
}

/// W = 0: neither the row's last entry again, nor the first of the thicker log's row.
#[test]
fn nothing_is_left_past_the_end_of_a_row() {
    let ends =
        [7, 7, 8, 8, 9, 9, 10, 10, 11, 11, 12, 12, 13, 13, 14, 14, 15, 15, 16, 16, 17, 17, 17];
    for (diameter, last) in (14..=36).zip(ends) {
        let at_the_end = [0, 1].map(|past| stringer(5, [diameter, last + past, 1]));
        let loads = permitted(&at_the_end);
        assert!(loads[0] > 0 && loads[1] == 0, "diameter {diameter}, depth {last}: {loads:?}");
    }
}

#[test]
fn depth_0_is_a_sound_log() {
    for diameter in 14..=36 {
        for tiers in 1..=3 {
            let loads = permitted(&[5, 1].map(|code| stringer(code, [diameter, 0, tiers])));
            assert_eq!(loads[0], loads[1], "diameter {diameter}, {tiers} tiers");
        }
    }
}

/// The top log has the crescent, the others are sound: 538 cm³ are left of three logs of 14 cm.
#[test]
fn only_the_top_tier_is_decayed() {
    assert_eq!(permitted(&[1, 2, 3].map(|tiers| stringer(5, [14, 8, tiers]))), [0, 5902, 11805]);
}

/// The whole table, every answer equal and none above that of a shallower crescent.
#[test]
fn every_diameter_and_depth() {
    for diameter in 14..=36 {
        for tiers in 1..=3 {
            let members = all_depths(diameter, tiers);
            let (survey, vehicle) = (survey_bytes(&members), vehicle());
            assert_eq!(library(&survey, &vehicle), expected(&survey, &vehicle), "{diameter}");
            let loads = permitted(&members);
            assert!(loads.is_sorted_by(|left, right| left >= right), "{diameter}: {loads:?}");
        }
    }
}

/// Number and place of the refusal of a survey whose second member is this one.
fn refusal(words: Words) -> Option<(u64, u64)> {
    let survey = survey_bytes(&[stringer(1, [20, 0, 1]), words]);
    tbr::check_survey(&survey).err().map(|refusal| (refusal.number, refusal.place))
}

#[test]
fn refusals_of_a_crescent() {
    assert_eq!(refusal(stringer(5, [14, 0, 1])), None);
    assert_eq!(refusal(cross_beam([36, 60, 3])), None);
    let outside = [0, 13, 37, 38, 39, 40].map(|diameter| [diameter, 2, 1]);
    for crescent in outside.into_iter().chain([[20, 61, 1], [20, 2, 0], [20, 2, 4]]) {
        assert_eq!(refusal(stringer(5, crescent)), Some((7, 2)), "{crescent:?}");
        assert_eq!(refusal(cross_beam(crescent)), Some((7, 2)), "{crescent:?}");
        for unused in [S4, S5, S6] {
            let mut words = stringer(5, crescent);
            words[unused] = 1;
            assert_eq!(refusal(words), Some((8, 2)), "8 comes before 7, {crescent:?}");
        }
    }
    for (kind, code) in [(3, 5), (4, 5), (5, 5), (6, 5), (1, 6), (2, 6), (1, 0)] {
        let mut words = stringer(code, [20, 2, 1]);
        words[KIND] = kind;
        assert_eq!(refusal(words), Some((6, 2)), "kind {kind}, section {code}");
    }
}
