//! Closely spaced stringers, kind 7, through the exported library: formula (10) by hand, the
//! stiffness number at its edges, the spread over three, five and seven stringers, wheels near and
//! far apart, and every refusal.

mod common;

use common::{expected, library, seed};
use reference::generate::{at_seven_stringers, survey_bytes, vehicle_bytes, Random, VehicleWords};
use reference::layout::*;

/// Count, thickness and width of the boards, and their rot.
type Deck = [u16; 4];

/// A pine stringer without dead load; its section is still missing.
fn close_stringer(span: u16, spacing: u16, [boards, thickness, width, rot]: Deck) -> Words {
    let mut words: Words = [0; 16];
    [words[KIND], words[SPECIES], words[SPAN], words[SPACING]] = [7, 1, span, spacing];
    [words[BOARDS], words[BOARD_THICKNESS]] = [boards, thickness];
    [words[BOARD_WIDTH], words[DECK_ROT]] = [width, rot];
    words
}

/// Diameter, rot and tiers.
fn of_logs(mut words: Words, [diameter, rot, tiers]: [u16; 3]) -> Words {
    [words[SECTION], words[S1], words[S2], words[S3]] = [1, diameter, rot, tiers];
    words
}

/// One sawn piece of this width and height.
fn of_piece(mut words: Words, [width, height]: [u16; 2]) -> Words {
    [words[SECTION], words[S1], words[S2], words[S5]] = [2, width, height, 1];
    words
}

/// The record with some words changed.
fn with(mut words: Words, changes: &[(usize, u16)]) -> Words {
    changes.iter().for_each(|&(word, value)| words[word] = value);
    words
}

/// An axle of 1 kgf.
fn vehicle(class: u8, track: u16) -> Vec<u8> {
    vehicle_bytes(&VehicleWords { version: 1, class, track, axles: vec![[1, 0]] })
}

/// The members' permitted loads.
fn permitted(members: &[Words], class: u8, track: u16) -> Vec<u64> {
    let loads = tbr::member_loads(&survey_bytes(members), &vehicle(class, track));
    let loads = loads.unwrap_or_else(|refusal| panic!("{refusal}"));
    loads.iter().map(|member| member.permitted).collect()
}

/// Formula (10) with K = 1, q = 0 and n = 1.4: 3072 W / (1.4 β l²) × 100, β in ten-thousandths.
fn formula_10(w: u64, beta: u64, l: u64) -> u64 {
    3072 * w * 10_000_000 / (14 * beta * l * l)
}

/// All answers equal to the reference's.
fn agree(members: &[Words], class: u8, track: u16) {
    for members in members.chunks(MOST_MEMBERS) {
        let (survey, vehicle) = (survey_bytes(members), vehicle(class, track));
        let answer = library(&survey, &vehicle);
        assert!(answer.is_ok(), "{answer:?}");
        assert_eq!(answer, expected(&survey, &vehicle), "track {track}");
    }
}

/// A piece 12 by 20 has W = 800, I = 800 × 10 = 8000. A board 12 wide with 2 cm left of 5 has J =
/// 12 × 2³ / 12 = 8. l = 1000, d = 50: k = 8 × 50³ × 8000 / (1000³ × 8) = 1, and the shares are
/// 3/5, 1/5. E = 190 = 3 × 50 + 40: under the first wheel 3/5 and nothing of the other, so β = 0.6.
/// q = 10 kgf/m is 0.1 kgf/cm: (3072 × 800 − 2.4 × 0.1 × 1000²) / (1.4 × 0.6 × 1000²) × 100 = 264,
/// nothing over.
#[test]
fn three_stringers_by_hand() {
    let words = of_piece(close_stringer(1000, 50, [1, 5, 12, 3]), [12, 20]);
    let loads = permitted(&[9, 10, 11].map(|q| with(words, &[(DEAD_LOAD, q)])), 0, 190);
    assert_eq!(loads, [266, 264, 261]);
}

/// A piece 10 by 20 has I = 10 × 20³ / 12, two boards 50 wide with 10 cm left of 13 have J = 2 × 50
/// × 10³ / 12. l = 200, d = 50: k = 1/8 × 80,000 / 100,000 = 0.1. The shares are 2.87, 2.1, 0.7
/// over 8.47. E = 100: the stringer between the wheels has 4.2 / 8.47 = 0.495868, more than 3.57 /
/// 8.47 under them; β = 0.4959 is kept. Oak, class 1, q = 20: (3072 × 2000/3 × 1.3 − 2.4 × 0.2 ×
/// 200²) / (1.1 × 0.4959 × 200²) × 100 = 12,113.9. With β as it is, 12,114.7; rounded down,
/// 12,116.3; under a wheel, 14,252.
#[test]
fn five_stringers_by_hand() {
    let words = of_piece(close_stringer(200, 50, [2, 13, 50, 3]), [10, 20]);
    assert_eq!(permitted(&[with(words, &[(SPECIES, 6), (DEAD_LOAD, 20)])], 1, 100), [12_113]);
}

/// The same piece on four boards of 10 thick: J = 4 × 50 × 10³ / 12, so k = 0.05. The shares are
/// 4.93075, 3.965, 2.105, 0.1075 over 17.28575. E = 100: the stringer between the wheels has 7.93 /
/// 17.28575 = 0.458760, β = 0.4588; (3072 × 2000/3 × 1.3 − 2.4 × 0.2 × 200²) / (1.1 × 0.4588 ×
/// 200²) × 100 = 13,093.4. By five stringers it would be 13,016. E = 190 = 3 × 50 + 40: under the
/// first wheel 4.93075 and a fifth of 0.1075, the third neighbour's: β = 0.2865, 20,967.8; without
/// it 21,056.
#[test]
fn seven_stringers_by_hand() {
    let words = of_piece(close_stringer(200, 50, [4, 10, 50, 0]), [10, 20]);
    let oak = with(words, &[(SPECIES, 6), (DEAD_LOAD, 20)]);
    assert_eq!(permitted(&[oak], 1, 100), [13_093]);
    assert_eq!(permitted(&[oak], 1, 190), [20_967]);
}

/// Three tiers of log 31, the top one with rot 7: net 17, W = 482 + 2 × 2925 = 6332 and I = 482 ×
/// 8.5 + 2 × 2925 × 15.5 = 94,772. Three boards 44 wide and 15 thick: J = 2376 with rot 9, 1375
/// with rot 10. l = 1009, d = 89: k = 0.2190 and 0.3784. E = 190 = 2 × 89 + 12: the most is on the
/// stringer between, β = 0.5011 and 0.4965. Beech, q = 100: (3072 × 6332 × 1.1 − 2.4 × 1009²) /
/// (1.4 β 1009²) × 100.
#[test]
fn tiers_by_hand() {
    let deck = |rot| close_stringer(1009, 89, [3, 15, 44, rot]);
    let members =
        [9, 10].map(|rot| with(of_logs(deck(rot), [31, 7, 3]), &[(SPECIES, 8), (DEAD_LOAD, 100)]));
    assert_eq!(permitted(&members, 0, 190), [2653, 2678]);
}

/// k in ten-thousandths and what it makes of β, for a sound log.
#[test]
fn the_stiffness_number_is_rounded_half_up() {
    // 301.5 is 302, with 0.3254; 301 would have 0.3253.
    let low = of_logs(close_stringer(200, 60, [4, 12, 40, 0]), [16, 0, 1]);
    assert_eq!(permitted(&[low], 0, 190), [formula_10(402, 3254, 200)]);
    // 724.5 is 725, with 0.3122; 724 would have 0.3121.
    let middle = of_logs(close_stringer(200, 30, [4, 9, 40, 0]), [27, 0, 1]);
    assert_eq!(permitted(&[middle], 0, 190), [formula_10(1932, 3122, 200)]);
    // 3392.5 is 3393, with 0.4564; 3392 would have 0.4563.
    let high = of_logs(close_stringer(100, 30, [4, 12, 18, 0]), [24, 0, 1]);
    assert_eq!(permitted(&[high], 0, 190), [formula_10(1357, 4564, 100)]);
}

/// Two tiers of log 20: W = 1570, I = 15,700. E = 190.
#[test]
fn seven_stringers_share_below_0_055() {
    // l = 300, d = 60, J = 18,285.75: k = 0.064 I / J = 0.05494989, kept as 0.0549. The second from
    // the first wheel has 2.20844782 + (50 × 4.26794446 + 10 × 2.20844782) / 60 = 6.13314284 over
    // 18.34640613, β = 0.3343; by five stringers it would be 0.3356.
    let below = of_logs(close_stringer(300, 60, [7, 9, 43, 0]), [20, 0, 2]);
    assert_eq!(permitted(&[below], 0, 190), [formula_10(1570, 3343, 300)]);
    // l = 200, d = 70, J = 98,000: k = 0.343 I / J = 0.05495, kept as 0.0550. The next to the first
    // wheel has 1.605 + (20 × 1.605 + 50 × 0.835) / 70 = 2.66 over 6.891175, β = 0.3861; by seven
    // stringers, with 0.0549, it would be 0.3851.
    let above = of_logs(close_stringer(200, 70, [3, 20, 49, 0]), [20, 0, 2]);
    assert_eq!(permitted(&[above], 0, 190), [formula_10(1570, 3861, 200)]);
}

/// A piece 11 by 30 has W = 1650, I = 24,750; l = 200, d = 50, four boards 50 wide and 15 thick: k
/// = 1/8 × 24,750 / 56,250 = 0.055. E = 190 = 3 × 50 + 40: under a wheel 2.011175 / 6.891175, β =
/// 0.2919; by seven stringers it would be 0.2921, with a fifth of the third neighbour's.
#[test]
fn five_stringers_share_at_0_055() {
    let words = of_piece(close_stringer(200, 50, [4, 15, 50, 0]), [11, 30]);
    assert_eq!(permitted(&[words], 0, 190), [formula_10(1650, 2919, 200)]);
}

/// A sound log 28 has I = 30,170; l = 500, d = 60, six boards 30 wide: k is 0.0543 with 8 cm left
/// of 10, 0.0811 with 7. E = 180 = 3 × 60, a stringer between the wheels is the first neighbour of
/// one and the second of the other: 4.23073054 + 2.19582718 over 18.21602125, then 1.8921 + 0.7567
/// over 7.80344047.
#[test]
fn deck_rot_takes_two_stringers_away() {
    let of = |rot| of_logs(close_stringer(500, 60, [6, 10, 30, rot]), [28, 0, 1]);
    let loads = [3528, 3395].map(|beta| formula_10(2155, beta, 500));
    assert_eq!(permitted(&[of(2), of(3)], 0, 180), loads);
}

/// 0.49 ten-thousandths are kept as 0, and seven stringers bear a seventh each: E = 180 = 6 × 30,
/// the stringer in the middle is the third of both wheels. 0.5 are kept as 1: twice 0.99820003 over
/// 7.01960193.
#[test]
fn a_seventh_each() {
    let of = |width| of_piece(close_stringer(3000, 30, [4, 20, width, 0]), [50, 60]);
    let loads = [2858, 2845].map(|beta| formula_10(30_000, beta, 3000));
    assert_eq!(permitted(&[of(55), of(54)], 0, 180), loads);
}

/// 3333.46 is kept as 3333, below 1/3: by three stringers it would have β = 0.5001. 3333.6 is kept
/// as 3334: by five it would. E = 130 = 2 × 60 + 10.
#[test]
fn three_stringers_share_from_one_third() {
    let below = of_logs(close_stringer(210, 60, [2, 13, 12, 0]), [20, 0, 1]);
    assert_eq!(permitted(&[below], 0, 130), [formula_10(785, 5000, 210)]);
    let above = of_logs(close_stringer(295, 60, [3, 12, 43, 0]), [37, 0, 1]);
    assert_eq!(permitted(&[above], 0, 130), [formula_10(4973, 5000, 295)]);
}

/// The greatest k is 10, with the shares 21/23 and 1/23: β = 0.9131. Log 13, l = 100, d = 30 and
/// boards 4 thick have k = 9.477 with 6 cm of width, 11.37 with 5.
#[test]
fn the_greatest_stiffness_number() {
    let of = |deck| of_logs(close_stringer(100, 30, deck), [13, 0, 1]);
    let greatest = formula_10(216, 9131, 100);
    // 19.954 / 21.954 = 0.90890.
    assert_eq!(permitted(&[of([1, 4, 6, 0])], 0, 190), [formula_10(216, 9090, 100)]);
    let capped = [[1, 4, 5, 0], [1, 1, 1, 0]];
    // No board left: h − B is 0, where B is above h too.
    let rotten = [[1, 4, 60, 4], [10, 4, 60, 5], [10, 20, 60, 20], [1, 1, 1, 20]];
    for deck in capped.into_iter().chain(rotten) {
        assert_eq!(permitted(&[of(deck)], 0, 190), [greatest], "{deck:?}");
    }
    // Nothing left of the stringer, with boards or without: it bears nothing.
    let gone = [[1, 4, 6, 0], [1, 4, 6, 4]].map(|deck| with(of(deck), &[(S2, 1)]));
    assert_eq!(permitted(&gone, 0, 190), [0, 0]);
}

/// Pieces 12 by 20, the width of ten boards 20 thick, and the span in spacings. Each piece has W =
/// 800 and I = 8000; over l = 2 d, k is I / J. Boards 12 wide have J = 80,000, 60 wide 400,000.
type Shape = [u16; 3];

/// k = 1: 3/5 and 1/5.
const THREE: Shape = [10, 12, 2];
/// k = 0.2: 4.88, 3.2, 0.4 over 12.08.
const FIVE: Shape = [10, 60, 2];
/// k = 0.02: 2.492608, 2.1584, 1.4528, 0.6412 over 10.997408.
const SEVEN: Shape = [1, 60, 2];
/// k = 0.0025, almost even: 1.180819, 1.142788, 1.057388, 0.955019 over 7.491207.
const EVEN: Shape = [1, 60, 4];

/// Spacing, track, and β in ten-thousandths.
const WHEELS: [(Shape, u16, u16, u64, &str); 24] = [
    (THREE, 100, 100, 8000, "m 1: neighbours, 3/5 + 1/5"),
    (THREE, 100, 150, 7000, "m 1, r 50: 3/5 + half of 1/5"),
    (THREE, 100, 200, 6000, "m 2: 3/5; between the wheels 1/5 + 1/5"),
    (THREE, 50, 110, 6000, "m 2, r 10: 3/5; between the wheels 1/5 + 4/5 of 1/5"),
    (THREE, 30, 300, 6000, "m 10: the wheels have no stringer in common"),
    (FIVE, 100, 100, 6689, "m 1: 4.88 + 3.2"),
    (FIVE, 100, 199, 5312, "m 1, r 99: between the wheels 3.2 + (4.88 + 99 × 3.2) / 100"),
    (FIVE, 100, 200, 5299, "m 2: between the wheels 3.2 + 3.2"),
    (FIVE, 100, 250, 4206, "m 2, r 50: 4.88 + half of 0.4"),
    (FIVE, 75, 300, 4040, "m 4: 4.88; in the middle 0.4 + 0.4"),
    (FIVE, 60, 300, 4040, "m 5: no stringer in common"),
    (FIVE, 30, 299, 4040, "m 9, r 29: no stringer in common"),
    (SEVEN, 100, 100, 4230, "m 1: 2.492608 + 2.1584"),
    (SEVEN, 100, 200, 3926, "m 2: between the wheels 2.1584 + 2.1584"),
    (SEVEN, 100, 300, 3284, "m 3: between the wheels 2.1584 + 1.4528"),
    (SEVEN, 60, 255, 2458, "m 4, r 15: in the middle 1.75 × 1.4528 + 0.25 × 0.6412"),
    (SEVEN, 60, 300, 2267, "m 5: 2.492608; between the wheels 1.4528 + 0.6412"),
    (EVEN, 100, 300, 2938, "m 3: between the wheels 1.142788 + 1.057388"),
    (EVEN, 75, 300, 2824, "m 4: in the middle 1.057388 + 1.057388"),
    (EVEN, 60, 300, 2687, "m 5: between the wheels 1.057388 + 0.955019"),
    (EVEN, 50, 300, 2550, "m 6: in the middle 0.955019 + 0.955019"),
    (EVEN, 45, 300, 1700, "m 6, r 30: 0.955019 + a third of 0.955019"),
    (EVEN, 40, 300, 1577, "m 7, r 20: 1.180819; no stringer in common"),
    (EVEN, 30, 300, 1577, "m 10: no stringer in common"),
];

#[test]
fn wheels_near_and_far_apart() {
    for ([pieces, width, spacings], spacing, track, beta, what) in WHEELS {
        // Twice the span over boards half as thick has the same k: the least span is 100.
        let span = spacings * spacing;
        let (span, thickness) = if span < 100 { (2 * span, 10) } else { (span, 20) };
        let piece = of_piece(close_stringer(span, spacing, [10, thickness, width, 0]), [12, 20]);
        let modulus = 800 * u64::from(pieces);
        let loads = [beta, beta + 1].map(|beta| formula_10(modulus, beta, span.into()));
        assert!(loads[0] > loads[1], "the load shows a ten-thousandth");
        assert_eq!(permitted(&[with(piece, &[(S5, pieces)])], 0, track), [loads[0]], "{what}");
    }
}

/// On thin, usual and thick boards, and on so many that seven stringers share at any spacing.
#[test]
fn every_track_and_spacing() {
    let decks = [[2, 4, 20, 0], [2, 9, 20, 0], [2, 20, 20, 0], [10, 20, 60, 0]];
    let on = |deck| (30..=100).map(move |d| of_logs(close_stringer(300, d, deck), [28, 1, 2]));
    let members: Vec<Words> = decks.into_iter().flat_map(on).collect();
    (100..=300).for_each(|track| agree(&members, u8::from(track % 2 == 0), track));
}

/// Spans on both sides of k = 0.055.
#[test]
fn where_seven_stringers_begin() {
    let mut random = Random::new(seed(0x7b2_0007));
    let members: Vec<Words> = (0..20_000).filter_map(|_| at_seven_stringers(&mut random)).collect();
    assert!(members.len() > 10_000, "{} at the border", members.len());
    for members in members.chunks(MOST_MEMBERS) {
        agree(members, 0, random.between(100, 300));
    }
}

#[test]
fn every_thickness_and_rot_of_the_deck() {
    for [boards, width] in [[1, 1], [1, 60], [3, 25], [10, 1], [10, 60]] {
        let rots = |thickness| (0..=20).map(move |rot| [boards, thickness, width, rot]);
        let decks = (1..=20).flat_map(rots);
        let members: Vec<Words> =
            decks.map(|deck| of_logs(close_stringer(450, 70, deck), [30, 2, 1])).collect();
        agree(&members, 0, 190);
    }
}

#[test]
fn every_log_and_rot() {
    for tiers in 1..=3 {
        let rots = |diameter| (0..=20).map(move |rot| [diameter, rot, tiers]);
        let logs = (13..=39).flat_map(rots);
        let members: Vec<Words> =
            logs.map(|log| of_logs(close_stringer(450, 70, [2, 10, 20, 1]), log)).collect();
        agree(&members, 1, 175);
    }
}

/// Base l and apex l / 2, as a stringer of the same span.
#[test]
fn the_vehicle_load_is_that_of_a_stringer() {
    let axles = vec![[2000, 0], [4000, 300], [4100, 130]];
    let vehicle = vehicle_bytes(&VehicleWords { version: 1, class: 0, track: 190, axles });
    for span in [100, 101, 500, 777, 1000, 4999, 5000] {
        let close = of_logs(close_stringer(span, 60, [2, 10, 20, 1]), [28, 0, 1]);
        let deck = [(BOARDS, 0), (BOARD_THICKNESS, 0), (BOARD_WIDTH, 0), (DECK_ROT, 0)];
        let stringer = with(with(close, &deck), &[(KIND, 1)]);
        let loads = tbr::member_loads(&survey_bytes(&[close, stringer]), &vehicle).unwrap();
        assert_eq!(loads[0].vehicle, loads[1].vehicle, "span {span}");
    }
}

/// A sound record of each section.
fn sound() -> [Words; 2] {
    let words = close_stringer(500, 60, [2, 10, 20, 1]);
    [of_logs(words, [28, 1, 2]), of_piece(words, [18, 24])]
}

/// Number and place of the refusal of a survey whose second member is this one.
fn refusal(words: Words) -> Option<(u64, u64)> {
    let survey = survey_bytes(&[sound()[0], words]);
    tbr::check_survey(&survey).err().map(|refusal| (refusal.number, refusal.place))
}

/// Both ends of every range are taken, one past them is not.
#[test]
fn the_ranges() {
    let ranges = [
        (SPAN, 100, 5000),
        (SPACING, 30, 100),
        (BOARDS, 1, 10),
        (BOARD_THICKNESS, 1, 20),
        (DEAD_LOAD, 0, 10_000),
        (BOARD_WIDTH, 1, 60),
        (DECK_ROT, 0, 20),
    ];
    for words in sound() {
        for (word, least, greatest) in ranges {
            for value in [least, greatest] {
                assert_eq!(refusal(with(words, &[(word, value)])), None, "{word} {value}");
            }
            for value in [least.wrapping_sub(1), greatest + 1, u16::MAX] {
                let answer = refusal(with(words, &[(word, value)]));
                assert_eq!(answer, Some((7, 2)), "{word} {value}");
            }
        }
    }
}

/// The board width is A, the deck rot B: either may be above the other.
#[test]
fn a_may_exceed_b() {
    for (a, b) in [(60, 0), (2, 1), (1, 1), (1, 2), (1, 20)] {
        for words in sound() {
            assert_eq!(refusal(with(words, &[(PART_A, a), (WHOLE_B, b)])), None, "{a} {b}");
        }
    }
}

#[test]
fn kind_species_section_and_unused_fields() {
    let [log, piece] = sound();
    for kind in [0, 8, 7 + 256] {
        assert_eq!(refusal(with(log, &[(KIND, kind)])), Some((4, 2)), "kind {kind}");
    }
    for species in [0, 9] {
        assert_eq!(refusal(with(log, &[(SPECIES, species)])), Some((5, 2)), "{species}");
    }
    for code in [0, 3, 4, 5, 6] {
        assert_eq!(refusal(with(log, &[(SECTION, code)])), Some((6, 2)), "section {code}");
    }
    for unused in [S4, S5, S6] {
        assert_eq!(refusal(with(log, &[(unused, 1)])), Some((8, 2)), "{unused}");
    }
    assert_eq!(refusal(with(piece, &[(S6, 1)])), Some((8, 2)), "lost area");
    let several = [(KIND, 8), (SPECIES, 9), (SECTION, 5), (S6, 1), (SPACING, 29)];
    for (from, number) in [4, 5, 6, 8, 7].into_iter().enumerate() {
        assert_eq!(refusal(with(piece, &several[from..])), Some((number, 2)), "from {from}");
    }
}
