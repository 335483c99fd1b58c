//! The fast twin gives what brute force gives.

use reference::generate::*;
use reference::layout::*;
use reference::{judge, twin};

#[test]
fn the_twin_agrees_with_brute_force() {
    const SEED: u64 = 0x7717;
    let mut random = Random::new(SEED);
    for round in 0..4000 {
        let spread = if round % 2 == 0 { Spread::Wide } else { Spread::Usual };
        let (members, axles) = (1 + random.below(6), 1 + random.below(16));
        let survey = survey_file(&mut random, spread, members);
        let vehicle = vehicle_bytes(&vehicle(&mut random, spread, axles));
        let (fast, slow) = (twin::judge(&survey, &vehicle), judge(&survey, &vehicle));
        assert!(slow.is_ok(), "seed {SEED:#x}, round {round}: {slow:?}");
        assert_eq!(fast, slow, "seed {SEED:#x}, round {round}");
    }
}

/// Every edge of a weight of four bytes, and as much as 16 axles bring.
#[test]
fn the_twin_agrees_on_heavier_axles() {
    let survey = survey_bytes(&full_survey(&mut Random::new(0x771c), Spread::Wide));
    let many = |weight| (0..16).map(|i| [weight, i.min(1)]).collect();
    for axles in HEAVY_EDGES.into_iter().flat_map(|weight| [vec![[weight, 0]], many(weight)]) {
        let vehicle = VehicleWords { version: 2, class: 1, track: 190, axles };
        let vehicle = vehicle_bytes(&vehicle);
        let (fast, slow) = (twin::judge(&survey, &vehicle), judge(&survey, &vehicle));
        assert!(slow.is_ok(), "{slow:?}");
        assert_eq!(fast, slow);
    }
}

/// A stringer of logs that rot from above, of the least span: the figure shows a tenth of a cm³.
fn crescent(diameter: u16, depth: u16, tiers: u16) -> Words {
    let mut words: Words = [0; 16];
    [words[KIND], words[SPECIES], words[SPAN], words[SPACING]] = [1, 1, 100, 140];
    [words[SECTION], words[S1], words[S2], words[S3]] = [5, diameter, depth, tiers];
    words
}

#[test]
fn the_twin_agrees_on_every_crescent() {
    let vehicle =
        vehicle_bytes(&VehicleWords { version: 1, class: 0, track: 190, axles: vec![[1, 0]] });
    for diameter in 14..=36 {
        for tiers in 1..=3 {
            let members: Vec<Words> =
                (0..=60).map(|depth| crescent(diameter, depth, tiers)).collect();
            let survey = survey_bytes(&members);
            let (fast, slow) = (twin::judge(&survey, &vehicle), judge(&survey, &vehicle));
            assert!(slow.is_ok(), "diameter {diameter}: {slow:?}");
            assert_eq!(fast, slow, "diameter {diameter}, {tiers} tiers");
        }
    }
}

/// A yard's judgements are those of each vehicle alone; a faulty yard has its own refusal.
#[test]
fn the_twin_judges_yards() {
    let mut random = Random::new(0x7719);
    for (members, vehicles) in [(1, 32), (3, 5), (MOST_MEMBERS, 4)] {
        let survey = survey_file(&mut random, Spread::Usual, members);
        let vehicles = yard(&mut random, Spread::Usual, vehicles, 4);
        let alone: Vec<_> =
            vehicles.iter().map(|words| judge(&survey, &vehicle_bytes(words)).unwrap()).collect();
        assert_eq!(twin::yard(&survey, &yard_bytes(&vehicles)), Ok(alone));
        for DamagedYard { yard, number, place } in damaged_yards(&mut random) {
            let refused = twin::yard(&survey, &yard).expect_err("a damaged yard");
            assert_eq!((refused.number, refused.place), (number, place));
        }
    }
}

/// A closely spaced log stringer over boards: their count, thickness and width.
fn close_stringer(spacing: u16, [boards, thickness, width]: [u16; 3]) -> Words {
    let mut words: Words = [0; 16];
    [words[KIND], words[SPECIES], words[SPAN], words[SPACING]] = [7, 1, 300, spacing];
    [words[SECTION], words[S1], words[S3]] = [1, 28, 1];
    [words[BOARDS], words[BOARD_THICKNESS], words[BOARD_WIDTH]] = [boards, thickness, width];
    words
}

/// Wheels at every distance over stringers at every spacing, on thin, usual and thick boards, and
/// on so many that seven stringers share at any spacing.
#[test]
fn the_twin_agrees_on_every_track_and_spacing() {
    let decks = [[2, 4, 20], [2, 9, 20], [2, 20, 20], [10, 20, 60]];
    let on = |deck| (30..=100).map(move |spacing| close_stringer(spacing, deck));
    let members: Vec<Words> = decks.into_iter().flat_map(on).collect();
    for track in 100..=300 {
        let vehicle =
            vehicle_bytes(&VehicleWords { version: 1, class: 0, track, axles: vec![[1, 0]] });
        for members in members.chunks(MOST_MEMBERS) {
            let survey = survey_bytes(members);
            let (fast, slow) = (twin::judge(&survey, &vehicle), judge(&survey, &vehicle));
            assert!(slow.is_ok(), "track {track}: {slow:?}");
            assert_eq!(fast, slow, "track {track}");
        }
    }
}

/// Spans on both sides of k = 0.055.
#[test]
fn the_twin_agrees_where_seven_stringers_begin() {
    const SEED: u64 = 0x771a;
    let mut random = Random::new(SEED);
    for round in 0..4000 {
        let Some(words) = at_seven_stringers(&mut random) else { continue };
        let survey = survey_bytes(&[words]);
        let vehicle = vehicle_bytes(&vehicle(&mut random, Spread::Usual, 1));
        let (fast, slow) = (twin::judge(&survey, &vehicle), judge(&survey, &vehicle));
        assert_eq!(fast, slow, "seed {SEED:#x}, round {round}");
    }
}

/// k at a half of a ten-thousandth: 301.5, 724.5 and 3392.5, each of which β shows.
#[test]
fn the_twin_rounds_half_up() {
    let vehicle =
        vehicle_bytes(&VehicleWords { version: 1, class: 0, track: 190, axles: vec![[1, 0]] });
    for (diameter, span, spacing, boards, thickness, width) in
        [(16, 200, 60, 4, 12, 40), (27, 200, 30, 4, 9, 40), (24, 100, 30, 4, 12, 18)]
    {
        let mut words = close_stringer(spacing, [boards, thickness, width]);
        [words[SPAN], words[S1]] = [span, diameter];
        let survey = survey_bytes(&[words]);
        let (fast, slow) = (twin::judge(&survey, &vehicle), judge(&survey, &vehicle));
        assert!(slow.is_ok(), "diameter {diameter}: {slow:?}");
        assert_eq!(fast, slow, "diameter {diameter}");
    }
}

#[test]
fn the_twin_refuses_alike() {
    const SEED: u64 = 0x7718;
    let mut random = Random::new(SEED);
    for round in 0..20_000 {
        let (survey, vehicle) = some_damage(&mut random);
        let (fast, slow) = (twin::judge(&survey, &vehicle), judge(&survey, &vehicle));
        assert_eq!(fast, slow, "seed {SEED:#x}, round {round}");
    }
}

#[test]
fn the_twin_refuses_records_out_of_order_versions_and_lengths() {
    let mut random = Random::new(0x771b);
    let of_files = [misplaced_surveys(&mut random), wrong_versions(&mut random)];
    let of_vehicles = [damaged_vehicles(&mut random), wrong_lengths(&mut random)];
    let of_weight = [wrong_weights(&mut random)];
    for all in of_files.into_iter().chain(of_vehicles).chain(of_weight) {
        for Damaged { survey, vehicle, refusal } in all {
            assert_eq!(twin::judge(&survey, &vehicle), Err(refusal));
        }
    }
}

#[test]
fn the_twin_agrees_at_the_edges() {
    const SEED: u64 = 0x7719;
    let mut random = Random::new(SEED);
    for words in corners() {
        let survey = survey_bytes(&[words]);
        let vehicle = vehicle_bytes(&vehicle(&mut random, Spread::Wide, 2));
        let (fast, slow) = (twin::judge(&survey, &vehicle), judge(&survey, &vehicle));
        assert_eq!(fast, slow, "seed {SEED:#x}, {words:?}");
    }
}
