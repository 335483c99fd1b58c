//! Closely spaced stringers: the stiffness number at its edges, the spread over three, five and
//! seven stringers, wheels near and far apart, and the refusals that the ranges alone do not bring.

use crate::records::*;
use crate::survey_faults::Turn;
use reference::generate::VehicleWords;
use reference::layout::*;
use reference::script::Script;

/// A log stringer over boards: diameter, rot and tiers; span and spacing; count, thickness and
/// width of the boards and their rot. Pine, no dead load.
fn logs(section: [u16; 3], [span, spacing]: [u16; 2], deck: [u16; 4]) -> Words {
    let [diameter, rot, tiers] = section;
    let record = with(usual(7, 1), &[(SPAN, span), (SPACING, spacing), (DEAD_LOAD, 0)]);
    on_boards(with(record, &[(S1, diameter), (S2, rot), (S3, tiers)]), deck)
}

/// The same of one sawn piece: width, height, side rot and top rot.
fn sawn(section: [u16; 4], [span, spacing]: [u16; 2], deck: [u16; 4]) -> Words {
    let [width, height, side_rot, top_rot] = section;
    let record = with(usual(7, 2), &[(SPAN, span), (SPACING, spacing), (DEAD_LOAD, 0), (S5, 1)]);
    let piece = [(S1, width), (S2, height), (S3, side_rot), (S4, top_rot)];
    on_boards(with(record, &piece), deck)
}

fn on_boards(record: Words, [count, thickness, width, rot]: [u16; 4]) -> Words {
    let deck = [(BOARDS, count), (BOARD_THICKNESS, thickness), (BOARD_WIDTH, width)];
    with(with(record, &deck), &[(DECK_ROT, rot)])
}

/// Deck rot 9, then 10, and nothing else: the second bears more, 2653 and 2678.
fn deck_rot() -> Vec<Words> {
    let beech = |rot| {
        with(logs([31, 7, 3], [1009, 89], [3, 15, 44, rot]), &[(SPECIES, 8), (DEAD_LOAD, 100)])
    };
    vec![beech(9), beech(10)]
}

/// k in ten-thousandths at a half, on both sides of 1/3 and of the greatest, and beyond it.
fn stiffness() -> Vec<Words> {
    vec![
        // 301.5 and 3392.5.
        logs([16, 0, 1], [200, 60], [4, 12, 40, 0]),
        logs([24, 0, 1], [100, 30], [4, 12, 18, 0]),
        // 3332.6, 3333.46, 3333.6: the last is 1/3 or more.
        logs([32, 0, 1], [325, 60], [2, 14, 17, 0]),
        logs([20, 0, 1], [210, 60], [2, 13, 12, 0]),
        logs([37, 0, 1], [295, 60], [3, 12, 43, 0]),
        // 99998.9, 100008.5, 113700.
        logs([38, 0, 1], [170, 60], [4, 6, 50, 0]),
        logs([35, 0, 1], [130, 80], [3, 13, 25, 0]),
        logs([13, 0, 1], [100, 30], [1, 4, 5, 0]),
        // Far beyond the greatest, 0.54 and 0.29: 1 and 0 are kept.
        sawn([60, 60, 0, 0], [100, 100], [1, 1, 1, 0]),
        logs([39, 0, 3], [5000, 30], [1, 13, 60, 0]),
        logs([39, 0, 3], [5000, 30], [1, 16, 60, 0]),
    ]
}

/// k in ten-thousandths on both sides of 550, below which seven stringers share, and at 0.
fn seven_stringers() -> Vec<Words> {
    vec![
        // 548.4996 and 548.5003: 548 and 549 are kept.
        logs([22, 0, 3], [500, 90], [1, 20, 44, 0]),
        logs([23, 0, 1], [220, 50], [9, 9, 43, 0]),
        // 549.4989, 549.5 and 549.5001: 549, and twice 550.
        logs([20, 0, 2], [300, 60], [7, 9, 43, 0]),
        logs([20, 0, 2], [400, 70], [3, 10, 49, 0]),
        logs([19, 0, 1], [490, 90], [1, 11, 52, 0]),
        // 550 with sound boards, and with as much left of thicker ones.
        sawn([11, 30, 0, 0], [200, 50], [4, 15, 50, 0]),
        sawn([11, 30, 0, 0], [200, 50], [4, 19, 50, 4]),
        // 0.5 and 0.49: 1 and 0 are kept.
        sawn([50, 60, 0, 0], [3000, 30], [4, 20, 54, 0]),
        sawn([50, 60, 0, 0], [3000, 30], [4, 20, 55, 0]),
    ]
}

/// k = 0.0025, 0.025 and 0.05 at spacings that put the wheels one to ten stringers apart, over a
/// stringer and between two.
fn over_seven() -> Vec<Words> {
    let of = |pieces| {
        [30, 37, 50, 60, 75, 100].map(|spacing| {
            let piece = sawn([12, 20, 0, 0], [4 * spacing, spacing], [10, 20, 60, 0]);
            with(piece, &[(S5, pieces)])
        })
    };
    [1, 10, 20].into_iter().flat_map(of).collect()
}

/// The deck's rot alone grows, from seven stringers over five to three; then the stringer's, from
/// five to seven.
fn from_seven_to_three() -> Vec<Words> {
    let log = |rot, deck_rot| logs([28, rot, 1], [500, 60], [6, 10, 30, deck_rot]);
    let deck = (0..=6).map(|deck_rot| log(0, deck_rot));
    deck.chain((1..=3).map(|rot| log(rot, 3))).collect()
}

/// Nothing left of the boards, of the stringer, of both; a little of the boards; A below B.
fn nothing_left() -> Vec<Words> {
    let log = |rot, deck| logs([28, rot, 1], [300, 60], deck);
    vec![
        log(0, [10, 10, 60, 8]),
        log(0, [2, 10, 20, 10]),
        log(0, [2, 10, 20, 11]),
        log(0, [2, 1, 1, 20]),
        log(8, [2, 10, 20, 0]),
        log(8, [2, 10, 20, 10]),
        logs([28, 8, 2], [300, 60], [2, 10, 20, 10]),
        sawn([20, 25, 20, 0], [300, 60], [2, 10, 20, 2]),
        sawn([20, 25, 0, 25], [300, 60], [2, 10, 20, 2]),
        sawn([20, 25, 0, 0], [300, 60], [2, 20, 3, 8]),
    ]
}

/// Logs in tiers and sawn pieces, sound and decayed, on boards that spread over seven stringers,
/// over five and over three, at the least, a usual and the greatest spacing.
fn sections() -> Vec<Words> {
    let on = |spacing, deck| {
        let logs = [1, 2, 3].map(|tiers| logs([26, 3, tiers], [400, spacing], deck));
        let sawn = [[18, 24, 0, 0], [18, 24, 3, 5]].map(|size| sawn(size, [400, spacing], deck));
        logs.into_iter().chain(sawn)
    };
    on(30, [3, 12, 20, 1]).chain(on(60, [2, 10, 20, 4])).chain(on(100, [2, 6, 15, 2])).collect()
}

fn figures(script: &mut Script) {
    let tracks = [100, 150, 210, 225, 299, 300];
    let surveys = [
        ("deck rot 9 and 10", deck_rot(), vec![(0, 190)]),
        ("the stiffness number", stiffness(), vec![(0, 190), (1, 130)]),
        ("nothing left", nothing_left(), vec![(0, 100)]),
        ("sections and spacings", sections(), vec![(0, 100), (1, 213), (1, 300)]),
        ("seven of them below 0.055", seven_stringers(), vec![(0, 190), (1, 300)]),
        ("wheels over seven of them", over_seven(), tracks.map(|track| (0, track)).into()),
        ("rot that changes the spread", from_seven_to_three(), vec![(0, 190)]),
    ];
    script.start();
    for (title, members, vehicles) in surveys {
        script.title(&format!("closely spaced stringers, {title}"));
        script.survey(&survey_of(&members));
        for (class, track) in vehicles {
            script.vehicle(&vehicle_of(&VehicleWords { class, track, ..case_l() }));
            script.all(members.len());
        }
    }
}

/// Several faults in one record, and what is right in another kind only.
fn refusals(turn: &mut Turn) {
    let (log, sawn) = (usual(7, 1), usual(7, 2));
    for (title, record) in [
        ("4 before all", with(sawn, &[(KIND, 8), (SPECIES, 0), (SECTION, 5), (S6, 1)])),
        ("5 before 6", with(log, &[(SPECIES, 0), (SECTION, 5), (SPACING, 29)])),
        ("6 before 8 and 7", with(log, &[(SECTION, 5), (S4, 1), (SPACING, 29)])),
        ("lost area before a range", with(sawn, &[(S6, 1), (BOARDS, 11)])),
        ("the spacing of a stringer", with(log, &[(SPACING, 140)])),
        ("a stringer with boards", with(usual(1, 1), &[(BOARDS, 2), (BOARD_WIDTH, 20)])),
        ("a joint with A above B", with(usual(5, 4), &[(PART_A, 20), (WHOLE_B, 1)])),
    ] {
        turn.refuse(&format!("closely spaced stringers, {title}"), record);
    }
}

pub fn cases(script: &mut Script) {
    figures(script);
    refusals(&mut Turn { script, place: 0 });
}
