//! Outside figures: the row of the K-700 tractor in appendix 5 of the source (VSN 12-73), printed
//! equivalent loads in tf/m with the apex at mid-span.

use reference::generate::{survey_bytes, vehicle_bytes, VehicleWords};
use reference::layout::Words;

/// Span in cm, and the printed load in hundredths of tf/m.
const ROW: [(u16, u64); 35] = [
    (200, 770),
    (250, 616),
    (300, 514),
    (350, 440),
    (400, 385),
    (450, 342),
    (500, 308),
    (550, 280),
    (600, 257),
    (650, 245),
    (700, 236),
    (750, 227),
    (800, 218),
    (850, 210),
    (900, 202),
    (950, 194),
    (1000, 187),
    (1100, 175),
    (1200, 164),
    (1300, 154),
    (1400, 145),
    (1500, 137),
    (1600, 130),
    (1700, 123),
    (1800, 117),
    (2000, 107),
    (2200, 98),
    (2400, 91),
    (2600, 85),
    (2800, 79),
    (3000, 74),
    (3200, 69),
    (3600, 63),
    (4000, 57),
    (4400, 52),
];

/// The tractor taken as two axles 310 cm apart.
fn k_700() -> VehicleWords {
    VehicleWords { version: 1, class: 1, track: 190, axles: vec![[4400, 0], [7700, 310]] }
}

/// A stringer of this span; its permitted load does not matter here.
fn stringer(span: u16) -> Words {
    let mut words = [0; 16];
    words[..11].copy_from_slice(&[1, 1, span, 140, 0, 0, 100, 1, 28, 0, 1]);
    words
}

/// Within 0.03 tf/m of the printed figure.
fn near(load: u64, hundredths: u64, span: u16) {
    let printed = 10 * hundredths;
    assert!(load.abs_diff(printed) <= 30, "span {span} cm: {load} kgf/m, printed {printed}");
}

#[test]
fn the_reference_agrees_with_all_35_spans() {
    let survey = survey_bytes(&ROW.map(|(span, _)| stringer(span)));
    let judged = reference::judge(&survey, &vehicle_bytes(&k_700())).expect("a sound pair");
    for (rated, (span, hundredths)) in judged.members.iter().zip(ROW) {
        near(rated.vehicle, hundredths, span);
    }
}

#[test]
fn the_library_agrees_with_all_35_spans() {
    let survey = survey_bytes(&ROW.map(|(span, _)| stringer(span)));
    let members = tbr::member_loads(&survey, &vehicle_bytes(&k_700())).expect("a sound pair");
    assert_eq!(members.len(), ROW.len());
    for (member, (span, hundredths)) in members.iter().zip(ROW) {
        near(member.vehicle, hundredths, span);
    }
}
