//! Table 2 of the source (VSN 12-73) line by line, through the text form and the exported library.
//! Its middle column, across the grain, is in none of the formulas.

use tbr::form;

/// A species, with its factors for bending and tension and for shear, in tenths. Pine is the wood
/// of table 1 and has no line in table 2.
const LINES: [(&str, u64, u64); 10] = [
    ("pine", 10, 10),
    ("spruce", 10, 10),
    ("larch", 12, 10),
    ("cedar", 9, 9),
    ("fir", 8, 8),
    ("oak", 13, 13),
    ("ash", 13, 16),
    ("maple", 13, 16),
    ("hornbeam", 13, 16),
    ("beech", 11, 13),
];

/// Class 0, n = 1.4; the track is above the joint's spacing, so Kₐ = 1/2.
const VEHICLE: &str = "vehicle, class lorry, track 190 cm\naxle, weight 1 kgf, distance 0 cm";

/// Formula (30) with W = 7 × 60² / 6 = 4200 and no dead load: 1280 × 4200 K / (1.4 × 1000 × 384) × 100
/// is 1000 K.
fn cross_beam(species: &str) -> String {
    format!(
        "cross beam, species {species}, truss spacing 384 cm, panel length 1000 cm, \
         dead load 0 kgf/m, section sawn, width 7 cm, height 60 cm, side rot 0 cm, top rot 0 cm, \
         pieces 1"
    )
}

/// Formula (33) with μ = 1 and no dead load: 22.4 × 100 × 1000 S / (1.4 × 1/2 × 800 × 400) × 100 is
/// 1000 S.
fn keyed_joint(species: &str) -> String {
    format!(
        "keyed joint, species {species}, span 1200 cm, spacing 100 cm, from support 400 cm, \
         truss height 100 cm, dead load 0 kgf/m, joint part 1, chord whole 1, section area, \
         area 1000 cm2, lost area 0 cm2"
    )
}

fn bytes(text: &str) -> Vec<u8> {
    let read = form::read(text.as_bytes()).unwrap_or_else(|faults| panic!("{text}: {faults:?}"));
    read.bytes().expect("a file")
}

#[test]
fn every_line_has_its_two_factors() {
    for (species, bending, shear) in LINES {
        let survey = format!("survey\n{}\n{}", cross_beam(species), keyed_joint(species));
        let loads = tbr::member_loads(&bytes(&survey), &bytes(VEHICLE)).expect("a sound pair");
        let permitted: Vec<u64> = loads.iter().map(|member| member.permitted).collect();
        assert_eq!(permitted, [100 * bending, 100 * shear], "{species}");
    }
}

#[test]
fn every_species_of_the_text_form_has_a_line() {
    assert_eq!(form::ALL_SPECIES.map(|(name, _)| name), LINES.map(|(name, ..)| name));
}
