//! Records of every kind and section with usual numbers, and their files.

pub use reference::generate::{survey_bytes as survey_of, vehicle_bytes as vehicle_of};
use reference::generate::{AxleWords, VehicleWords};
use reference::layout::*;

/// Every kind with each of its sections.
pub fn kinds() -> impl Iterator<Item = (u16, u16)> {
    (1..=LAST_KIND).flat_map(|kind| sections(kind).iter().map(move |&code| (kind, code)))
}

/// Is this a section's word with the first kind that has the section, or a kind's with its first
/// section? So each is met once.
pub fn is_first(kind: u16, code: u16, word: usize) -> bool {
    if (S1..=S6).contains(&word) {
        kinds().find(|&(_, other)| other == code) == Some((kind, code))
    } else {
        sections(kind)[0] == code
    }
}

fn usual_number(kind: u16, code: u16, word: usize) -> u16 {
    match (word, code) {
        (SPACING, _) if kind == CLOSE_STRINGER => 60,
        (BOARDS, _) if kind == CLOSE_STRINGER => 2,
        (BOARD_THICKNESS, _) if kind == CLOSE_STRINGER => 10,
        (BOARD_WIDTH, _) if kind == CLOSE_STRINGER => 20,
        (DECK_ROT, _) if kind == CLOSE_STRINGER => 1,
        (SPAN, _) => 600,
        (SPACING, _) => 150,
        (FROM_SUPPORT | DEAD_LOAD, _) => 200,
        (TRUSS_HEIGHT, _) => 150,
        (PART_A, _) => 3,
        (WHOLE_B, _) => 4,
        (_, 1) => [30, 1, 2][word - S1],
        (_, 2) => [20, 25, 1, 2, 4, 50][word - S1],
        (_, 3) => [1, 16, 10, 6, 1, 20][word - S1],
        (_, 5) => [30, 4, 2][word - S1],
        _ => [400, 20][word - S1],
    }
}

/// A record of this kind and section with usual numbers.
pub fn usual(kind: u16, code: u16) -> Words {
    let mut words: Words = [0; 16];
    [words[KIND], words[SECTION], words[SPECIES]] = [kind, code, u16::from(has_species(kind))];
    for &(word, _, _) in used(kind, code) {
        words[word] = usual_number(kind, code, word);
    }
    words
}

/// The record with some words changed.
pub fn with(mut words: Words, changes: &[(usize, u16)]) -> Words {
    changes.iter().for_each(|&(word, value)| words[word] = value);
    words
}

/// Three sound members of different kinds.
pub fn three() -> Vec<Words> {
    vec![usual(1, 1), usual(4, 3), usual(6, 4)]
}

/// So many members, all kinds and sections in turn.
pub fn in_turn(count: usize) -> Vec<Words> {
    let all: Vec<Words> = kinds().map(|(kind, code)| usual(kind, code)).collect();
    all.into_iter().cycle().take(count).collect()
}

/// Case A with this rot: 1720, 1343, 64 and 0 kgf/m for rot 0, 1, 7 and 8.
pub fn stringer(rot: u16) -> Words {
    with(
        [0; 16],
        &[
            (KIND, 1),
            (SPECIES, 1),
            (SPAN, 500),
            (SPACING, 140),
            (DEAD_LOAD, 100),
            (SECTION, 1),
            (S1, 28),
            (S2, rot),
            (S3, 1),
        ],
    )
}

/// Case E: 6084 kgf/m.
pub fn chord() -> Words {
    let words = with([0; 16], &[(KIND, 3), (SPECIES, 1), (SPAN, 1000), (SPACING, 500)]);
    let words = with(words, &[(FROM_SUPPORT, 200), (TRUSS_HEIGHT, 150), (DEAD_LOAD, 500)]);
    with(words, &[(SECTION, 2), (S1, 5), (S2, 20), (S5, 4)])
}

/// Case F: 1939 kgf/m.
pub fn cross_beam() -> Words {
    let words = with([0; 16], &[(KIND, 2), (SPECIES, 1), (SPAN, 300), (FROM_SUPPORT, 200)]);
    with(words, &[(DEAD_LOAD, 100), (SECTION, 1), (S1, 24), (S3, 1)])
}

/// So many axles of this weight, so far apart.
pub fn row(count: usize, weight: u32, apart: u32) -> Vec<AxleWords> {
    (0..count).map(|i| [weight, if i == 0 { 0 } else { apart }]).collect()
}

/// Class 0, track 190, these axles: weight and distance from the axle in front.
pub fn lorry(axles: &[AxleWords]) -> VehicleWords {
    VehicleWords { version: LIGHT_AXLES, class: 0, track: 190, axles: axles.to_vec() }
}

/// The vehicle of case L.
pub fn case_l() -> VehicleWords {
    lorry(&[[1500, 0], [3000, 370]])
}

/// A file with one byte changed.
pub fn with_byte(bytes: &[u8], at: usize, byte: u8) -> Vec<u8> {
    let mut bytes = bytes.to_vec();
    bytes[at] = byte;
    bytes
}
