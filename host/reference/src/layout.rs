//! The survey record: sixteen words, and for each kind and section which of them are used, within
//! which limits, and which of them wear. What is used by neither is 0. And the versions of both
//! files, and a survey's bytes.

use crate::crescent;

/// Words of a record by place.
pub const KIND: usize = 0;
pub const SPECIES: usize = 1;
pub const SPAN: usize = 2;
pub const SPACING: usize = 3;
pub const FROM_SUPPORT: usize = 4;
pub const TRUSS_HEIGHT: usize = 5;
pub const DEAD_LOAD: usize = 6;
pub const SECTION: usize = 7;
pub const S1: usize = 8;
pub const S2: usize = 9;
pub const S3: usize = 10;
pub const S4: usize = 11;
pub const S5: usize = 12;
pub const S6: usize = 13;
pub const PART_A: usize = 14;
pub const WHOLE_B: usize = 15;

/// Words of a closely spaced stringer that have a meaning of their own: its deck.
pub const BOARDS: usize = FROM_SUPPORT;
pub const BOARD_THICKNESS: usize = TRUSS_HEIGHT;
pub const BOARD_WIDTH: usize = PART_A;
pub const DECK_ROT: usize = WHOLE_B;

/// The kinds are 1 to this one.
pub const LAST_KIND: u16 = 7;
/// The kind of closely spaced stringers.
pub const CLOSE_STRINGER: u16 = 7;

/// The most members of a survey, which is all that its count of one byte holds.
pub const MOST_MEMBERS: usize = 255;

/// The survey's version 1: its records stand as they come.
pub const FREE_ORDER: u16 = 1;
/// Version 2: its records stand in one order.
pub const IN_ORDER: u16 = 2;

/// The vehicle's version 1: a weight in two bytes, up to [`HEAVIEST_LIGHT`].
pub const LIGHT_AXLES: u16 = 1;
/// Version 2: "Vehicle version 2 stores a weight in four bytes, 1..200000."
pub const HEAVY_AXLES: u16 = 2;

/// The most axles of a vehicle.
pub const MOST_AXLES: usize = 16;

/// The greatest weight of an axle in version 1, kgf.
pub const HEAVIEST_LIGHT: u16 = 60_000;

/// The greatest weight of an axle, kgf, in this version of a vehicle.
pub fn heaviest(version: u16) -> u32 {
    match version {
        HEAVY_AXLES => 200_000,
        _ => HEAVIEST_LIGHT.into(),
    }
}

/// The bytes of an axle in this version: its weight, then a distance of two.
pub fn axle_bytes(version: u16) -> usize {
    match version {
        HEAVY_AXLES => 4 + 2,
        _ => 2 + 2,
    }
}

/// The words of one record.
pub type Words = [u16; 16];

/// A used number: its word, its least and its greatest value.
pub type Limit = (usize, u16, u16);

const L: Limit = (SPAN, 100, 5000);
const D: Limit = (SPACING, 10, 1000);
const X: Limit = (FROM_SUPPORT, 1, 4999);
const PANEL: Limit = (FROM_SUPPORT, 10, 1000);
const H: Limit = (TRUSS_HEIGHT, 10, 500);
const Q: Limit = (DEAD_LOAD, 0, 10000);
const A: Limit = (PART_A, 1, 1000);
const B: Limit = (WHOLE_B, 1, 1000);

/// Spacing and deck of closely spaced stringers.
const CLOSE: [Limit; 5] = [
    (SPACING, 30, 100),
    (BOARDS, 1, 10),
    (BOARD_THICKNESS, 1, 20),
    (BOARD_WIDTH, 1, 60),
    (DECK_ROT, 0, 20),
];

/// The used numbers of a kind. Beside these limits x is below l in a truss, and A at most B in a
/// joint.
pub fn of_kind(kind: u16) -> &'static [Limit] {
    match kind {
        1 => &[L, D, Q],
        2 => &[L, PANEL, Q],
        3 => &[L, D, X, H, Q],
        4..=6 => &[L, D, X, H, Q, A, B],
        CLOSE_STRINGER => &[L, CLOSE[0], CLOSE[1], CLOSE[2], Q, CLOSE[3], CLOSE[4]],
        _ => &[],
    }
}

/// Stringers and cross beams: they are bent, and lose no area.
pub fn in_bending(kind: u16) -> bool {
    matches!(kind, 1 | 2 | CLOSE_STRINGER)
}

/// Chords and joints of a truss: x is a distance from the support, below the span.
pub fn in_truss(kind: u16) -> bool {
    matches!(kind, 3..=6)
}

/// Joints: A is a part of B.
pub fn is_joint(kind: u16) -> bool {
    matches!(kind, 4..=6)
}

/// The used numbers of a section; the lost area of a sawn one is unused in bending.
pub fn of_section(kind: u16, code: u16) -> &'static [Limit] {
    const SAWN: [Limit; 6] =
        [(S1, 1, 60), (S2, 1, 60), (S3, 0, 60), (S4, 0, 60), (S5, 1, 40), (S6, 0, 10000)];
    const DOWELS: [Limit; 6] =
        [(S1, 1, 3), (S2, 1, 60), (S3, 1, 60), (S4, 1, 60), (S5, 0, 60), (S6, 1, 200)];
    match code {
        1 => &[(S1, 13, 39), (S2, 0, 60), (S3, 1, 3)],
        2 if in_bending(kind) => SAWN.split_at(5).0,
        2 => &SAWN,
        3 => &DOWELS,
        4 => &[(S1, 1, 10000), (S2, 0, 10000)],
        5 => &[(S1, crescent::LEAST, crescent::GREATEST), (S2, 0, 60), (S3, 1, 3)],
        _ => &[],
    }
}

/// The section codes that suit a kind.
pub fn sections(kind: u16) -> &'static [u16] {
    match kind {
        1 | 2 => &[1, 2, 5],
        3 => &[2],
        4 => &[3],
        5 | 6 => &[4],
        CLOSE_STRINGER => &[1, 2],
        _ => &[],
    }
}

/// All but steel plates have a species.
pub fn has_species(kind: u16) -> bool {
    kind != 6
}

/// Every used number of a kind with a section.
pub fn used(kind: u16, code: u16) -> impl Iterator<Item = &'static Limit> {
    of_kind(kind).iter().chain(of_section(kind, code))
}

/// The words that may be other than 0, a bit each.
pub fn used_words(kind: u16, code: u16) -> u16 {
    let species = u16::from(has_species(kind)) << SPECIES;
    used(kind, code).fold(1 << KIND | 1 << SECTION | species, |all, limit| all | 1 << limit.0)
}

/// Rot, that of a deck included.
pub fn is_rot(words: &Words, word: usize) -> bool {
    match words[SECTION] {
        _ if words[KIND] == CLOSE_STRINGER && word == DECK_ROT => true,
        1 | 5 => word == S2,
        2 => word == S3 || word == S4,
        3 => word == S5,
        _ => false,
    }
}

/// Numbers that grow as a member wears: rot, lost area and dead load.
pub fn wears(words: &Words, word: usize) -> bool {
    let lost_area = match words[SECTION] {
        2 => word == S6,
        4 => word == S2,
        _ => false,
    };
    lost_area || word == DEAD_LOAD || is_rot(words, word)
}

/// The file of these records in this version, as they stand.
pub fn survey_bytes_of(version: u16, records: &[Words]) -> Vec<u8> {
    let mut bytes = b"TBR".to_vec();
    bytes.extend(version.to_le_bytes());
    bytes.push(u8::try_from(records.len()).expect("a count of one byte"));
    bytes.extend(records.iter().flatten().flat_map(|word| word.to_le_bytes()));
    bytes
}

/// Where a record stands: "by kind, then span, then spacing, each rising". A cross beam's spacing
/// is 0.
pub fn standing(words: &Words) -> [u16; 3] {
    [words[KIND], words[SPAN], words[SPACING]]
}
