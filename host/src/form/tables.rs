//! The one place for what the files may hold: marks, versions and counts, the fields of each kind
//! of member, of each section and of a vehicle, with their limits.

use super::field::{limited, number, words, Field, Later, Limits, Within};
use crate::refusal::Which;

/// What a file opens with, and its records.
#[derive(Debug)]
pub struct Layout {
    /// The three letters.
    pub mark: &'static [u8; 3],
    /// The last version that is taken, from [`FIRST_VERSION`] on.
    pub last_version: u16,
    /// What a record is called.
    pub record: &'static str,
    /// So many records it holds.
    pub most: usize,
}

impl Which {
    /// The layout of this file.
    pub fn layout(self) -> &'static Layout {
        match self {
            Which::Survey => &SURVEY,
            Which::Vehicle => &VEHICLE,
        }
    }
}

/// The first version of either file.
pub const FIRST_VERSION: u16 = 1;
/// From this version on the members of a survey stand in one order.
pub const ORDERED_FROM: u16 = 2;

const SURVEY: Layout =
    Layout { mark: b"TBR", last_version: ORDERED_FROM, record: "member", most: 255 };
const VEHICLE: Layout =
    Layout { mark: b"TBV", last_version: HEAVY.version, record: "axle", most: 16 };

impl Layout {
    /// The version in the heading of the text form; one without it is of the first version.
    pub fn version(&self) -> Field {
        number("version", 0, FIRST_VERSION.into(), self.last_version.into(), "")
    }
}

/// A kind of member: its term, its number, and its fields, the section's own excepted.
#[derive(Debug)]
pub struct Kind {
    /// The field's term for such a member.
    pub name: &'static str,
    /// Its number in the file.
    pub code: u16,
    /// A beam in bending has no lost area.
    pub in_bending: bool,
    /// Its fields, in the order in which they are written; the section is the last.
    pub fields: &'static [Field],
}

/// A section: its term, its code and its fields.
#[derive(Debug)]
pub struct Section {
    /// Its term.
    pub name: &'static str,
    /// Its code in the file.
    pub code: u16,
    /// Its fields, in the order in which they are written.
    pub fields: &'static [Field],
}

/// The words of a member by the letters of the layout.
pub const MEMBER_LETTERS: [&str; 16] = [
    "kind", "species", "l", "d", "x", "h", "q", "section", "s1", "s2", "s3", "s4", "s5", "s6", "A",
    "B",
];
/// The word of the kind.
pub const KIND_WORD: usize = 0;
/// The word of the species.
pub const SPECIES_WORD: usize = 1;
/// The word of the span, which is the truss spacing of a cross beam.
pub const SPAN_WORD: usize = 2;
/// The word of the spacing.
pub const SPACING_WORD: usize = 3;
/// The word of the section code.
pub const SECTION_WORD: usize = 7;

/// The species, each with its number.
pub const ALL_SPECIES: [(&str, u16); 10] = [
    ("pine", 1),
    ("spruce", 2),
    ("larch", 3),
    ("cedar", 4),
    ("fir", 5),
    ("oak", 6),
    ("ash", 7),
    ("maple", 7),
    ("hornbeam", 7),
    ("beech", 8),
];
const SPECIES: Field = words("species", SPECIES_WORD, &ALL_SPECIES);
const SPAN: Field = number("span", SPAN_WORD, 100, 5000, "cm");
const TRUSS_SPACING: Field = number("truss spacing", SPAN_WORD, 100, 5000, "cm");
const SPACING: Field = number("spacing", SPACING_WORD, 10, 1000, "cm");
const FROM_SUPPORT: Field = number("from support", 4, 1, 4999, "cm").within(Within::Below(&SPAN));
const PANEL: Field = number("panel length", 4, 10, 1000, "cm");
const TRUSS_HEIGHT: Field = number("truss height", 5, 10, 500, "cm");
const DEAD_LOAD: Field = number("dead load", 6, 0, 10000, "kgf/m");
/// A and B: the joint carries the part A of the whole B of the chord's force.
const JOINT_PART: Field =
    number("joint part", 14, 1, 1000, "").within(Within::AtMost(&CHORD_WHOLE));
const CHORD_WHOLE: Field = number("chord whole", 15, 1, 1000, "");

/// The stringers under a deck that spreads a wheel's load, and the boards of the deck.
const CLOSE_SPACING: Field = number("spacing", SPACING_WORD, 30, 100, "cm");
const BOARDS: Field = number("boards", 4, 1, 10, "");
const BOARD_THICKNESS: Field = number("board thickness", 5, 1, 20, "cm");
const BOARD_WIDTH: Field = number("board width", 14, 1, 60, "cm");
const DECK_ROT: Field = number("deck rot", 15, 0, 20, "cm");

const IN_BENDING: Field =
    words("section", SECTION_WORD, &[("log", 1), ("sawn", 2), ("crescent", 5)]);
const OF_CLOSE_STRINGER: Field = words("section", SECTION_WORD, &[("log", 1), ("sawn", 2)]);
const OF_CHORD: Field = words("section", SECTION_WORD, &[("sawn", 2)]);
const OF_DOWELS: Field = words("section", SECTION_WORD, &[("dowels", 3)]);
const OF_AREA: Field = words("section", SECTION_WORD, &[("area", 4)]);

/// The fields of a joint with this section. Species first: steel plates are without it.
const fn joint(section: Field) -> [Field; 9] {
    [
        SPECIES,
        SPAN,
        SPACING,
        FROM_SUPPORT,
        TRUSS_HEIGHT,
        DEAD_LOAD,
        JOINT_PART,
        CHORD_WHOLE,
        section,
    ]
}
const JOINT_IN_DOWELS: [Field; 9] = joint(OF_DOWELS);
const JOINT_IN_AREA: [Field; 9] = joint(OF_AREA);

/// The seven kinds by number.
pub static KINDS: [Kind; 7] = [
    Kind {
        name: "stringer",
        code: 1,
        in_bending: true,
        fields: &[SPECIES, SPAN, SPACING, DEAD_LOAD, IN_BENDING],
    },
    Kind {
        name: "cross beam",
        code: 2,
        in_bending: true,
        fields: &[SPECIES, TRUSS_SPACING, PANEL, DEAD_LOAD, IN_BENDING],
    },
    Kind {
        name: "chord",
        code: 3,
        in_bending: false,
        fields: &[SPECIES, SPAN, SPACING, FROM_SUPPORT, TRUSS_HEIGHT, DEAD_LOAD, OF_CHORD],
    },
    Kind { name: "dowelled joint", code: 4, in_bending: false, fields: &JOINT_IN_DOWELS },
    Kind { name: "keyed joint", code: 5, in_bending: false, fields: &JOINT_IN_AREA },
    Kind { name: "steel plates", code: 6, in_bending: false, fields: JOINT_IN_AREA.split_at(1).1 },
    Kind {
        name: "close stringer",
        code: 7,
        in_bending: true,
        fields: &[
            SPECIES,
            SPAN,
            CLOSE_SPACING,
            BOARDS,
            BOARD_THICKNESS,
            BOARD_WIDTH,
            DECK_ROT,
            DEAD_LOAD,
            OF_CLOSE_STRINGER,
        ],
    },
];

const TIERS: Field = number("tiers", 10, 1, 3, "");
const LOG: [Field; 3] = [number("diameter", 8, 13, 39, "cm"), number("rot", 9, 0, 60, "cm"), TIERS];
/// A log that rots from above; only these diameters have a row in appendix 3.
const CRESCENT: [Field; 3] =
    [number("diameter", 8, 14, 36, "cm"), number("depth", 9, 0, 60, "cm"), TIERS];
/// Lost area last: a beam in bending has none.
const SAWN: [Field; 6] = [
    number("width", 8, 1, 60, "cm"),
    number("height", 9, 1, 60, "cm"),
    number("side rot", 10, 0, 60, "cm"),
    number("top rot", 11, 0, 60, "cm"),
    number("pieces", 12, 1, 40, ""),
    number("lost area", 13, 0, 10000, "cm2"),
];
const DOWELS: [Field; 6] = [
    words("type", 8, &[("steel", 1), ("nail", 2), ("oak", 3)]),
    number("diameter", 9, 1, 60, "mm"),
    number("middle thickness", 10, 1, 60, "cm"),
    number("outer thickness", 11, 1, 60, "cm"),
    number("rot", 12, 0, 60, "cm"),
    number("cuts", 13, 1, 200, ""),
];
const AREA: [Field; 2] =
    [number("area", 8, 1, 10000, "cm2"), number("lost area", 9, 0, 10000, "cm2")];

/// The five sections by code.
pub static SECTIONS: [Section; 5] = [
    Section { name: "log", code: 1, fields: &LOG },
    Section { name: "sawn", code: 2, fields: &SAWN },
    Section { name: "dowels", code: 3, fields: &DOWELS },
    Section { name: "area", code: 4, fields: &AREA },
    Section { name: "crescent", code: 5, fields: &CRESCENT },
];

impl Kind {
    /// The kind of this number.
    pub fn of(code: u16) -> Option<&'static Kind> {
        KINDS.iter().find(|kind| kind.code == code)
    }

    /// Its field of this word.
    pub fn field(&self, word: usize) -> Option<&'static Field> {
        self.fields.iter().find(|field| field.word == word)
    }

    /// The field of its section.
    pub fn section(&self) -> Option<&'static Field> {
        self.field(SECTION_WORD)
    }
}

impl Section {
    /// The section of this code.
    pub fn of(code: u16) -> Option<&'static Section> {
        SECTIONS.iter().find(|section| section.code == code)
    }

    /// The section's fields in a member of this kind.
    pub fn fields_in(&self, kind: &Kind) -> &'static [Field] {
        match self.code {
            2 if kind.in_bending => SAWN.split_at(5).0,
            _ => self.fields,
        }
    }
}

/// Class and track of a vehicle.
pub const HEADING: [Field; 2] = [
    words("class", 0, &[("lorry", 0), ("tractor", 1), ("trailer", 1)]),
    number("track", 1, 100, 300, "cm"),
];

/// An axle in one version of a vehicle file.
#[derive(Debug)]
pub struct AxleLayout {
    /// The version.
    pub version: u16,
    /// The bytes of a weight; a distance has two.
    pub weight_bytes: usize,
    /// The limits of a weight.
    pub weight: Limits,
    /// The fields of the first axle: it has no axle in front.
    pub first: [Field; 2],
    /// Those of the others: the distance is from the axle in front.
    pub other: [Field; 2],
}

/// An axle whose weight has so many bytes.
const fn axle(version: u16, weight_bytes: usize, weight: Limits) -> AxleLayout {
    let field = limited("weight", 0, weight);
    AxleLayout {
        version,
        weight_bytes,
        weight,
        first: [field, number("distance", 1, 0, 0, "cm")],
        other: [field, number("distance", 1, 1, 2000, "cm")],
    }
}

const HEAVY_WEIGHT: Limits = Limits { least: 1, greatest: 200_000, unit: "kgf", later: None };
const LIGHT_WEIGHT: Limits = Limits {
    greatest: 60_000,
    later: Some(Later { version: HEAVY.version, greatest: HEAVY_WEIGHT.greatest }),
    ..HEAVY_WEIGHT
};
const HEAVY: AxleLayout = axle(2, 4, HEAVY_WEIGHT);
const LIGHT: AxleLayout = axle(FIRST_VERSION, 2, LIGHT_WEIGHT);

/// The axles of a vehicle by version.
pub static AXLES: [AxleLayout; 2] = [LIGHT, HEAVY];

impl AxleLayout {
    /// The axles of this version. A version that no vehicle has is read as the first.
    pub fn of(version: u16) -> &'static AxleLayout {
        AXLES.iter().find(|axle| axle.version == version).unwrap_or(&AXLES[0])
    }

    /// The bytes of an axle: weight and distance.
    pub fn bytes(&self) -> usize {
        self.weight_bytes + 2
    }

    /// The fields of the axle at this place, from 1.
    pub fn fields(&self, place: usize) -> &[Field; 2] {
        if place == 1 {
            &self.first
        } else {
            &self.other
        }
    }
}
