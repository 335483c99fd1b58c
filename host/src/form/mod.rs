//! The plain text form of both files: one member or axle a line, every number by name and unit.
//!
//! ```text
//! survey
//! stringer, species pine, span 500 cm, spacing 140 cm, dead load 100 kgf/m, \
//!     section log, diameter 28 cm, rot 0 cm, tiers 1
//! ```
//! (a member is on one line), and
//! ```text
//! vehicle, class lorry, track 190 cm
//! axle, weight 1500 kgf, distance 0 cm
//! axle, weight 3000 kgf, distance 370 cm
//! ```
//! A survey is of version 1 with the heading `survey`, of version 2 with `survey, version 2`. From
//! version 2 on its members stand in one order: by kind, then span or truss spacing, then spacing,
//! each rising, and equals as they come. A vehicle is of version 1 with the heading `vehicle, ..`,
//! of version 2 with `vehicle, version 2, ..`, whose axles may weigh more.
//!
//! `#` opens a comment; blank lines are passed over; the order within a line is free after its
//! first words. A byte order mark, either end of line, any run of blanks and tabs, and a comma at
//! the end of a line are taken as they are meant.

mod error;
mod explain;
mod field;
mod line;
mod look;
mod order;
mod read;
mod tables;
mod write;

pub use error::{FieldFault, Problem, TextError};
pub use explain::{explain, numbers};
pub use field::{Field, Later, Limits, Value, Within};
pub use look::{look, Look};
pub use order::ORDER;
pub use read::read;
pub use tables::{
    AxleLayout, Kind, Layout, Section, ALL_SPECIES, AXLES, FIRST_VERSION, HEADING, KINDS,
    ORDERED_FROM, SECTIONS,
};
pub use write::{clause, kind_of, section_of, write};
