//! Document 01 and requests 1 to 13 of document 02 in plain Rust, written from the documents alone,
//! and a generator of files.
//!
//! The proved library is tested against it. It tries every position of the vehicle, counts in
//! fractions of 128 bits and is in no hurry; [`twin`] is the same judgement made fast, for the
//! benchmark.

pub mod between;
pub mod convert;
pub mod couple;
pub mod crescent;
pub mod fraction;
pub mod gauge;
pub mod generate;
pub mod influence;
pub mod join;
pub mod judge;
pub mod layout;
pub mod lines;
pub mod permitted;
pub mod reader;
pub mod script;
pub mod section;
pub mod spread;
pub mod twin;
pub mod yard;

pub use between::{between, Between, Bounds, Passing};
pub use convert::convert;
pub use couple::couple;
pub use gauge::{gauge, Deflection, Readings};
pub use join::join;
pub use judge::{judge, Judged, Rated};
pub use reader::{Axle, File, Member, Refused, Vehicle};
pub use yard::{yard, Answer, Yard};
