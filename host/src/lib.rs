//! Timber bridge rating after VSN 12-73: a safe wrapper over the proved judgement.
//!
//! [`judge`] takes the bytes of a survey file and a vehicle file and gives the bridge's figure,
//! which is the least permitted load, the governing member, which is the one with the least margin,
//! and the verdict, or the refusal of a file; [`member_loads`] gives the two loads of every member,
//! and [`judge_yard`] judges up to 32 vehicles, joined to a yard by [`file::join_yard`]. Each is a
//! call of the proved library; no load is worked out here, and a margin is the difference of two. A
//! survey has 1 to 255 members, a vehicle 1 to 16 axles. Surveys and vehicles are of version 1 or 2:
//! in version 2 the members of a survey stand in one order, and the axles of a vehicle may weigh more
//! than 60,000 kgf, up to 200,000.
//!
//! ```
//! let survey = include_bytes!("../../samples/case-a.tbr");
//! let vehicle = include_bytes!("../../samples/case-l.tbv");
//! let judgement = tbr::judge(survey, vehicle).expect("both files are sound");
//! assert_eq!((judgement.figure, judgement.governing, judgement.passes), (1720, 1, true));
//! ```
//!
//! Beside them: [`form`], the files as plain text and back.

#![warn(missing_docs)]

pub mod file;
pub mod form;

mod judge;
mod refusal;
mod yard;

pub use judge::{check_survey, check_vehicle, judge, member_loads, Judgement, MemberLoads};
pub use refusal::{CouplingRefusal, GaugeRefusal, Refusal, Which, YardRefusal};
pub use yard::{check_yard, judge_yard, YardJudgement};
