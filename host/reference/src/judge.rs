//! The judgement of a bridge from the bytes of both files.

use crate::influence::vehicle_load;
use crate::permitted::permitted_load;
use crate::reader::{self, Member, Refused, Vehicle};

/// A member's two loads, kgf/m.
#[derive(Clone, Copy, Debug, PartialEq, Eq)]
pub struct Rated {
    pub permitted: u64,
    pub vehicle: u64,
}

impl Rated {
    /// A member passes when its vehicle load is at most its permitted load.
    pub fn passes(self) -> bool {
        self.vehicle <= self.permitted
    }

    /// "A member's margin is its permitted load minus its vehicle load, and it may be negative."
    pub fn margin(self) -> i64 {
        let margin = self.permitted.checked_signed_diff(self.vehicle);
        margin.expect("the ranges of the files keep both loads below 2^63")
    }
}

/// Figure, governing place and verdict of a bridge, the governing member's margin, and all members'
/// loads.
#[derive(Clone, Debug, PartialEq, Eq)]
pub struct Judged {
    pub figure: u64,
    pub governing: u64,
    pub passes: bool,
    pub margin: i64,
    pub members: Vec<Rated>,
}

/// "The governing member becomes the one with the least margin, the first on a tie": its place and
/// margin. Of equal ones `min_by_key` takes the first.
fn governing(members: &[Rated]) -> (u64, i64) {
    let margins = members.iter().zip(1..).map(|(rated, place)| (place, rated.margin()));
    margins.min_by_key(|&(_, margin)| margin).unwrap_or((0, 0))
}

/// "The bridge's figure remains the least permitted load", whichever member governs. The bridge
/// passes when every member does.
pub fn bridge(members: Vec<Rated>) -> Judged {
    let figure = members.iter().map(|rated| rated.permitted).min().unwrap_or(0);
    let (governing, margin) = governing(&members);
    let passes = members.iter().all(|rated| rated.passes());
    Judged { figure, governing, passes, margin, members }
}

/// What a call on one place is made on: "11 no survey; 12 no vehicle; 13 no such place", tested in
/// that order.
pub fn loaded_at<'a>(
    survey: Option<&'a [Member]>,
    vehicle: Option<&'a Vehicle>,
    place: usize,
) -> Result<(&'a Member, &'a Vehicle), u64> {
    let members = survey.ok_or(11u64)?;
    let vehicle = vehicle.ok_or(12u64)?;
    let member = place.checked_sub(1).and_then(|i| members.get(i)).ok_or(13u64)?;
    Ok((member, vehicle))
}

/// A member's loads in exact fractions, every position tried.
pub fn rate(member: &Member, vehicle: &Vehicle) -> Rated {
    Rated { permitted: permitted_load(member, vehicle), vehicle: vehicle_load(member, vehicle) }
}

/// The judgement of members under a vehicle: every member rated.
pub fn judge_members(members: &[Member], vehicle: &Vehicle) -> Judged {
    bridge(members.iter().map(|member| rate(member, vehicle)).collect())
}

/// The judgement: both files read, the survey first.
pub fn judge(survey: &[u8], vehicle: &[u8]) -> Result<Judged, Refused> {
    let members = reader::survey(survey)?;
    let vehicle = reader::vehicle(vehicle)?;
    Ok(judge_members(&members, &vehicle))
}
