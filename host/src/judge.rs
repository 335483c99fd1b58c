//! The two calls of the proved library, made safe.

use crate::refusal::{Refusal, Which};

/// The numbers of a judgement: those of a refusal, or figure, governing place and verdict.
#[repr(C)]
struct Numbers {
    refusal: u64,
    place: u64,
    figure: u64,
    governing: u64,
    passes: u64,
}

/// The same, with the number of members whose loads the list has.
#[repr(C)]
struct Loads {
    judged: Numbers,
    members: u64,
}

// Each slice is a pointer and a length.
extern "C" {
    fn tbr_judge(
        survey: *const u8,
        survey_length: usize,
        vehicle: *const u8,
        vehicle_length: usize,
    ) -> Numbers;

    fn tbr_member_loads(
        survey: *const u8,
        survey_length: usize,
        vehicle: *const u8,
        vehicle_length: usize,
        list: *mut u64,
        list_length: usize,
    ) -> Loads;
}

/// The judgement of a bridge under a vehicle.
#[derive(Clone, Copy, Debug, PartialEq, Eq)]
pub struct Judgement {
    /// The bridge's figure: the least permitted load of its members, kgf/m.
    pub figure: u64,
    /// The place, from 1, of the member with the least margin, the first on a tie. It need not be
    /// one that has the figure.
    pub governing: u64,
    /// Does every member bear its vehicle load?
    pub passes: bool,
}

/// A member's two loads, in kgf/m, and its verdict.
#[derive(Clone, Copy, Debug, PartialEq, Eq)]
pub struct MemberLoads {
    /// Its place, from 1.
    pub place: u64,
    /// What it may bear.
    pub permitted: u64,
    /// What the vehicle brings.
    pub vehicle: u64,
    /// Is the second at most the first?
    pub passes: bool,
}

impl MemberLoads {
    /// Permitted load minus vehicle load, kgf/m: below 0 just where the member is refused. The
    /// member with the least margin governs.
    ///
    /// # Panics
    /// Where the difference is outside an `i64`. The library's loads are far from that: by the
    /// ranges of the files none is above 4 × 10¹³.
    pub fn margin(&self) -> i64 {
        self.checked_margin().expect("the loads of files differ by less than 2^63")
    }

    /// The same, and none where the difference is outside an `i64`.
    pub fn checked_margin(&self) -> Option<i64> {
        self.permitted.checked_signed_diff(self.vehicle)
    }
}

/// A survey and a vehicle that are taken, to ask about the other file alone: a log stringer, and
/// one axle of 1 kgf.
pub(crate) const SOUND_SURVEY: &[u8; 38] =
    b"TBR\x01\x00\x01\x01\x00\x01\x00\xf4\x01\x8c\x00\x00\x00\x00\x00\
    \x64\x00\x01\x00\x1c\x00\x00\x00\x01\x00\x00\x00\x00\x00\x00\x00\x00\x00\x00\x00";
const SOUND_VEHICLE: &[u8; 13] = b"TBV\x01\x00\x00\xbe\x00\x01\x01\x00\x00\x00";

/// Where a survey file has its count of members.
const COUNT_AT: usize = 5;

// What both calls rest on. A slice of Rattle is a pointer and a length in the C order of
// arguments; Rust's own slices give the pair, with a pointer that is never null and is aligned,
// even where the slice is empty, and a length that the memory has. The structs are #[repr(C)] on
// both sides, with the same fields in the same order. The functions are proved to end without a
// failure, so nothing unwinds through the boundary, and to take references that they cannot keep:
// no pointer outlives its call.

fn call_judge(survey: &[u8], vehicle: &[u8]) -> Numbers {
    // SAFETY: the pointers and lengths are those of two live slices, which are only read; the
    // declaration is that of `judgement::tbr_judge`.
    unsafe { tbr_judge(survey.as_ptr(), survey.len(), vehicle.as_ptr(), vehicle.len()) }
}

fn call_member_loads(survey: &[u8], vehicle: &[u8], list: &mut [u64]) -> Loads {
    // SAFETY: as above, with the declaration of `exports::tbr_member_loads`; the list is lent
    // alone, as it is borrowed mutably here, and the function writes inside it only.
    unsafe {
        tbr_member_loads(
            survey.as_ptr(),
            survey.len(),
            vehicle.as_ptr(),
            vehicle.len(),
            list.as_mut_ptr(),
            list.len(),
        )
    }
}

/// The survey's refusal comes before the vehicle's: with a sound vehicle only the survey's is left.
fn refused_file(survey: &[u8]) -> Which {
    match call_judge(survey, SOUND_VEHICLE).refusal {
        0 => Which::Vehicle,
        _ => Which::Survey,
    }
}

/// The judgement that the numbers say, of this survey file and some vehicle file.
fn judgement(numbers: &Numbers, survey: &[u8]) -> Result<Judgement, Refusal> {
    let &Numbers { refusal, place, figure, governing, passes } = numbers;
    match refusal {
        0 => Ok(Judgement { figure, governing, passes: passes == 1 }),
        number => Err(Refusal { file: refused_file(survey), number, place }),
    }
}

/// Judges the bridge of a survey file under the vehicle of a vehicle file.
///
/// # Errors
/// The refusal of the first file that is not as the document has it, the survey's before the
/// vehicle's. Any bytes of any length get an answer.
pub fn judge(survey: &[u8], vehicle: &[u8]) -> Result<Judgement, Refusal> {
    judgement(&call_judge(survey, vehicle), survey)
}

/// Permitted load and vehicle load of every member of a survey file, in the order of places.
///
/// # Errors
/// As [`judge`].
pub fn member_loads(survey: &[u8], vehicle: &[u8]) -> Result<Vec<MemberLoads>, Refusal> {
    // Two entries a member, by the file's own count; a file too short to have one is refused.
    let count = survey.get(COUNT_AT).copied().unwrap_or(0);
    let mut list = vec![0; 2 * usize::from(count)];
    let Loads { judged, members } = call_member_loads(survey, vehicle, &mut list);
    judgement(&judged, survey)?;
    let loads = (1..=members).zip(list.chunks_exact(2)).map(|(place, loads)| {
        let (permitted, vehicle) = (loads[0], loads[1]);
        MemberLoads { place, permitted, vehicle, passes: vehicle <= permitted }
    });
    Ok(loads.collect())
}

/// Is this a survey file that the library takes?
///
/// # Errors
/// Its refusal.
pub fn check_survey(survey: &[u8]) -> Result<(), Refusal> {
    judge(survey, SOUND_VEHICLE).map(drop)
}

/// Is this a vehicle file that the library takes?
///
/// # Errors
/// Its refusal.
pub fn check_vehicle(vehicle: &[u8]) -> Result<(), Refusal> {
    judge(SOUND_SURVEY, vehicle).map(drop)
}
