//! The call of the proved library on a whole yard, made safe.

use crate::file::split_yard;
use crate::judge::{check_survey, check_vehicle, Judgement, SOUND_SURVEY};
use crate::refusal::YardRefusal;

/// The numbers of a yard: those of a refusal, or how many vehicles it has and how many pass.
#[repr(C)]
struct YardNumbers {
    refusal: u64,
    place: u64,
    vehicles: u64,
    passes: u64,
}

// Each slice is a pointer and a length.
extern "C" {
    fn tbr_yard(
        survey: *const u8,
        survey_length: usize,
        yard: *const u8,
        yard_length: usize,
        list: *mut u64,
        list_length: usize,
    ) -> YardNumbers;
}

/// The list has figure, governing place and verdict of each vehicle.
const ENTRIES: usize = 3;

/// The judgements of a bridge under the vehicles of a yard.
#[derive(Clone, Debug, PartialEq, Eq)]
pub struct YardJudgement {
    /// For each vehicle, in the order of the yard.
    pub judgements: Vec<Judgement>,
    /// For so many of them the bridge passes.
    pub passes: u64,
}

fn call_yard(survey: &[u8], yard: &[u8], list: &mut [u64]) -> YardNumbers {
    // SAFETY: what the calls of `judge` rest on holds here too, with the declaration of
    // `exports::tbr_yard`; the list is lent alone, as it is borrowed mutably here, and the function
    // writes inside it only.
    unsafe {
        tbr_yard(
            survey.as_ptr(),
            survey.len(),
            yard.as_ptr(),
            yard.len(),
            list.as_mut_ptr(),
            list.len(),
        )
    }
}

/// Whose refusal it is: the survey's comes before the yard's, and in the yard the first faulty
/// vehicle's before that of bytes left over.
fn refusal(survey: &[u8], yard: &[u8], number: u64, place: u64) -> YardRefusal {
    if let Err(refusal) = check_survey(survey) {
        return YardRefusal::Survey(refusal);
    }
    let files = split_yard(yard).unwrap_or_default();
    let faults = files.iter().map(|file| check_vehicle(file).err());
    let first = faults.zip(1..).find_map(|(fault, vehicle)| Some((fault?, vehicle)));
    match first {
        Some((refusal, vehicle)) if (refusal.number, refusal.place) == (number, place) => {
            YardRefusal::Vehicle { vehicle, refusal }
        }
        _ => YardRefusal::Yard { number, place },
    }
}

/// Judges the bridge of a survey file under every vehicle of a yard: a byte that says how many they
/// are, 1 to 32, and their files joined. Each judgement is what [`judge`](crate::judge) gives for
/// that vehicle alone.
///
/// ```
/// let survey = include_bytes!("../../samples/case-a.tbr");
/// let light = include_bytes!("../../samples/case-l.tbv");
/// let heavy = include_bytes!("../../samples/lorry.tbv");
/// let yard = tbr::file::join_yard(&[&light[..], &heavy[..]]).expect("not more than a byte holds");
/// let judged = tbr::judge_yard(survey, &yard).expect("all files are sound");
/// assert_eq!(judged.passes, 1);
/// assert_eq!(judged.judgements[1], tbr::judge(survey, heavy).expect("both are sound"));
/// ```
///
/// # Errors
/// The survey's refusal, or the first of the yard: no vehicle is judged then. Any bytes of any
/// length get an answer.
pub fn judge_yard(survey: &[u8], yard: &[u8]) -> Result<YardJudgement, YardRefusal> {
    // Three entries a vehicle, by the yard's own count; a yard that has none is refused.
    let count = yard.first().copied().unwrap_or(0);
    let mut list = vec![0; ENTRIES * usize::from(count)];
    let numbers = call_yard(survey, yard, &mut list);
    if numbers.refusal != 0 {
        return Err(refusal(survey, yard, numbers.refusal, numbers.place));
    }
    let answers = list.chunks_exact(ENTRIES).zip(0..numbers.vehicles);
    let judgements = answers.map(|(answer, _)| Judgement {
        figure: answer[0],
        governing: answer[1],
        passes: answer[2] == 1,
    });
    Ok(YardJudgement { judgements: judgements.collect(), passes: numbers.passes })
}

/// Is this a yard that the library takes?
///
/// # Errors
/// Its refusal.
pub fn check_yard(yard: &[u8]) -> Result<(), YardRefusal> {
    judge_yard(SOUND_SURVEY, yard).map(drop)
}
