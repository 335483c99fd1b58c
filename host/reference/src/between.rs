//! Rot between two readings, request 5 of document 02: two surveys of one bridge, the second worn
//! as much or more, and what holds for every survey between them.

use crate::judge::judge_members;
use crate::layout::{wears, Words, CLOSE_STRINGER, DEAD_LOAD, KIND};
use crate::reader::{self, File, Refused, Vehicle};

/// "passes for all between, for none, or undecided"
#[derive(Clone, Copy, Debug, PartialEq, Eq)]
pub enum Passing {
    All,
    None,
    Undecided,
}

/// A member's lowest and highest permitted load, kgf/m.
#[derive(Clone, Copy, Debug, PartialEq, Eq)]
pub struct Bounds {
    pub lowest: u64,
    pub highest: u64,
}

/// The verdict, and the bounds of every member.
#[derive(Clone, Debug, PartialEq, Eq)]
pub struct Between {
    pub passing: Passing,
    pub members: Vec<Bounds>,
}

/// "rot, losses and dead load as great or greater". "For kind 7 the records must have the same rot
/// and losses, deck rot included": of these only its dead load may be greater.
fn may_grow(first: &Words, word: usize) -> bool {
    wears(first, word) && (first[KIND] != CLOSE_STRINGER || word == DEAD_LOAD)
}

/// The second record is the first worn as much or more, "and all else equal".
pub fn is_worn(first: &Words, second: &Words) -> bool {
    (0..first.len()).all(|word| {
        if may_grow(first, word) {
            first[word] <= second[word]
        } else {
            first[word] == second[word]
        }
    })
}

/// "15: a different count, place 0, else the first record that is not so ordered or, for kind 7,
/// not so equal"
fn disorder(first: &[Words], second: &[Words]) -> Option<u64> {
    if first.len() != second.len() {
        return Some(0);
    }
    let mut pairs = first.iter().zip(second).zip(1..);
    pairs.find(|((first, second), _)| !is_worn(first, second)).map(|(_, place)| place)
}

/// Both ends judged: no survey between them bears less than the second or more than the first.
/// "undecided exactly when the two ends' verdicts differ"
fn answer(first: &[Words], second: &[Words], vehicle: &Vehicle) -> Between {
    let judged = |records: &[Words]| {
        judge_members(&records.iter().map(reader::member).collect::<Vec<_>>(), vehicle)
    };
    let (first, second) = (judged(first), judged(second));
    let passing = match (first.passes, second.passes) {
        (true, true) => Passing::All,
        (false, false) => Passing::None,
        _ => Passing::Undecided,
    };
    let ends = first.members.iter().zip(&second.members);
    let members =
        ends.map(|(one, other)| Bounds { lowest: other.permitted, highest: one.permitted });
    Between { passing, members: members.collect() }
}

/// The call with the loaded vehicle, where one is loaded, and a list of so many entries: "12 comes
/// first, then the first survey's own refusals, the second's, 15, and 14 for a list shorter than
/// two entries a member".
pub fn between(
    vehicle: Option<&Vehicle>,
    first: &[u8],
    second: &[u8],
    entries: usize,
) -> Result<Between, Refused> {
    let refused = |file, number, place| Refused { file, number, place };
    let vehicle = vehicle.ok_or(refused(File::Vehicle, 12, 0))?;
    let first = reader::records(first)?;
    let second = reader::records(second)?;
    if let Some(place) = disorder(&first, &second) {
        return Err(refused(File::Survey, 15, place));
    }
    if entries < 2 * first.len() {
        return Err(refused(File::Survey, 14, 0));
    }
    Ok(answer(&first, &second, vehicle))
}
