//! What the program `bridge` prints for its standard input.

use crate::judge::{judge, Judged};
use crate::reader::Refused;
use std::fmt::Write;

/// Survey then vehicle: the survey is the first 6 + 32 × count bytes, or all if fewer.
pub fn split(input: &[u8]) -> (&[u8], &[u8]) {
    let survey = input.get(5).map_or(input.len(), |&count| 6 + 32 * usize::from(count));
    input.split_at(survey.min(input.len()))
}

fn verdict(passes: bool) -> &'static str {
    if passes {
        "pass"
    } else {
        "refuse"
    }
}

fn judged(answer: &Judged) -> String {
    let mut lines = String::new();
    for (rated, place) in answer.members.iter().zip(1..) {
        let (permitted, vehicle) = (rated.permitted, rated.vehicle);
        writeln!(lines, "{place} {permitted} {vehicle} {}", verdict(rated.passes())).unwrap();
    }
    let (figure, governing) = (answer.figure, answer.governing);
    writeln!(lines, "bridge {figure} {governing} {}", verdict(answer.passes)).unwrap();
    lines
}

/// The lines for this standard input.
pub fn printed(input: &[u8]) -> String {
    let (survey, vehicle) = split(input);
    match judge(survey, vehicle) {
        Ok(answer) => judged(&answer),
        Err(Refused { number, place, .. }) => format!("refused {number} at {place}\n"),
    }
}
