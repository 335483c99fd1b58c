//! The words of a file to its text form.

use super::field::{Field, Value};
use super::tables::*;
use crate::file::{Contents, Member, Survey, Vehicle};
use crate::refusal::Which;

/// A field with its value: name, value, unit. None where the record is too short for it, or where
/// its number has no word.
pub fn clause<N: Copy + Into<u32>>(field: &Field, words: &[N]) -> Option<String> {
    let found = field.of(words)?;
    match field.value {
        Value::Number(limits) => {
            Some(format!("{} {found} {}", field.name, limits.unit).trim_end().to_string())
        }
        Value::Word(all) => {
            let (word, _) = all.iter().find(|(_, number)| u32::from(*number) == found)?;
            Some(format!("{} {word}", field.name))
        }
    }
}

/// The kind of a member, where there is one of its number.
pub fn kind_of(words: &Member) -> Option<&'static Kind> {
    Kind::of(words[KIND_WORD])
}

/// The section of a member, where there is one of its code.
pub fn section_of(words: &Member) -> Option<&'static Section> {
    Section::of(words[SECTION_WORD])
}

fn line<'a, N: Copy + Into<u32>>(
    head: &str,
    fields: impl IntoIterator<Item = &'a Field>,
    words: &[N],
) -> Option<String> {
    let mut line = head.to_string();
    for field in fields {
        line.push_str(", ");
        line.push_str(&clause(field, words)?);
    }
    line.push('\n');
    Some(line)
}

fn member(words: &Member) -> Option<String> {
    let kind = kind_of(words)?;
    let fields = kind.fields.iter().chain(section_of(words)?.fields_in(kind));
    line(kind.name, fields, words)
}

/// The file and its version; the first version is left out.
fn opening(which: Which, version: u16) -> Option<String> {
    match version {
        FIRST_VERSION => Some(which.to_string()),
        _ => Some(format!("{which}, {}", clause(&which.layout().version(), &[version])?)),
    }
}

fn survey(survey: &Survey) -> Option<String> {
    let heading = line::<u16>(&opening(Which::Survey, survey.version)?, [], &[])?;
    Some(heading + &survey.members.iter().map(member).collect::<Option<String>>()?)
}

fn vehicle(vehicle: &Vehicle) -> Option<String> {
    let opening = opening(Which::Vehicle, vehicle.version)?;
    let fields = &AxleLayout::of(vehicle.version).other;
    let axles = vehicle.axles.iter().map(|words| line("axle", fields, words));
    Some(line(&opening, &HEADING, &vehicle.heading)? + &axles.collect::<Option<String>>()?)
}

/// The text form of a file. None where a number has no word: the library takes no such file.
pub fn write(contents: &Contents) -> Option<String> {
    match contents {
        Contents::Survey(words) => survey(words),
        Contents::Vehicle(words) => vehicle(words),
    }
}
