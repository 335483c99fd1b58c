//! `tbr show`: a file in words and units.

use crate::arguments::Arguments;
use crate::end::{End, Failure};
use crate::input::{read, Input};
use crate::take::{self, internal, summary, yard_summary};
use std::ffi::OsStr;
use tbr::file::{Axle, Contents, Member, Survey};
use tbr::form::{clause, kind_of, look, section_of, AxleLayout, Field, Look, HEADING};

fn clauses(fields: &[Field], words: &[impl Copy + Into<u32>]) -> Option<String> {
    let all: Option<Vec<String>> = fields.iter().map(|field| clause(field, words)).collect();
    Some(all?.join(", "))
}

/// The kind, its fields, and the section's on a line of their own.
fn member(place: usize, words: &Member) -> Option<String> {
    let kind = kind_of(words)?;
    let (section, others) = kind.fields.split_last()?;
    let fields = section_of(words)?.fields_in(kind);
    let (kind, others) = (kind.name, clauses(others, words)?);
    let (section, fields) = (clause(section, words)?, clauses(fields, words)?);
    Some(format!("{place:>3}  {kind}: {others}\n     {section}: {fields}\n"))
}

fn axle(place: usize, fields: &[Field], words: &Axle) -> Option<String> {
    Some(format!("{place:>3}  axle: {}\n", clauses(fields, words)?))
}

fn lines(contents: &Contents) -> Option<String> {
    match contents {
        Contents::Survey(Survey { members, .. }) => {
            members.iter().zip(1..).map(|(words, place)| member(place, words)).collect()
        }
        Contents::Vehicle(vehicle) => {
            let heading = format!("     {}\n", clauses(&HEADING, &vehicle.heading)?);
            let fields = &AxleLayout::of(vehicle.version).other;
            let axles = vehicle.axles.iter().zip(1..);
            let axles = axles.map(|(words, place)| axle(place, fields, words));
            Some(heading + &axles.collect::<Option<String>>()?)
        }
    }
}

/// A file under this name: what it is, then its lines.
fn shown(input: &Input, name: &str, contents: &Contents) -> Result<String, Failure> {
    let lines = lines(contents)
        .ok_or_else(|| internal(&input.name, "the library takes a number without a word"))?;
    Ok(format!("{name}: {}\n{lines}", summary(contents)))
}

fn show(name: &OsStr) -> Result<End, Failure> {
    let input = read(name)?;
    if look(&input.bytes) != Look::Yard {
        let contents = take::file(&input)?.contents;
        return Ok(End::done(shown(&input, &input.name, &contents)?));
    }
    let vehicles = take::yard(&input)?;
    let mut lines = format!("{}: {}\n", input.name, yard_summary(vehicles.len()));
    for (vehicle, place) in vehicles.iter().zip(1..) {
        lines += &shown(&input, &place.to_string(), vehicle)?;
    }
    Ok(End::done(lines))
}

/// The command, or what is wrong with its arguments.
pub fn run(arguments: &Arguments) -> Result<End, String> {
    match &arguments.operands[..] {
        [name] => Ok(show(name).unwrap_or_else(End::from)),
        _ => Err("one file is needed".to_string()),
    }
}
