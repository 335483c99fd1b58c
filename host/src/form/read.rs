//! Text form to the words of a file.

use super::error::{Problem, TextError};
use super::field::{Field, Value};
use super::line::Line;
use super::order;
use super::tables::*;
use crate::file::{Axle, Contents, Member, Survey, Vehicle};
use crate::refusal::Which;
use std::collections::BTreeSet;

/// A line of the text, or the fault that it is none.
type Cut = Result<Line, TextError>;

/// The lines with something in them. A byte order mark is passed over; a comment may be in any
/// encoding.
fn lines(bytes: &[u8]) -> Vec<Cut> {
    let bytes = bytes.strip_prefix(b"\xef\xbb\xbf").unwrap_or(bytes);
    let cut = |(line, number): (&[u8], usize)| {
        let text = line.split(|byte| *byte == b'#').next().unwrap_or_default();
        match std::str::from_utf8(text) {
            Ok(text) => Line::cut(number, text).map(Ok),
            Err(_) => {
                let (field, problem) = ("text".to_string(), Problem::NotText);
                Some(Err(TextError { line: number, field, problem }))
            }
        }
    };
    bytes.split(|byte| *byte == b'\n').zip(1..).filter_map(cut).collect()
}

/// The file that this line is the heading of.
fn headed(line: &Cut) -> Option<Which> {
    match line.as_ref().ok()?.head.as_str() {
        "survey" => Some(Which::Survey),
        "vehicle" => Some(Which::Vehicle),
        _ => None,
    }
}

/// The file that this line is a record of.
fn recorded(line: &Cut) -> Option<Which> {
    match line.as_ref().ok()?.head.as_str() {
        "axle" => Some(Which::Vehicle),
        head => KINDS.iter().any(|kind| kind.name == head).then_some(Which::Survey),
    }
}

/// Which file a text is the form of: by its heading or, where that is wrong, by the first of its
/// lines that tells.
pub fn text_of(bytes: &[u8]) -> Option<Which> {
    which(&lines(bytes))
}

fn which(lines: &[Cut]) -> Option<Which> {
    lines.first().and_then(headed).or_else(|| lines.iter().find_map(recorded))
}

/// The section of the line. Where it has none that suits, its fields are not known: none is asked
/// for, and those of every section that suits are let pass.
fn section_fields(line: &Line, kind: &Kind) -> (&'static [Field], Vec<&'static Field>) {
    let Some(chosen) = kind.section() else { return (&[], Vec::new()) };
    let code = line.value(chosen).ok().and_then(|code| u16::try_from(code).ok());
    if let Some(section) = code.and_then(Section::of) {
        return (section.fields_in(kind), Vec::new());
    }
    let Value::Word(codes) = chosen.value else { return (&[], Vec::new()) };
    let suiting = codes.iter().filter_map(|(_, code)| Section::of(*code));
    (&[], suiting.flat_map(|section| section.fields_in(kind)).collect())
}

fn member(line: &Line, faults: &mut Vec<TextError>) -> Member {
    let mut words: Member = [0; 16];
    let Some(kind) = KINDS.iter().find(|kind| kind.name == line.head) else {
        let allowed = KINDS.iter().map(|kind| kind.name).collect();
        faults.push(line.fault("kind", Problem::NotOneOf { found: line.head.clone(), allowed }));
        return words;
    };
    words[KIND_WORD] = kind.code;
    let (own, let_pass) = section_fields(line, kind);
    let fields: Vec<&Field> = kind.fields.iter().chain(own).collect();
    faults.extend(line.strangers(&[fields.clone(), let_pass].concat()));
    faults.extend(line.fill(&fields, &mut words));
    words
}

/// The version in a heading, which may be left out: it is the first then. None where it is wrong.
fn version(line: &Line, which: Which, faults: &mut Vec<TextError>) -> Option<u16> {
    match line.value(&which.layout().version()) {
        Ok(version) => u16::try_from(version).ok(),
        Err(fault) if fault.problem == Problem::Missing => Some(FIRST_VERSION),
        Err(fault) => {
            faults.push(fault);
            None
        }
    }
}

/// The members, each with its line, that stand behind one that they come before. A line with
/// another fault is passed over: its numbers may not be those that are meant.
fn out_of_order(members: &[(usize, Member)], faults: &[TextError]) -> Vec<TextError> {
    let faulty: BTreeSet<usize> = faults.iter().map(|fault| fault.line).collect();
    let sound = members.iter().filter(|(line, _)| !faulty.contains(line));
    let sound: Vec<&(usize, Member)> = sound.collect();
    let fault = |pair: &[&(usize, Member)]| {
        let [(earlier, before), (line, words)] = *pair else { return None };
        let (word, problem) = order::misplaced(before, words, format!("line {earlier}"))?;
        let field = order::called(words, word, |field| field.name.to_string());
        Some(TextError { line: *line, field, problem })
    };
    sound.windows(2).filter_map(fault).collect()
}

/// Where the version is wrong, no order is asked.
fn survey(
    heading: Option<&Line>,
    number: usize,
    lines: &[Cut],
    faults: &mut Vec<TextError>,
) -> Survey {
    let said = heading.and_then(|line| {
        faults.extend(line.strangers(&[&Which::Survey.layout().version()]));
        version(line, Which::Survey, faults)
    });
    let version = said.unwrap_or(FIRST_VERSION);
    let read = |_, line: &Line, faults: &mut Vec<TextError>| (line.number, member(line, faults));
    let members = records((Which::Survey, number), lines, faults, read);
    if version >= ORDERED_FROM {
        faults.extend(out_of_order(&members, faults));
    }
    Survey { version, members: members.into_iter().map(|(_, words)| words).collect() }
}

/// Version, class and track.
fn vehicle_heading(line: &Line, faults: &mut Vec<TextError>) -> (Option<u16>, [u16; 2]) {
    let (mut words, [class, track]) = ([0; 2], &HEADING);
    faults.extend(line.strangers(&[&Which::Vehicle.layout().version(), class, track]));
    let version = version(line, Which::Vehicle, faults);
    faults.extend(line.fill(&[class, track], &mut words));
    (version, words)
}

fn axle(line: &Line, fields: &[Field; 2], faults: &mut Vec<TextError>) -> Axle {
    if line.head != "axle" {
        let found = line.head.clone();
        faults.push(line.fault("axle", Problem::NotOneOf { found, allowed: vec!["axle"] }));
        return [0; 2];
    }
    let mut words = [0; 2];
    faults.extend(line.strangers(&fields.each_ref()));
    faults.extend(line.fill(&fields.each_ref(), &mut words));
    words
}

/// Where the version is wrong, an axle may weigh what the last one takes. None without a heading.
fn vehicle(
    heading: Option<&Line>,
    number: usize,
    lines: &[Cut],
    faults: &mut Vec<TextError>,
) -> Option<Vehicle> {
    let heading = heading.map(|line| vehicle_heading(line, faults));
    let last = Which::Vehicle.layout().last_version;
    let version = heading.and_then(|(version, _)| version).unwrap_or(last);
    let layout = AxleLayout::of(version);
    let read = |place, line: &Line, faults: &mut Vec<TextError>| {
        axle(line, layout.fields(place + 1), faults)
    };
    let axles = records((Which::Vehicle, number), lines, faults, read);
    heading.map(|(_, heading)| Vehicle { version, heading, axles })
}

/// The lines after the heading, at least one and at most as many as the file holds, each read by
/// `read` with its place, from 0.
fn records<T>(
    (which, heading): (Which, usize),
    lines: &[Cut],
    faults: &mut Vec<TextError>,
    read: impl Fn(usize, &Line, &mut Vec<TextError>) -> T,
) -> Vec<T> {
    let Layout { record, most, .. } = *which.layout();
    let mut fault = |line, problem| {
        faults.push(TextError { line, field: record.to_string(), problem });
    };
    match lines.get(most) {
        _ if lines.is_empty() => fault(heading, Problem::NoRecord),
        Some(Ok(line)) => fault(line.number, Problem::TooMany { most }),
        Some(Err(not_text)) => fault(not_text.line, Problem::TooMany { most }),
        None => {}
    }
    let mut all = Vec::new();
    for (place, line) in lines.iter().enumerate() {
        match line {
            Ok(line) => all.push(read(place, line, faults)),
            Err(fault) => faults.push(fault.clone()),
        }
    }
    all
}

/// The first line as a heading, and the lines of the records. A first line that is no heading is a
/// record where it reads like one.
fn split<'a>(lines: &'a [Cut], faults: &mut Vec<TextError>) -> (Option<&'a Line>, &'a [Cut]) {
    let mut no_heading = |line| {
        let (field, problem) = ("heading".to_string(), Problem::NoHeading);
        faults.push(TextError { line, field, problem });
    };
    match lines.split_first() {
        Some((first @ Ok(line), rest)) => {
            if headed(first).is_some() {
                return (Some(line), rest);
            }
            no_heading(line.number);
            (None, if recorded(first).is_some() { lines } else { rest })
        }
        Some((Err(not_text), rest)) => {
            faults.push(not_text.clone());
            (None, rest)
        }
        None => {
            no_heading(1);
            (None, lines)
        }
    }
}

fn contents(lines: &[Cut], faults: &mut Vec<TextError>) -> Option<Contents> {
    let (first, rest) = split(lines, faults);
    let number = first.map_or(1, |line| line.number);
    match which(lines) {
        Some(Which::Survey) => Some(Contents::Survey(survey(first, number, rest, faults))),
        Some(Which::Vehicle) => vehicle(first, number, rest, faults).map(Contents::Vehicle),
        None => {
            faults.extend(rest.iter().filter_map(|line| line.as_ref().err().cloned()));
            None
        }
    }
}

/// Reads the text form of a survey or a vehicle.
///
/// # Errors
/// All faults, by line and field, in the order of the lines.
pub fn read(bytes: &[u8]) -> Result<Contents, Vec<TextError>> {
    let mut faults = Vec::new();
    match contents(&lines(bytes), &mut faults) {
        Some(contents) if faults.is_empty() => Ok(contents),
        _ => {
            faults.sort_by_key(|fault| fault.line);
            Err(faults)
        }
    }
}
