//! A refused record of a file, field by field: which number is at fault, and what it may be.

use super::error::{FieldFault, Problem};
use super::field::{Field, Limits};
use super::order;
use super::tables::*;
use super::write::{kind_of, section_of};
use crate::file::{self, Axle, Member};
use crate::refusal::{Refusal, Which, TOO_HEAVY, TOO_SHORT};

/// The name of a member's field with the letter of the layout.
fn named(field: &Field) -> String {
    match MEMBER_LETTERS.get(field.word) {
        Some(letter) if *letter != field.name => format!("{} ({letter})", field.name),
        _ => field.name.to_string(),
    }
}

/// What is wrong with these fields of a record, each alone and beside another.
fn wrong<'a>(
    fields: impl IntoIterator<Item = &'a Field>,
    words: &[impl Copy + Into<u32>],
    name: impl Fn(&Field) -> String,
) -> Vec<FieldFault> {
    let problem = |field: &Field| field.problem(field.of(words)?).or_else(|| field.misfit(words));
    let fault =
        |field: &'a Field| Some(FieldFault { field: name(field), problem: problem(field)? });
    fields.into_iter().filter_map(fault).collect()
}

/// Why nothing uses a word of a member.
fn why_unused(kind: &Kind, section: &Section, word: usize) -> String {
    if section.fields.iter().any(|field| field.word == word) {
        return "a beam in bending has no lost area".to_string();
    }
    let of_section = SECTIONS.iter().flat_map(|section| section.fields);
    match of_section.into_iter().any(|field| field.word == word) {
        true => format!("the section '{}' does not use it", section.name),
        false => format!("the kind '{}' does not use it", kind.name),
    }
}

/// The words that nothing uses and that are not 0.
fn unused(kind: &Kind, section: &Section, words: &Member) -> Vec<FieldFault> {
    let used = |word| {
        let mut fields = kind.fields.iter().chain(section.fields_in(kind));
        word == KIND_WORD || fields.any(|field| field.word == word)
    };
    let named = |word| match section.fields.iter().find(|field| field.word == word) {
        Some(field) => named(field),
        None => MEMBER_LETTERS[word].to_string(),
    };
    let fault = |(word, found): (usize, &u16)| FieldFault {
        field: named(word),
        problem: Problem::Unused { found: *found, why: why_unused(kind, section, word) },
    };
    words
        .iter()
        .enumerate()
        .filter(|(word, found)| !used(*word) && **found != 0)
        .map(fault)
        .collect()
}

fn no_kind(found: u16) -> FieldFault {
    let found = found.into();
    let allowed = KINDS.iter().map(|kind| (kind.name, kind.code)).collect();
    FieldFault { field: "kind".to_string(), problem: Problem::NoCode { found, allowed } }
}

/// The fields of a member that its refusal is about, by the document's numbers: 4 kind, 5 species,
/// 6 section code, 7 a range, 8 an unused field.
fn member(words: &Member, number: u64) -> Option<Vec<FieldFault>> {
    let Some(kind) = kind_of(words) else {
        return (number == 4).then(|| vec![no_kind(words[KIND_WORD])]);
    };
    let of_word = |word| kind.fields.iter().filter(move |field| field.word == word);
    match number {
        5 => Some(wrong(of_word(SPECIES_WORD), words, named)),
        6 => Some(wrong(of_word(SECTION_WORD), words, named)),
        7 => {
            let fields = kind.fields.iter().chain(section_of(words)?.fields_in(kind));
            Some(wrong(fields, words, named))
        }
        8 => Some(unused(kind, section_of(words)?, words)),
        _ => None,
    }
}

/// Number 16: what puts the member of this place before its predecessor, in a version that asks for
/// the order.
fn before_predecessor(bytes: &[u8], place: u64) -> Option<FieldFault> {
    let survey = file::survey(bytes).filter(|survey| survey.version >= ORDERED_FROM)?;
    let members = survey.members;
    let earlier = place.checked_sub(1)?;
    let of = |place: u64| members.get(usize::try_from(place).ok()?.checked_sub(1)?);
    let (before, words) = (of(earlier)?, of(place)?);
    let (word, problem) = order::misplaced(before, words, format!("member {earlier}"))?;
    Some(FieldFault { field: order::called(words, word, named), problem })
}

/// The record that a refusal is about.
enum Record {
    Member(Member),
    Heading([u16; 2]),
    Axle(&'static [Field; 2], Axle),
}

/// An axle with what its fields may be in the file's own version.
fn axle(bytes: &[u8], place: usize) -> Option<Record> {
    let vehicle = file::vehicle(bytes)?;
    let words = *vehicle.axles.get(place.checked_sub(1)?)?;
    Some(Record::Axle(AxleLayout::of(vehicle.version).fields(place), words))
}

/// None for a refusal of the length, the mark or the count, which are the numbers below 4, or of an
/// output that is too short.
fn record(bytes: &[u8], refusal: &Refusal) -> Option<Record> {
    let of_a_record = refusal.number >= 4 && refusal.number != TOO_SHORT;
    let place = usize::try_from(refusal.place).ok().filter(|_| of_a_record)?;
    match (refusal.file, place) {
        (Which::Survey, 0) => None,
        (Which::Survey, _) => {
            file::members(bytes).get(place - 1).map(|words| Record::Member(*words))
        }
        (Which::Vehicle, 0) => Some(Record::Heading(file::vehicle(bytes)?.heading)),
        (Which::Vehicle, _) => axle(bytes, place),
    }
}

/// Number 17: the weight of an axle that is above what the first version holds.
fn too_heavy([weight, _]: &[Field; 2], words: &Axle) -> Option<FieldFault> {
    let (version, found) = (FIRST_VERSION, weight.of(words)?);
    let Limits { greatest, unit, .. } = AxleLayout::of(version).weight;
    let problem = Problem::TooGreatFor { version, found, greatest, unit };
    (found > greatest).then(|| FieldFault { field: weight.name.to_string(), problem })
}

/// The fields that the refusal of this file is about, each with its value and what it may be. None
/// where the refusal is about no record, or not of these bytes.
pub fn explain(bytes: &[u8], refusal: &Refusal) -> Vec<FieldFault> {
    let name = |field: &Field| field.name.to_string();
    match record(bytes, refusal) {
        Some(Record::Member(_)) if refusal.number == 16 => {
            before_predecessor(bytes, refusal.place).into_iter().collect()
        }
        Some(Record::Member(words)) => member(&words, refusal.number).unwrap_or_default(),
        Some(Record::Heading(words)) => wrong(&HEADING, &words, name),
        Some(Record::Axle(fields, words)) if refusal.number == TOO_HEAVY => {
            too_heavy(fields, &words).into_iter().collect()
        }
        Some(Record::Axle(fields, words)) => wrong(fields, &words, name),
        None => Vec::new(),
    }
}

/// All numbers of the record that the refusal is about, by the letters of the layout or by name.
pub fn numbers(bytes: &[u8], refusal: &Refusal) -> Vec<(&'static str, u32)> {
    let by_name = |fields: &[Field; 2], words: [u32; 2]| {
        fields.iter().map(|field| field.name).zip(words).collect()
    };
    match record(bytes, refusal) {
        Some(Record::Member(words)) => {
            MEMBER_LETTERS.into_iter().zip(words.map(u32::from)).collect()
        }
        Some(Record::Heading(words)) => by_name(&HEADING, words.map(u32::from)),
        Some(Record::Axle(fields, words)) => by_name(fields, words),
        None => Vec::new(),
    }
}
