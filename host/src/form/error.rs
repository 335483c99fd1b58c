//! What is wrong with a text form, by line and field, or with a record of a file, by field.

use super::field::Limits;
use super::order::ORDER;
use super::tables::ORDERED_FROM;
use std::fmt;

/// A fault of the text: its line, from 1, the field, and what is wrong with it.
#[derive(Clone, Debug, PartialEq, Eq)]
pub struct TextError {
    /// The line, from 1.
    pub line: usize,
    /// The field by name, or the words that are no field.
    pub field: String,
    /// What is wrong with it.
    pub problem: Problem,
}

/// A fault of a record in a file: the field and what is wrong with it.
#[derive(Clone, Debug, PartialEq, Eq)]
pub struct FieldFault {
    /// The field by name and by the letter of the layout.
    pub field: String,
    /// What is wrong with it.
    pub problem: Problem,
}

/// What is wrong.
#[derive(Clone, Debug, PartialEq, Eq)]
pub enum Problem {
    /// The line is not UTF-8.
    NotText,
    /// The first line is neither `survey` nor `vehicle`.
    NoHeading,
    /// No member or axle follows the heading.
    NoRecord,
    /// More members or axles than a file holds.
    TooMany {
        /// So many it holds.
        most: usize,
    },
    /// The line opens with none of these words, or the field has none of them.
    NotOneOf {
        /// What stands there.
        found: String,
        /// What may stand there.
        allowed: Vec<&'static str>,
    },
    /// No field of this line is named so.
    UnknownField,
    /// The field does not stand in the line.
    Missing,
    /// The field stands in the line twice.
    Twice,
    /// The value is not a whole number.
    NotWhole {
        /// What stands there.
        found: String,
    },
    /// The unit is another one, or none.
    Unit {
        /// What stands there.
        found: String,
        /// The field's unit.
        unit: &'static str,
    },
    /// The number is outside its limits.
    Outside {
        /// The number.
        found: String,
        /// Its limits.
        limits: Limits,
    },
    /// The number stands for none of the words.
    NoCode {
        /// The number.
        found: u32,
        /// The words, each with its number.
        allowed: Vec<(&'static str, u16)>,
    },
    /// The number is not below that of another field.
    NotBelow {
        /// The number.
        found: u32,
        /// The other field's name.
        other: &'static str,
        /// The other field's number.
        limit: u32,
        /// The unit of both.
        unit: &'static str,
    },
    /// The number is above that of another field.
    Above {
        /// The number.
        found: u32,
        /// The other field's name.
        other: &'static str,
        /// The other field's number.
        limit: u32,
        /// The unit of both.
        unit: &'static str,
    },
    /// The member stands behind one that it comes before, in a version whose members stand in one
    /// order.
    OutOfOrder {
        /// What it has.
        found: String,
        /// What the other has.
        greater: String,
        /// Where the other stands.
        at: String,
    },
    /// The number is above what a version of the file holds, and the file is to go to that version.
    TooGreatFor {
        /// The version.
        version: u16,
        /// The number.
        found: u32,
        /// The greatest that the version holds.
        greatest: u32,
        /// The unit of both.
        unit: &'static str,
    },
    /// The field is unused, and not 0.
    Unused {
        /// The number.
        found: u16,
        /// Why nothing uses it.
        why: String,
    },
}

impl fmt::Display for TextError {
    fn fmt(&self, f: &mut fmt::Formatter) -> fmt::Result {
        write!(f, "line {}, {}: {}", self.line, self.field, self.problem)
    }
}

impl fmt::Display for FieldFault {
    fn fmt(&self, f: &mut fmt::Formatter) -> fmt::Result {
        write!(f, "{}: {}", self.field, self.problem)
    }
}

/// A number with its unit, where it has one.
pub(super) fn with_unit(number: impl fmt::Display, unit: &str) -> String {
    format!("{number} {unit}").trim_end().to_string()
}

/// The limits, or the one number that is taken; and the later version that takes what is found.
fn outside(f: &mut fmt::Formatter, found: &str, limits: &Limits) -> fmt::Result {
    let greatest = with_unit(limits.greatest, limits.unit);
    if limits.least == limits.greatest {
        return write!(f, "must be {greatest}, not {found}");
    }
    write!(f, "{found} is outside {} to {greatest}", limits.least)?;
    match found.parse().ok().and_then(|number| limits.later_for(number)) {
        Some(later) => {
            let greatest = with_unit(later.greatest, limits.unit);
            write!(f, "; version {} takes up to {greatest}", later.version)
        }
        None => Ok(()),
    }
}

/// A number that is above, or not below, that of another field.
fn beside(f: &mut fmt::Formatter, how: &str, other: &str, numbers: [String; 2]) -> fmt::Result {
    let [found, limit] = numbers;
    write!(f, "{found} is {how} the {other} of {limit}")
}

const NO_HEADING: &str = "the first line must be 'survey', 'survey, version N', 'vehicle, ..' or \
                          'vehicle, version N, ..'";

impl fmt::Display for Problem {
    fn fmt(&self, f: &mut fmt::Formatter) -> fmt::Result {
        match self {
            Problem::NotText => write!(f, "this is not text (UTF-8)"),
            Problem::NoHeading => f.write_str(NO_HEADING),
            Problem::NoRecord => write!(f, "none follows the heading"),
            Problem::TooMany { most } => write!(f, "a file holds at most {most}"),
            Problem::NotOneOf { found, allowed } => {
                write!(f, "'{found}' is not one of: {}", allowed.join(", "))
            }
            Problem::UnknownField => write!(f, "there is no such field here"),
            Problem::Missing => write!(f, "is missing"),
            Problem::Twice => write!(f, "stands here twice"),
            Problem::NotWhole { found } => write!(f, "'{found}' is not a whole number"),
            Problem::Unit { found, unit: "" } => write!(f, "'{found}' follows a plain number"),
            Problem::Unit { found, unit } => write!(f, "the unit is {unit}, not '{found}'"),
            Problem::Outside { found, limits } => outside(f, found, limits),
            Problem::NoCode { found, allowed } => {
                let code = |(word, number): &(&str, u16)| format!("{number} {word}");
                let allowed: Vec<String> = allowed.iter().map(code).collect();
                write!(f, "{found} is not one of: {}", allowed.join(", "))
            }
            Problem::NotBelow { found, other, limit, unit } => {
                beside(f, "not below", other, [found, limit].map(|number| with_unit(number, unit)))
            }
            Problem::Above { found, other, limit, unit } => {
                beside(f, "above", other, [found, limit].map(|number| with_unit(number, unit)))
            }
            Problem::OutOfOrder { found, greater, at } => {
                write!(f, "{found} is below the {greater} of {at}; ")?;
                write!(f, "from version {ORDERED_FROM} members stand {ORDER}")
            }
            Problem::TooGreatFor { version, found, greatest, unit } => {
                let (found, greatest) = (with_unit(found, unit), with_unit(greatest, unit));
                write!(f, "{found} is above the {greatest} that version {version} holds")
            }
            Problem::Unused { found, why } => write!(f, "{found} must be 0: {why}"),
        }
    }
}

impl std::error::Error for TextError {}
impl std::error::Error for FieldFault {}
