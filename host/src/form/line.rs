//! A line of the text form: clauses, and the fields that they give a value.

use super::error::{Problem, TextError};
use super::field::{Field, Limits, Value};

/// A line with something in it: its number, its first words, and its other clauses, in all of
/// which one blank stands for any run of blanks and tabs.
pub struct Line {
    pub number: usize,
    pub head: String,
    clauses: Vec<String>,
}

fn one_blank(text: &str) -> String {
    text.split_whitespace().collect::<Vec<_>>().join(" ")
}

impl Line {
    /// A line without its comment; None where nothing is left. Empty clauses, as a comma at the
    /// end leaves them, are passed over: what they might have held is missed by name.
    pub fn cut(number: usize, text: &str) -> Option<Line> {
        let mut clauses = text.split(',').map(one_blank);
        let head = clauses.next()?;
        let clauses: Vec<String> = clauses.filter(|clause| !clause.is_empty()).collect();
        let blank = head.is_empty() && clauses.is_empty();
        (!blank).then_some(Line { number, head, clauses })
    }

    /// A fault of this line.
    pub fn fault(&self, field: &str, problem: Problem) -> TextError {
        TextError { line: self.number, field: field.to_string(), problem }
    }

    /// The one value of a field in this line.
    pub fn value(&self, field: &Field) -> Result<u32, TextError> {
        let mut found = self.clauses.iter().filter_map(|clause| after_name(clause, field));
        let value = match (found.next(), found.next()) {
            (None, _) => Err(Problem::Missing),
            (Some(_), Some(_)) => Err(Problem::Twice),
            (Some(text), None) => match field.value {
                Value::Number(limits) => number(text, limits),
                Value::Word(all) => one_of(text, all),
            },
        };
        value.map_err(|problem| self.fault(field.name, problem))
    }

    /// The clauses that are of none of these fields.
    pub fn strangers(&self, fields: &[&Field]) -> Vec<TextError> {
        let known = |clause: &str| fields.iter().any(|field| after_name(clause, field).is_some());
        let strangers = self.clauses.iter().filter(|clause| !known(clause));
        strangers.map(|clause| self.fault(&format!("'{clause}'"), Problem::UnknownField)).collect()
    }

    /// The values of the fields go to their words; a field that has none stays 0. All faults come
    /// back: of the fields alone, then of two beside each other.
    pub fn fill<N: Copy + Into<u32> + TryFrom<u32>>(
        &self,
        fields: &[&Field],
        words: &mut [N],
    ) -> Vec<TextError> {
        let mut faults = Vec::new();
        for field in fields {
            match (self.value(field).map(N::try_from), words.get_mut(field.word)) {
                (Ok(Ok(value)), Some(word)) => *word = value,
                (Ok(_), _) => {}
                (Err(fault), _) => faults.push(fault),
            }
        }
        let misfit = |field: &&Field| Some(self.fault(field.name, field.misfit(words)?));
        faults.extend(fields.iter().filter_map(misfit));
        faults
    }
}

/// What follows the field's name in a clause.
fn after_name<'a>(clause: &'a str, field: &Field) -> Option<&'a str> {
    match clause.strip_prefix(field.name)? {
        "" => Some(""),
        rest => rest.strip_prefix(' '),
    }
}

/// A whole number within its limits, and its unit.
fn number(text: &str, limits: Limits) -> Result<u32, Problem> {
    let (digits, unit) = text.split_once(' ').unwrap_or((text, ""));
    let found = digits.to_string();
    if digits.is_empty() || !digits.bytes().all(|byte| byte.is_ascii_digit()) {
        return Err(Problem::NotWhole { found });
    }
    if unit != limits.unit {
        return Err(Problem::Unit { found: unit.to_string(), unit: limits.unit });
    }
    match digits.parse() {
        Ok(value) if limits.hold(value) => Ok(value),
        _ => Err(Problem::Outside { found, limits }),
    }
}

/// The number of one of these words.
fn one_of(text: &str, all: &[(&'static str, u16)]) -> Result<u32, Problem> {
    match all.iter().find(|(word, _)| *word == text) {
        Some(&(_, number)) => Ok(number.into()),
        None => {
            let allowed = all.iter().map(|(word, _)| *word).collect();
            Err(Problem::NotOneOf { found: text.to_string(), allowed })
        }
    }
}
