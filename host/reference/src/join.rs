//! Two measurers, request 10 of document 02: "Section 25 has each size measured twice. Join two
//! surveys of one bridge".

use crate::layout::*;
use crate::reader::{self, File, Refused};

/// Where half a unit of a mean goes.
#[derive(Clone, Copy, Debug, PartialEq, Eq)]
pub enum Half {
    Up,
    Down,
}

/// How a field of two records becomes one.
#[derive(Clone, Copy, Debug, PartialEq, Eq)]
pub enum Rule {
    /// The two "must agree".
    Same,
    /// "the mean is taken", where they differ by no more than this.
    Mean { apart: u16, half: Half },
}

/// "An odd half goes up for span, spacing, rot, loss and dead load, and down otherwise."
const OF_SPAN: Rule = Rule::Mean { apart: 5, half: Half::Up };
const OF_SPACING_OR_ROT: Rule = Rule::Mean { apart: 1, half: Half::Up };
const OF_SIZE: Rule = Rule::Mean { apart: 1, half: Half::Down };
/// "Losses and dead load may differ by any amount."
const OF_LOAD_OR_LOSS: Rule = Rule::Mean { apart: u16::MAX, half: Half::Up };

/// A section's fields: "log diameter, width and height, c and a, the area of code 4", then rot,
/// then losses; "tiers, pieces, cuts, dowel type and diameter" must agree.
fn section_rule(code: u16, word: usize) -> Rule {
    match (code, word) {
        (1 | 5, S1) | (2, S1 | S2) | (3, S3 | S4) | (4, S1) => OF_SIZE,
        (1 | 5, S2) | (2, S3 | S4) | (3, S5) => OF_SPACING_OR_ROT,
        (2, S6) | (4, S2) => OF_LOAD_OR_LOSS,
        _ => Rule::Same,
    }
}

/// How this field of a record is joined: "Kinds, species, codes, x, .. A and B (deck rot too) must
/// agree; for kind 7 h must too." What a record does not use is 0 in both, and in the joined one.
pub fn rule(record: &Words, word: usize) -> Rule {
    match word {
        SPAN => OF_SPAN,
        SPACING => OF_SPACING_OR_ROT,
        TRUSS_HEIGHT if record[KIND] != CLOSE_STRINGER => OF_SIZE,
        DEAD_LOAD => OF_LOAD_OR_LOSS,
        S1..=S6 => section_rule(record[SECTION], word),
        _ => Rule::Same,
    }
}

/// The mean of two numbers.
fn mean(one: u16, other: u16, half: Half) -> u16 {
    let sum = u32::from(one) + u32::from(other);
    let odd = match half {
        Half::Up => sum % 2,
        Half::Down => 0,
    };
    u16::try_from(sum / 2 + odd).expect("no more than the greater")
}

/// "18: .. fields that must agree do" differ. "19: sizes too far apart." In a record 18 comes
/// first.
fn fault(first: &Words, second: &Words) -> Option<u64> {
    let any = |wrong: fn(Rule, u16) -> bool| {
        (0..first.len()).any(|i| wrong(rule(first, i), first[i].abs_diff(second[i])))
    };
    if any(|rule, by| rule == Rule::Same && by != 0) {
        return Some(18);
    }
    any(|rule, by| matches!(rule, Rule::Mean { apart, .. } if by > apart)).then_some(19)
}

/// Number and place of "18: counts differ, place 0, tested first", or else of the "first record at
/// fault".
fn disagreement(first: &[Words], second: &[Words]) -> Option<(u64, u64)> {
    if first.len() != second.len() {
        return Some((18, 0));
    }
    let mut pairs = first.iter().zip(second).zip(1..);
    pairs.find_map(|((first, second), place)| Some((fault(first, second)?, place)))
}

/// Two records of which neither is at fault.
fn joined(first: &Words, second: &Words) -> Words {
    std::array::from_fn(|i| match rule(first, i) {
        Rule::Same => first[i],
        Rule::Mean { half, .. } => mean(first[i], second[i], half),
    })
}

/// The bytes that are written for two survey files into an output of so many bytes: "after both are
/// read, the first's own refusals before the second's", 18 and 19; "then 14 if the output is too
/// short". "The joined survey is written as version 1, so its order is the first survey's."
pub fn join(first: &[u8], second: &[u8], room: usize) -> Result<Vec<u8>, Refused> {
    let refused = |number, place| Refused { file: File::Survey, number, place };
    let (first, second) = (reader::records(first)?, reader::records(second)?);
    if let Some((number, place)) = disagreement(&first, &second) {
        return Err(refused(number, place));
    }
    let records: Vec<Words> =
        first.iter().zip(&second).map(|(first, second)| joined(first, second)).collect();
    let bytes = survey_bytes_of(FREE_ORDER, &records);
    if room < bytes.len() {
        return Err(refused(14, 0));
    }
    Ok(bytes)
}
