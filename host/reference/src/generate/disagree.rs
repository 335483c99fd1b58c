//! Records of two measurers that are each acceptable and cannot be joined.

use super::disorder::{disorder, number, numbers, room, Disorder};
use super::survey::member;
use super::{survey_bytes, Random, Spread};
use crate::join::{rule, Rule};
use crate::layout::{Limit, Words, KIND, S6, SECTION, SPACING, TRUSS_HEIGHT};
use crate::reader;

/// How two records cannot be joined.
#[derive(Clone, Copy, Debug, PartialEq, Eq, PartialOrd, Ord)]
pub enum Disagreement {
    /// A number that must agree.
    Number,
    Species,
    Section,
    Kind,
    /// A size, a span, a spacing or a rot that is too far from the other.
    Size,
    /// Both a size and a number.
    SizeAndNumber,
}

impl Disagreement {
    pub const ALL: [Disagreement; 6] = [
        Disagreement::Number,
        Disagreement::Species,
        Disagreement::Section,
        Disagreement::Kind,
        Disagreement::Size,
        Disagreement::SizeAndNumber,
    ];

    /// The document's refusal number: "18 before 19 in it".
    pub fn number(self) -> u64 {
        match self {
            Disagreement::Size => 19,
            _ => 18,
        }
    }
}

/// The values of a number, each too far from the first's, that the second may have.
fn too_far(random: &mut Random, first: &Words, second: &Words, limit: Limit) -> Vec<u16> {
    let (value, (least, greatest)) = (first[limit.0], room(second, limit));
    let Rule::Mean { apart, .. } = rule(first, limit.0) else { return Vec::new() };
    let any = random.between(least, greatest);
    // The nearest are the ones to tell a wrong limit by, so they come more often.
    let (above, below) = (value.saturating_add(apart + 1), value.saturating_sub(apart + 1));
    let mut values = vec![above, above, below, below, least, greatest, any];
    values.retain(|other| (least..=greatest).contains(other) && other.abs_diff(value) > apart);
    values
}

fn size(random: &mut Random, first: &Words, second: &mut Words) -> bool {
    let limited = |word| match rule(first, word) {
        Rule::Mean { apart, .. } => apart < u16::MAX,
        Rule::Same => false,
    };
    let limit = *random.pick(&numbers(first, limited));
    let values = too_far(random, first, second, limit);
    if values.is_empty() {
        return false;
    }
    second[limit.0] = *random.pick(&values);
    true
}

fn same_number(random: &mut Random, second: &mut Words) -> bool {
    let same = numbers(second, |word| rule(second, word) == Rule::Same);
    number(random, second, &same)
}

/// A sawn cross beam as a chord, or a chord as such a beam, with the same numbers: of all that must
/// agree only the kind does not, as of no other two kinds. False where no survey has that record.
fn kind_alone(random: &mut Random, second: &mut Words) -> bool {
    const CROSS_BEAM: u16 = 2;
    const CHORD: u16 = 3;
    let mut other = *second;
    match (second[KIND], second[SECTION]) {
        (CROSS_BEAM, 2) => {
            let chord = member(random, Spread::Usual, CHORD);
            [KIND, SPACING, TRUSS_HEIGHT].iter().for_each(|&word| other[word] = chord[word]);
        }
        (CHORD, 2) => {
            other[KIND] = CROSS_BEAM;
            [SPACING, TRUSS_HEIGHT, S6].iter().for_each(|&word| other[word] = 0);
        }
        _ => return false,
    }
    let accepted = reader::records(&survey_bytes(&[other])).is_ok();
    if accepted {
        *second = other;
    }
    accepted
}

fn kind(random: &mut Random, first: &mut Words, second: &mut Words) -> bool {
    (!random.once_in(3) && kind_alone(random, second))
        || disorder(random, first, second, Disorder::Kind)
}

/// Changes the second of two records that can be joined so that they cannot, each acceptable still;
/// false where it cannot be so changed.
pub fn disagree(
    random: &mut Random,
    first: &mut Words,
    second: &mut Words,
    way: Disagreement,
) -> bool {
    match way {
        Disagreement::Number => same_number(random, second),
        Disagreement::Species => disorder(random, first, second, Disorder::Species),
        Disagreement::Section => disorder(random, first, second, Disorder::Section),
        Disagreement::Kind => kind(random, first, second),
        Disagreement::Size => size(random, first, second),
        Disagreement::SizeAndNumber => size(random, first, second) && same_number(random, second),
    }
}
