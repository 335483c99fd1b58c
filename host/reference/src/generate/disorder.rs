//! Records of two surveys that are each acceptable but not in the order of one bridge read twice:
//! the second is sounder, or a number of it that does not wear is another.

use super::survey::member;
use super::{Random, Spread};
use crate::layout::*;

/// How the second record is not the first, worn as much or more.
#[derive(Clone, Copy, Debug, PartialEq, Eq, PartialOrd, Ord)]
pub enum Disorder {
    /// Less rot, lost area or dead load.
    Sounder,
    /// A closely spaced stringer with more rot, in itself or in its deck.
    CloseRot,
    /// Another number that does not wear.
    Number,
    Species,
    Section,
    Kind,
}

impl Disorder {
    pub const ALL: [Disorder; 6] = [
        Disorder::Sounder,
        Disorder::CloseRot,
        Disorder::Number,
        Disorder::Species,
        Disorder::Section,
        Disorder::Kind,
    ];
}

/// The used numbers of a record that are wanted.
pub(super) fn numbers(words: &Words, wanted: impl Fn(usize) -> bool) -> Vec<Limit> {
    used(words[KIND], words[SECTION]).filter(|limit| wanted(limit.0)).copied().collect()
}

/// A wearing number that is 1 or more in the first, and less in the second.
fn sounder(random: &mut Random, first: &mut Words, second: &mut Words) -> bool {
    let &(word, _, _) = random.pick(&numbers(first, |word| wears(first, word)));
    first[word] = first[word].max(1);
    second[word] = random.edgy(0, first[word] - 1);
    true
}

/// A rot that is less than its greatest in the first, and more in the second.
fn close_rot(random: &mut Random, first: &mut Words, second: &mut Words) -> bool {
    if first[KIND] != CLOSE_STRINGER {
        return false;
    }
    let &(word, _, greatest) = random.pick(&numbers(first, |word| is_rot(first, word)));
    first[word] = first[word].min(greatest - 1);
    second[word] = random.edgy(first[word] + 1, greatest);
    true
}

/// The values that a number of a sound record may have beside its others.
pub(super) fn room(words: &Words, (word, least, greatest): Limit) -> (u16, u16) {
    let (truss, joint) = (in_truss(words[KIND]), is_joint(words[KIND]));
    match word {
        SPAN if truss => (least.max(words[FROM_SUPPORT] + 1), greatest),
        FROM_SUPPORT if truss => (least, words[SPAN] - 1),
        PART_A if joint => (least, words[WHOLE_B]),
        WHOLE_B if joint => (words[PART_A], greatest),
        _ => (least, greatest),
    }
}

/// Another value within this room: next to the one that stands there, at an edge, or anywhere.
fn other(random: &mut Random, value: u16, (least, greatest): (u16, u16)) -> Option<u16> {
    let any = random.between(least, greatest);
    let mut others = vec![value.saturating_sub(1), value + 1, least, greatest, any];
    others.retain(|&other| other != value && least <= other && other <= greatest);
    (!others.is_empty()).then(|| *random.pick(&others))
}

/// Another value in one of these numbers.
pub(super) fn number(random: &mut Random, second: &mut Words, limits: &[Limit]) -> bool {
    let limit = *random.pick(limits);
    let another = other(random, second[limit.0], room(second, limit));
    second[limit.0] = another.unwrap_or(second[limit.0]);
    another.is_some()
}

fn species(random: &mut Random, second: &mut Words) -> bool {
    let another = other(random, second[SPECIES], (1, 8)).filter(|_| has_species(second[KIND]));
    second[SPECIES] = another.unwrap_or(second[SPECIES]);
    another.is_some()
}

/// Do the section's numbers suit this code too?
fn suits(words: &Words, code: u16) -> bool {
    let limits = of_section(words[KIND], code);
    let unused = (S1..=S6).filter(|word| limits.iter().all(|limit| limit.0 != *word));
    let within = |limit: &Limit| limit.1 <= words[limit.0] && words[limit.0] <= limit.2;
    limits.iter().all(within) && unused.into_iter().all(|word| words[word] == 0)
}

/// The numbers of a section with this code.
fn section_of(random: &mut Random, kind: u16, code: u16) -> [u16; 6] {
    loop {
        let words = member(random, Spread::Usual, kind);
        if words[SECTION] == code {
            return std::array::from_fn(|i| words[S1 + i]);
        }
    }
}

/// Mostly the section code alone where the numbers suit another, else the whole section.
fn section(random: &mut Random, second: &mut Words) -> bool {
    let others = sections(second[KIND]).iter().copied().filter(|&code| code != second[SECTION]);
    let others: Vec<u16> = others.collect();
    if others.is_empty() {
        return false;
    }
    let alone = others.iter().copied().find(|&code| suits(second, code));
    let code = alone.filter(|_| !random.once_in(4)).unwrap_or_else(|| *random.pick(&others));
    if alone != Some(code) {
        let numbers = section_of(random, second[KIND], code);
        second[S1..=S6].copy_from_slice(&numbers);
    }
    second[SECTION] = code;
    true
}

/// A member of another kind.
fn kind(random: &mut Random, second: &mut Words) -> bool {
    let another = random.between(1, LAST_KIND - 1);
    let skipped = u16::from(another >= second[KIND]);
    *second = member(random, Spread::Usual, another + skipped);
    true
}

/// Changes two acceptable records in order so that they are not, each acceptable still; false where
/// they cannot be so changed.
pub fn disorder(random: &mut Random, first: &mut Words, second: &mut Words, way: Disorder) -> bool {
    match way {
        Disorder::Sounder => sounder(random, first, second),
        Disorder::CloseRot => close_rot(random, first, second),
        Disorder::Number => {
            let kept = numbers(second, |word| !wears(second, word));
            number(random, second, &kept)
        }
        Disorder::Species => species(random, second),
        Disorder::Section => section(random, second),
        Disorder::Kind => kind(random, second),
    }
}
