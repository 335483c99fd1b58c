//! The order in which the members of a survey stand from version 2 on.

use super::error::{with_unit, Problem};
use super::field::Field;
use super::tables::*;
use super::write::kind_of;
use crate::file::Member;

/// The order in words.
pub const ORDER: &str = "by kind, then span or truss spacing, then spacing, each rising";
/// The words that it goes by.
const ORDER_WORDS: [usize; 3] = [KIND_WORD, SPAN_WORD, SPACING_WORD];

/// The word that puts the later of two members before the other: the first in which they differ,
/// where the later has less. Equals stand as they come.
fn deciding(before: &Member, later: &Member) -> Option<usize> {
    let word = ORDER_WORDS.into_iter().find(|word| before[*word] != later[*word])?;
    (later[word] < before[word]).then_some(word)
}

/// The field of this word in a member; the kind is none.
fn field_of(words: &Member, word: usize) -> Option<&'static Field> {
    kind_of(words)?.field(word)
}

/// What the number in this word is called; a field by its name.
pub fn called(words: &Member, word: usize, name: impl Fn(&Field) -> String) -> String {
    field_of(words, word).map_or(MEMBER_LETTERS[word].to_string(), name)
}

/// A member's number in this word as people read it: a kind by its term, a length by its unit.
fn shown(words: &Member, word: usize) -> String {
    let number = words[word];
    match kind_of(words).filter(|_| word == KIND_WORD) {
        Some(kind) => format!("{} ({number})", kind.name),
        None => with_unit(number, field_of(words, word).map_or("", Field::unit)),
    }
}

/// The word at fault of a member that stands behind one that it comes before, and what is wrong
/// with it; `at` says where that one stands.
pub fn misplaced(before: &Member, later: &Member, at: String) -> Option<(usize, Problem)> {
    let word = deciding(before, later)?;
    let [found, greater] = [later, before].map(|words| shown(words, word));
    Some((word, Problem::OutOfOrder { found, greater, at }))
}
