//! Survey files that the document allows.

use super::Random;
use crate::crescent::last_depth;
use crate::layout::*;
use std::collections::BTreeMap;

/// How a file's numbers are spread.
#[derive(Clone, Copy, PartialEq, Eq)]
pub enum Spread {
    /// Over the whole of every range, its edges often.
    Wide,
    /// Little rot, loss and dead load and no great span, as on a bridge in use.
    Usual,
}

/// The depth of a crescent: often where its row begins or ends, where all rows end, or beyond.
fn depth(random: &mut Random, diameter: u16) -> u16 {
    let last = last_depth(diameter);
    if random.once_in(2) {
        *random.pick(&[0, 1, last, last + 1, 17, 18, 60])
    } else {
        random.between(0, last)
    }
}

/// Deck rot: often such that nothing, or a last centimetre, is left of the boards.
fn deck_rot(random: &mut Random, thickness: u16) -> u16 {
    if random.once_in(2) {
        *random.pick(&[0, 1, thickness - 1, thickness, (thickness + 1).min(20), 20])
    } else {
        random.between(0, thickness)
    }
}

/// The greatest span, cm, of a bridge in use: beams, then trusses.
const USUAL_SPAN: [u16; 2] = [900, 3000];

fn number(random: &mut Random, spread: Spread, words: &Words, limit: Limit) -> u16 {
    let (word, least, greatest) = limit;
    if spread == Spread::Wide {
        return match (words[SECTION], word) {
            (5, S2) => depth(random, words[S1]),
            _ if words[KIND] == CLOSE_STRINGER && word == DECK_ROT => {
                deck_rot(random, words[BOARD_THICKNESS])
            }
            _ => random.edgy(least, greatest),
        };
    }
    let greatest = match word {
        SPAN => USUAL_SPAN[usize::from(in_truss(words[KIND]))],
        _ if wears(words, word) => least + (greatest - least) / 20,
        _ => greatest,
    };
    random.between(least, greatest)
}

/// A member of this kind.
pub(super) fn member(random: &mut Random, spread: Spread, kind: u16) -> Words {
    let mut words: Words = [0; 16];
    words[KIND] = kind;
    words[SECTION] = *random.pick(sections(kind));
    if has_species(kind) {
        words[SPECIES] = random.between(1, 8);
    }
    for &(word, least, greatest) in used(kind, words[SECTION]) {
        let greatest = match word {
            FROM_SUPPORT if in_truss(kind) => words[SPAN] - 1,
            _ => greatest,
        };
        words[word] = number(random, spread, &words, (word, least, greatest));
    }
    if is_joint(kind) && words[PART_A] > words[WHOLE_B] {
        words.swap(PART_A, WHOLE_B);
    }
    words
}

/// So many members, kinds at random.
pub fn survey(random: &mut Random, spread: Spread, count: usize) -> Vec<Words> {
    let mut members = Vec::with_capacity(count);
    for _ in 0..count {
        let kind = random.between(1, LAST_KIND);
        members.push(member(random, spread, kind));
    }
    members
}

/// A member of each kind with each of its sections.
pub fn of_each_kind(random: &mut Random, spread: Spread) -> Vec<Words> {
    let mut met = BTreeMap::new();
    while met.len() < (1..=LAST_KIND).map(|kind| sections(kind).len()).sum() {
        let words = survey(random, spread, 1)[0];
        met.entry((words[KIND], words[SECTION])).or_insert(words);
    }
    met.into_values().collect()
}

/// So many members of all kinds in turn.
pub fn kinds_in_turn(random: &mut Random, spread: Spread, count: usize) -> Vec<Words> {
    (1..=LAST_KIND).cycle().take(count).map(|kind| member(random, spread, kind)).collect()
}

/// As many members as a survey has at most, of all kinds in turn.
pub fn full_survey(random: &mut Random, spread: Spread) -> Vec<Words> {
    kinds_in_turn(random, spread, MOST_MEMBERS)
}

/// The file of these members, in version 1, which has them as they come.
pub fn survey_bytes(members: &[Words]) -> Vec<u8> {
    survey_bytes_of(FREE_ORDER, members)
}
