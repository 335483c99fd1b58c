//! Two surveys of one bridge by two measurers, in all that may differ and by as much as may be; and
//! records that differ in one field alone.

use super::disorder::{numbers, room};
use super::survey::member;
use super::{any_survey, in_order, Random, Spread};
use crate::join::{rule, Rule};
use crate::layout::*;

/// A number as the other measurer has it: the same, or as far from it as may be or less.
fn number(random: &mut Random, record: &Words, limit: Limit) -> u16 {
    let (value, (least, greatest)) = (record[limit.0], room(record, limit));
    match rule(record, limit.0) {
        Rule::Mean { apart, .. } if random.once_in(2) => random.edgy(
            least.max(value.saturating_sub(apart)),
            greatest.min(value.saturating_add(apart)),
        ),
        _ => value,
    }
}

/// The record as the other measurer has it.
pub fn measured(random: &mut Random, record: &Words) -> Words {
    let mut again = *record;
    for &limit in used(record[KIND], record[SECTION]) {
        again[limit.0] = number(random, record, limit);
    }
    again
}

/// The same of records in order, which stay so: none moves before the one in front of it or behind
/// the next.
fn measured_in_order(random: &mut Random, first: &[Words]) -> Vec<Words> {
    let mut second: Vec<Words> = Vec::with_capacity(first.len());
    for (i, record) in first.iter().enumerate() {
        let mut again = measured(random, record);
        let before = second.last().is_some_and(|front| standing(&again) < standing(front));
        let behind = first.get(i + 1).is_some_and(|next| standing(&again) > standing(next));
        if before || behind {
            [again[SPAN], again[SPACING]] = [record[SPAN], record[SPACING]];
        }
        second.push(again);
    }
    second
}

/// The records as the other measurer has them, in whatever order.
fn measured_freely(random: &mut Random, first: &[Words]) -> Vec<Words> {
    first.iter().map(|record| measured(random, record)).collect()
}

/// Two surveys with these members, each in the order that its version has. Where one alone has an
/// order the other need not stand so.
pub(super) fn two_measured_of(
    random: &mut Random,
    members: &[Words],
    versions: [u16; 2],
) -> [Vec<Words>; 2] {
    let first = if versions == [FREE_ORDER; 2] { members.to_vec() } else { in_order(members) };
    let second = match versions {
        [IN_ORDER, IN_ORDER] => measured_in_order(random, &first),
        _ => measured_freely(random, &first),
    };
    let exchanged = match versions {
        [FREE_ORDER, IN_ORDER] => true,
        [IN_ORDER, FREE_ORDER] => false,
        _ => random.once_in(2),
    };
    if exchanged {
        [second, first]
    } else {
        [first, second]
    }
}

/// Two surveys of so many members, in the same way.
pub(super) fn two_measured(
    random: &mut Random,
    spread: Spread,
    count: usize,
    versions: [u16; 2],
) -> [Vec<Words>; 2] {
    let members = any_survey(random, spread, count);
    two_measured_of(random, &members, versions)
}

/// Two surveys of two members, both in order, whose joined records are not: the spans come to the
/// same, and the first's spacing to the greater.
pub fn crossing(random: &mut Random) -> [Vec<Words>; 2] {
    let kind = *random.pick(&[1, 3, 4, 5, 6, CLOSE_STRINGER]);
    let mut record = member(random, Spread::Usual, kind);
    // No usual span is the greatest; a spacing may be.
    record[SPACING] -= u16::from(numbers(&record, |word| word == SPACING)[0].2 == record[SPACING]);
    let more = |span: u16, spacing: u16| {
        let mut words = record;
        words[SPAN] += span;
        words[SPACING] += spacing;
        words
    };
    let crossed = vec![more(0, 1), more(1, 0)];
    let level = vec![more(1, 0), more(1, 0)];
    if random.once_in(2) {
        [crossed, level]
    } else {
        [level, crossed]
    }
}

/// Two acceptable records that differ in one field alone, and the number of their refusal.
#[derive(Clone, Copy, Debug)]
pub struct Apart {
    pub first: Words,
    pub second: Words,
    pub word: usize,
    pub number: Option<u64>,
}

/// The differences that are tried of a number: each up to the first that is too great, or a few;
/// and as far as its range goes.
fn steps(rule: Rule, farthest: u16) -> Vec<u16> {
    let most = match rule {
        Rule::Same => 1,
        Rule::Mean { apart, .. } => apart.saturating_add(1).min(6),
    };
    let mut steps: Vec<u16> = (1..=most).chain([farthest - farthest % 2, farthest]).collect();
    steps.retain(|&step| (1..=farthest).contains(&step));
    steps.sort_unstable();
    steps.dedup();
    steps
}

/// A record beside others that differ from it in one used number, at both edges of what that may be
/// and where it stands, the first greater and the second greater.
pub fn apart_in_one(record: &Words) -> Vec<Apart> {
    const ALL_SPECIES: Limit = (SPECIES, 1, 8);
    let species = has_species(record[KIND]).then_some(&ALL_SPECIES);
    let mut all = Vec::new();
    for &limit in used(record[KIND], record[SECTION]).chain(species) {
        let (word, (least, greatest)) = (limit.0, room(record, limit));
        let rule = rule(record, word);
        for step in steps(rule, greatest - least) {
            let number = match rule {
                Rule::Same => Some(18),
                Rule::Mean { apart, .. } => (step > apart).then_some(19),
            };
            let lowers = [least, greatest - step, record[word].min(greatest - step)];
            for (lower, greater) in lowers.map(|lower| (lower, lower + step)) {
                let [mut first, mut second] = [*record; 2];
                (first[word], second[word]) = (lower, greater);
                all.push(Apart { first, second, word, number });
                all.push(Apart { first: second, second: first, word, number });
            }
        }
    }
    all
}
