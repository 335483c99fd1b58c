//! Closely spaced stringers at the border of k = 0.055, where seven of them share and no longer
//! five: a span of one centimetre more or less makes the difference.

use super::survey::member;
use super::{survey_bytes, Random, Spread};
use crate::layout::{Words, CLOSE_STRINGER, SPAN};
use crate::{reader, spread};

/// 0.055 in ten-thousandths.
const BORDER: i128 = 550;
const SPANS: [u16; 2] = [100, 5000];

fn five_share(words: &Words, span: u16) -> bool {
    let mut words = *words;
    words[SPAN] = span;
    let members = reader::survey(&survey_bytes(&[words])).expect("a sound survey");
    spread::stiffness_number(&members[0]) >= BORDER
}

/// The longest span over which five stringers share still, as k falls where the span grows, or the
/// next. None where the border is at no span.
pub fn at_seven_stringers(random: &mut Random) -> Option<Words> {
    let mut words = member(random, Spread::Usual, CLOSE_STRINGER);
    let [mut five, mut seven] = SPANS;
    if !five_share(&words, five) || five_share(&words, seven) {
        return None;
    }
    while seven - five > 1 {
        let middle = five + (seven - five) / 2;
        if five_share(&words, middle) {
            five = middle;
        } else {
            seven = middle;
        }
    }
    words[SPAN] = *random.pick(&[five, seven]);
    Some(words)
}
