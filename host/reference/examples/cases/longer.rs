//! Longer trestles: surveys of 64, 65, 180 and 255 members in every call, their counts and lengths,
//! and refusals at the last place.

use crate::between::deeper;
use crate::records::*;
use crate::survey_faults::{at_place, FAULTS};
use crate::yard::rising;
use reference::generate::{in_order, joined, reading_bits, survey_bytes_of, survey_length};
use reference::layout::*;
use reference::script::{Script, MOST_BYTES, MOST_ENTRIES};

/// So many members, all kinds and sections in turn and no two alike: the dead load is the place.
fn trestle(count: usize) -> Vec<Words> {
    in_turn(count).into_iter().zip(1..).map(|(words, q)| with(words, &[(DEAD_LOAD, q)])).collect()
}

/// Every place that may be mistaken for another, and lists at every edge.
fn sizes(script: &mut Script) {
    script.start();
    script.vehicle(&vehicle_of(&case_l()));
    for count in [64, 65, 180, MOST_MEMBERS] {
        script.title(&format!("a survey of {count} members"));
        script.survey(&survey_of(&trestle(count)));
        for place in [1, 64, 65, 128, 180, 254, count, count + 1, 255, 256, 257, 256 + count] {
            script.rate(place);
        }
        let least = 2 * count;
        for entries in [128, least - 1, least, least + 1, MOST_ENTRIES, MOST_ENTRIES + 1] {
            script.judge(entries);
        }
    }
}

/// The survey of 255 that is loaded, under a yard and a gauge.
fn loaded(script: &mut Script) {
    script.title("a yard of 32 on 255 members");
    for entries in [31, 33] {
        script.yard(&joined(&rising(32, 200)), entries);
    }
    script.title("gauges on 255 members");
    // 20 mm and a 64th: over the limit of a chord of 6 m, within that of a beam.
    for place in [64, 65, 247, 255, 256, 257] {
        script.gauge(place, [0, 1301, 20].map(reading_bits));
    }
    script.gauge(255, [0, 20, 1300].map(reading_bits));
    script.gauge(256, [0, 20, 1300].map(reading_bits));
}

/// Refused loads keep the survey of 255: its last place is rated behind them.
fn counts(script: &mut Script) {
    let full = survey_of(&trestle(MOST_MEMBERS));
    script.title("255 members, a byte too little and one too much");
    script.survey(&full[..full.len() - 1]);
    script.survey(&[&full[..], &[0]].concat());
    script.rate(255);
    script.title("64 members said to be 65, and 65 said to be 64, 66, 1 and none");
    script.survey(&with_byte(&survey_of(&trestle(64)), 5, 65));
    for count in [64, 66, 1, 0] {
        script.survey(&with_byte(&survey_of(&trestle(65)), 5, count));
    }
    script.title("a header alone: no members, 1, 64, 65, 128 and 255");
    for count in [0, 1, 64, 65, 128, 255] {
        script.survey(&with_byte(&full, 5, count)[..6]);
    }
    script.rate(255);
}

/// Each refusal that a record has, at a place that was none.
fn faults(script: &mut Script) {
    for (fault, count) in FAULTS.into_iter().zip([255, 180, 180, 65, 255]) {
        at_place(script, trestle(count), count, fault);
    }
    script.title("the first of two faulty records behind the 64th");
    let mut members = trestle(180);
    for (place, fault) in [(66, FAULTS[4]), (130, FAULTS[0])] {
        members[place - 1] = with(usual(1, 1), &[fault]);
    }
    script.survey(&survey_of(&members));
    script.title("version 2, the last of 255 before its predecessor");
    let mut members = in_order(&trestle(MOST_MEMBERS));
    members[MOST_MEMBERS - 1][SPACING] -= 1;
    script.survey(&survey_bytes_of(IN_ORDER, &members));
    script.rate(255);
}

/// Version 2 with more than 64 members, and what two surveys are refused for behind the 64th.
fn behind_the_64th(script: &mut Script) {
    script.title("version 2, 65 members in order");
    script.survey(&survey_bytes_of(IN_ORDER, &in_order(&trestle(65))));
    script.judge(130);
    let mut first = trestle(65);
    first[64] = with(usual(1, 1), &[(DEAD_LOAD, 65)]);
    let last = |changes: &[(usize, u16)]| {
        let mut second = first.clone();
        second[64] = with(first[64], changes);
        survey_of(&second)
    };
    let [species, span, q] = [SPECIES, SPAN, DEAD_LOAD].map(|field| first[64][field]);
    script.title("between, 65 members, the last with less dead load");
    script.between(&survey_of(&first), &last(&[(DEAD_LOAD, q - 1)]), 130);
    script.title("join, 65 members, the last of another species, and of a span too far apart");
    script.join(&survey_of(&first), &last(&[(SPECIES, species + 1)]), MOST_BYTES);
    script.join(&survey_of(&first), &last(&[(SPAN, span + 6)]), MOST_BYTES);
}

/// What `bridge` reads in the gate: the longest survey, and a lorry that some members do not bear.
pub fn bridge() -> Vec<u8> {
    [survey_of(&trestle(MOST_MEMBERS)), vehicle_of(&lorry(&[[4000, 0], [9000, 370]]))].concat()
}

/// Two surveys of 255 members, with lists and outputs that just hold them and just do not.
fn two_surveys(script: &mut Script) {
    let first = trestle(MOST_MEMBERS);
    let worn: Vec<Words> = first.iter().map(|&words| deeper(words)).collect();
    script.title("between, 255 members and a list of 509, of 510");
    for entries in [2 * MOST_MEMBERS - 1, 2 * MOST_MEMBERS] {
        script.between(&survey_of(&first), &survey_of(&worn), entries);
    }
    let heavier = |&words: &Words| with(words, &[(DEAD_LOAD, 2 * words[DEAD_LOAD] + 1)]);
    let second: Vec<Words> = first.iter().map(heavier).collect();
    let least = survey_length(MOST_MEMBERS);
    script.title("join, 255 members, an output of 8165 bytes, of 8166 and the longest");
    for room in [least - 1, least, MOST_BYTES] {
        script.join(&survey_of(&first), &survey_of(&second), room);
    }
    script.rate(255);
}

pub fn cases(script: &mut Script) {
    sizes(script);
    loaded(script);
    counts(script);
    faults(script);
    behind_the_64th(script);
    two_surveys(script);
}
