//! Two surveys of one bridge joined: each word of each kind as far apart as may be and farther, at
//! the edges of its range, every refusal and each pair of neighbours in their order, outputs of
//! every length, all versions, and what the call leaves as it is.

use crate::records::*;
use reference::generate::{crossing, survey_bytes_of, survey_length, with_version, Random};
use reference::join::{rule, Rule};
use reference::layout::*;
use reference::script::{Script, MOST_BYTES};

/// The call with an output that is just long enough for the first survey's members.
fn join(script: &mut Script, first: &[Words], second: &[Words]) {
    script.join(&survey_of(first), &survey_of(second), survey_length(first.len()));
}

/// One number of the only record in each survey, then the other way round.
fn both_ways(script: &mut Script, record: Words, word: usize, numbers: [u16; 2]) {
    let [first, second] = numbers.map(|value| with(record, &[(word, value)]));
    join(script, &[first], &[second]);
    join(script, &[second], &[first]);
}

/// The words that are not the kind or the section and that a record uses, each met once.
fn own_words(kind: u16, code: u16) -> impl Iterator<Item = usize> {
    let used = move |word: &usize| used_words(kind, code) >> word & 1 == 1;
    let first = move |word: &usize| is_first(kind, code, *word);
    (0..16).filter(|word| *word != KIND && *word != SECTION).filter(used).filter(first)
}

/// Each word one greater, as far apart as may be, and one farther; losses and dead load far apart.
fn words(script: &mut Script, kind: u16, code: u16) {
    let record = usual(kind, code);
    script.title(&format!("join, kind {kind} section {code}"));
    join(script, &[record], &[record]);
    for word in own_words(kind, code) {
        let steps = match rule(&record, word) {
            Rule::Same => vec![1],
            Rule::Mean { apart: u16::MAX, .. } => vec![1, 2, 9001],
            Rule::Mean { apart: 1, .. } => vec![1, 2],
            Rule::Mean { apart, .. } => vec![1, 2, apart, apart + 1],
        };
        for step in steps {
            both_ways(script, record, word, [record[word], record[word] + step]);
        }
    }
}

/// Each word that has a mean at both edges of its range; a truss has its x in the shortest span.
fn edges(script: &mut Script, kind: u16, code: u16) {
    let record = usual(kind, code);
    let record = if in_truss(kind) { with(record, &[(FROM_SUPPORT, 99)]) } else { record };
    script.title(&format!("join, edges of kind {kind} section {code}"));
    for &(word, least, greatest) in used(kind, code) {
        let Rule::Mean { apart, .. } = rule(&record, word) else { continue };
        let by = apart.min(greatest - least);
        if is_first(kind, code, word) {
            let numbers = |one, other| [one, other].map(|value| [with(record, &[(word, value)])]);
            for [first, second] in [numbers(least, least + by), numbers(greatest, greatest - by)] {
                join(script, &first, &second);
            }
        }
    }
}

/// All that may differ at once, some greater in the first survey and some in the second.
fn all_words(script: &mut Script) {
    script.title("join, all numbers apart");
    for (kind, code) in kinds() {
        let [mut first, mut second] = [usual(kind, code); 2];
        for (&(word, _, _), i) in used(kind, code).zip(0..) {
            if let Rule::Mean { apart, .. } = rule(&second, word) {
                let end = if i % 2 == 0 { &mut first } else { &mut second };
                end[word] += apart.min(1001);
            }
        }
        join(script, &[first], &[second]);
    }
}

/// Spans at the edges of their range and of what they may be beside x.
fn spans(script: &mut Script) {
    script.title("join, spans 100 and 105 or 106, 4995 or 4994 and 5000");
    for numbers in [[100, 105], [100, 106], [4995, 5000], [4994, 5000]] {
        both_ways(script, stringer(0), SPAN, numbers);
    }
    script.title("join, x just below the shorter span, and not below it");
    for numbers in [[201, 201], [201, 202], [201, 206], [201, 207], [200, 205]] {
        both_ways(script, chord(), SPAN, numbers);
    }
    both_ways(script, with(chord(), &[(FROM_SUPPORT, 4994)]), SPAN, [4995, 5000]);
    script.title("join, spans whose low bytes are near or far");
    for numbers in [[255, 256], [255, 511], [253, 258]] {
        both_ways(script, stringer(0), SPAN, numbers);
    }
}

/// The code alone, and with the numbers that belong to it; the kind; each with sizes too far apart.
fn codes(script: &mut Script) {
    let (log, crescent) = (usual(1, 1), with(usual(1, 1), &[(SECTION, 5)]));
    let far = |words: Words| with(words, &[(SPAN, 650), (SPACING, 90)]);
    script.title("join, a log and a crescent of the same numbers");
    join(script, &[log], &[crescent]);
    join(script, &[crescent], &[far(log)]);
    script.title("join, other kinds and sections");
    for [first, second] in [
        [usual(1, 1), usual(1, 2)],
        [usual(1, 1), usual(7, 1)],
        [usual(7, 2), usual(1, 2)],
        [usual(5, 4), usual(6, 4)],
        [usual(3, 2), usual(4, 3)],
        [usual(3, 2), usual(2, 2)],
        [usual(1, 1), usual(2, 1)],
    ] {
        join(script, &[first], &[second]);
        join(script, &[second], &[far(first)]);
    }
}

fn counts(script: &mut Script) {
    let [sound, far] = [0, 2].map(stringer);
    let other = with(sound, &[(SPECIES, 2)]);
    script.title("join, different counts, whatever the records");
    join(script, &[sound], &[sound, sound]);
    join(script, &[sound, sound], &[sound]);
    for second in [far, other] {
        join(script, &[sound], &[second, sound]);
        join(script, &[sound, sound], &[second]);
    }
    script.join(&survey_of(&[sound]), &survey_of(&[sound, far]), 0);
}

/// The first record at fault, and 18 before 19 in it.
fn places(script: &mut Script) {
    let [sound, far] = [0, 2].map(stringer);
    let other = with(sound, &[(SPECIES, 2)]);
    let both = with(far, &[(SPECIES, 2)]);
    script.title("join, 18 before 19 in a record");
    join(script, &[sound], &[both]);
    join(script, &[both], &[sound]);
    for word in [SPAN, SPACING, S1] {
        join(script, &[sound], &[with(sound, &[(word, sound[word] + 6), (S3, 2)])]);
    }
    script.title("join, the first record at fault");
    for second in [[far, other], [other, far], [sound, far], [sound, other], [both, far]] {
        join(script, &[sound; 2], &second);
    }
    join(script, &[sound; 3], &[sound, far, both]);
    join(script, &[sound; 3], &[sound, both, far]);
    script.title("join, the last of 64");
    let mut second = [sound; 64];
    second[63] = far;
    script.join(&survey_of(&[sound; 64]), &survey_of(&second), 0);
}

/// Files that are no surveys, as the first and as the second.
fn own_refusals(script: &mut Script) {
    let sound = survey_of(&[stringer(1)]);
    let changed = |word, value| survey_of(&[with(stringer(1), &[(word, value)])]);
    for (title, file) in [
        ("no bytes", vec![]),
        ("cut short", sound[..37].to_vec()),
        ("a byte left over", [&sound[..], &[0]].concat()),
        ("a vehicle's mark", with_byte(&sound, 2, b'V')),
        ("version 3", with_version(&sound, 3)),
        ("no members", with_byte(&sound, 5, 0)),
        ("255 members, by its count", with_byte(&sound, 5, 255)),
        ("a kind", changed(KIND, 8)),
        ("a species", changed(SPECIES, 9)),
        ("a section", changed(SECTION, 3)),
        ("an unused field", changed(WHOLE_B, 1)),
        ("a range", changed(S2, 61)),
    ] {
        script.title(&format!("join, first then second refused: {title}"));
        script.join(&file, &sound, 38);
        script.join(&sound, &file, 38);
    }
}

/// Two faults at once: the first survey's own refusals, the second's, 18 and 19, 14.
fn order(script: &mut Script) {
    let [sound, far] = [0, 2].map(stringer);
    let [no_kind, no_species] = [KIND, SPECIES].map(|word| with(sound, &[(word, 0)]));
    script.title("join, the first survey's refusal before the second's");
    join(script, &[no_species], &[no_kind]);
    join(script, &[sound, no_species], &[no_kind]);
    script.title("join, the second survey's refusal before 18 and 19, and before 14");
    join(script, &[sound, sound], &[far, no_kind]);
    join(script, &[sound], &[cross_beam(), no_kind]);
    script.join(&survey_of(&[sound]), &survey_of(&[no_kind]), 0);
    script.title("join, the first survey's refusal before a different count");
    join(script, &[sound, no_kind], &[sound]);
    script.title("join, 16 in its survey's turn");
    let falling = [with(sound, &[(SPAN, 502)]), sound];
    let late = survey_bytes_of(IN_ORDER, &falling);
    script.join(&late, &survey_of(&[no_kind]), 70);
    script.join(&survey_of(&falling), &late, 70);
    script.join(&survey_of(&[no_kind]), &late, 70);
    script.join(&survey_of(&[sound]), &late, 0);
    script.title("join, 18 and 19 before 14");
    for second in [far, with(sound, &[(SPECIES, 2)])] {
        script.join(&survey_of(&[sound]), &survey_of(&[second]), 37);
        script.join(&survey_of(&[sound]), &survey_of(&[second]), 0);
    }
}

fn outputs(script: &mut Script) {
    let [one, other] = [0, 1].map(|rot| survey_of(&[stringer(rot)]));
    script.title("join, outputs of every length");
    for room in [0, 1, 5, 6, 7, 37, 38, 39, 100, MOST_BYTES + 1] {
        script.join(&one, &other, room);
    }
    let [one, other] = [0, 1].map(|rot| survey_of(&[stringer(rot); 2]));
    for room in [38, 69, 70, 71] {
        script.join(&one, &other, room);
    }
    script.title("join, 64 members with a byte too little, and a byte more than enough");
    let heavier = |words: Words| with(words, &[(DEAD_LOAD, 203)]);
    let second: Vec<Words> = in_turn(64).into_iter().map(heavier).collect();
    for room in [survey_length(64) - 1, survey_length(64) + 1] {
        script.join(&survey_of(&in_turn(64)), &survey_of(&second), room);
    }
}

/// All versions, and records that are in order in both surveys and not when they are joined.
fn versions(script: &mut Script) {
    let second: Vec<Words> =
        three().into_iter().map(|words| with(words, &[(SPAN, 603), (DEAD_LOAD, 0)])).collect();
    let pairs = [1, 2].into_iter().flat_map(|one| [1, 2].map(|other| [one, other]));
    for [one, other] in pairs {
        script.title(&format!("join, versions {one} and {other}"));
        script.join(&survey_bytes_of(one, &three()), &survey_bytes_of(other, &second), 102);
    }
    script.title("join, the order of the first: matched by place");
    let [short, long] = [stringer(0), with(stringer(1), &[(SPAN, 504)])];
    join(script, &[long, short], &[short, long]);
    script.join(&survey_bytes_of(2, &[short, long]), &survey_of(&[long, short]), 70);
    script.title("join, both in order and not when joined: version 1 has them so");
    let mut random = Random::new(10);
    for versions in [[2, 2], [2, 2], [1, 2], [2, 1]] {
        let ends = crossing(&mut random);
        let [first, second] = [0, 1].map(|end| survey_bytes_of(versions[end], &ends[end]));
        loaded(script, &first, &second);
    }
}

/// What is written is loaded then, and its members rated.
fn loaded(script: &mut Script, first: &[u8], second: &[u8]) {
    let written = reference::join(first, second, MOST_BYTES).expect("two surveys of one bridge");
    script.join(first, second, written.len());
    script.survey(&written);
    script.all(written[5].into());
}

/// The joined survey is not loaded, and no session is needed or changed.
fn session(script: &mut Script) {
    let files = |rots: [u16; 2]| rots.map(|rot| survey_of(&[stringer(rot)]));
    script.title("a new session joins, and has no survey after it");
    script.start();
    let [first, second] = files([6, 7]);
    script.join(&first, &second, 38);
    script.judge(2);
    script.vehicle(&vehicle_of(&case_l()));
    script.join(&first, &second, 38);
    script.rate(1);
    script.title("the loaded survey and vehicle are kept");
    script.survey(&survey_of(&[cross_beam()]));
    script.all(1);
    script.join(&first, &second, 38);
    script.all(1);
    script.join(&first, &survey_of(&[cross_beam()]), 38);
    script.all(1);
    script.join(&first, &[], 38);
    script.join(&first, &second, 0);
    script.all(1);
    script.title("the joined survey loaded and judged");
    loaded(script, &first, &second);
    let [first, second] = files([0, 1]);
    loaded(script, &first, &second);
    let worn = |words: Words| with(words, &[(SPAN, 605), (DEAD_LOAD, 251)]);
    let all: Vec<Words> = kinds().map(|(kind, code)| usual(kind, code)).collect();
    let second: Vec<Words> = all.iter().map(|&words| worn(words)).collect();
    loaded(script, &survey_of(&all), &survey_of(&second));
}

pub fn cases(script: &mut Script) {
    script.start();
    script.vehicle(&vehicle_of(&case_l()));
    script.survey(&survey_of(&[stringer(0)]));
    kinds().for_each(|(kind, code)| words(script, kind, code));
    script.judge(2);
    kinds().for_each(|(kind, code)| edges(script, kind, code));
    all_words(script);
    spans(script);
    codes(script);
    counts(script);
    places(script);
    own_refusals(script);
    order(script);
    outputs(script);
    script.judge(2);
    versions(script);
    session(script);
}
