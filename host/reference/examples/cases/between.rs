//! Two surveys of one bridge: all verdicts at their limits, each word of each kind greater and less,
//! lists of every length, every refusal and each pair of neighbours in their order, and what the
//! call keeps.

use crate::records::*;
use reference::generate::VehicleWords;
use reference::layout::*;
use reference::script::{Script, MOST_ENTRIES};

/// The call with a list that just holds the first survey's members.
fn between(script: &mut Script, first: &[Words], second: &[Words]) {
    script.between(&survey_of(first), &survey_of(second), 2 * first.len());
}

fn stringers(script: &mut Script, first: u16, second: u16) {
    between(script, &[stringer(first)], &[stringer(second)]);
}

/// One axle at mid-span gives 0.4 of its weight.
fn verdicts(script: &mut Script) {
    script.start();
    for (weight, verdict) in [
        (3357, "all, at the second's limit"),
        (3358, "undecided, just over the second's limit"),
        (4300, "undecided, at the first's limit"),
        (4301, "none, just over the first's limit"),
    ] {
        script.title(&format!("between rot 0 and 1: {verdict}"));
        script.vehicle(&vehicle_of(&lorry(&[[weight, 0]])));
        stringers(script, 0, 1);
    }
    script.title("the same file twice");
    script.vehicle(&vehicle_of(&case_l()));
    stringers(script, 1, 1);
    stringers(script, 8, 8);
    script.title("one member of two turns the verdict");
    between(script, &[stringer(0); 2], &[stringer(0), stringer(7)]);
    between(script, &[stringer(0), stringer(7)], &[stringer(1), stringer(7)]);
    script.title("the vehicle's class and track are in both ends");
    script.vehicle(&vehicle_of(&VehicleWords { class: 1, track: 120, ..case_l() }));
    stringers(script, 0, 7);
}

/// One word of the only record changed in the second survey.
fn change(script: &mut Script, record: Words, word: usize, value: u16) {
    between(script, &[record], &[with(record, &[(word, value)])]);
}

/// Each wearing word one greater, then one less; each other word one greater or one less, those of
/// a section with its first kind and those of a kind with its first section.
fn words(script: &mut Script, kind: u16, code: u16) {
    let record = usual(kind, code);
    let used = (0..16).filter(|word| used_words(kind, code) >> word & 1 == 1);
    let used = used.filter(|&word| word != KIND && word != SECTION);
    let (worn, kept): (Vec<usize>, Vec<usize>) = used.partition(|&word| wears(&record, word));
    script.title(&format!("between, kind {kind} section {code}"));
    for word in worn {
        change(script, record, word, record[word] + 1);
        change(script, record, word, record[word] - 1);
    }
    for word in kept.into_iter().filter(|&word| is_first(kind, code, word)) {
        let less = record[word] > 1 && (word + usize::from(kind)) % 2 == 0;
        change(script, record, word, if less { record[word] - 1 } else { record[word] + 1 });
    }
}

/// The code alone, and with the numbers that belong to it; the kind.
fn codes(script: &mut Script) {
    let (log, crescent) = (usual(1, 1), with(usual(1, 1), &[(SECTION, 5)]));
    script.title("between, a log and a crescent of the same numbers");
    between(script, &[log], &[crescent]);
    between(script, &[crescent], &[log]);
    script.title("between, other kinds and sections");
    between(script, &[usual(1, 1)], &[usual(1, 2)]);
    between(script, &[usual(1, 1)], &[usual(7, 1)]);
    between(script, &[usual(7, 2)], &[usual(1, 2)]);
    between(script, &[usual(5, 4)], &[usual(6, 4)]);
}

/// The greatest wear that the ranges have, from none; and no room for more.
fn far_apart(script: &mut Script) {
    script.title("between the least and the greatest wear");
    for (kind, code) in [(3, 2), (4, 3), (5, 4), (1, 5)] {
        let record = usual(kind, code);
        let [mut least, mut greatest] = [record, record];
        for &(word, low, high) in used(kind, code).filter(|limit| wears(&record, limit.0)) {
            (least[word], greatest[word]) = (low, high);
        }
        between(script, &[least], &[greatest]);
    }
}

fn counts(script: &mut Script) {
    let [sound, worn] = [1, 2].map(stringer);
    script.title("between different counts");
    between(script, &[sound], &[sound, sound]);
    between(script, &[sound, sound], &[sound]);
    between(script, &[worn], &[sound, worn]);
    script.title("the first record that is not in order");
    between(script, &[worn, sound], &[sound, sound]);
    between(script, &[sound, worn], &[worn, sound]);
    between(script, &[worn, worn], &[sound, sound]);
}

/// The record with one number worn more than is usual.
pub fn deeper(words: Words) -> Words {
    match (words[KIND], words[SECTION]) {
        (CLOSE_STRINGER, _) => with(words, &[(DEAD_LOAD, 300)]),
        (3, _) => with(words, &[(S6, 90)]),
        (_, 2) => with(words, &[(S4, 4)]),
        (_, 3) => with(words, &[(S5, 3)]),
        (_, code) => with(words, &[(S2, if code == 4 { 200 } else { 5 })]),
    }
}

fn lists(script: &mut Script) {
    let [first, second] = [0, 1].map(|rot| survey_of(&[stringer(rot)]));
    script.title("between, lists of every length");
    for entries in [0, 1, 2, 3, MOST_ENTRIES, MOST_ENTRIES + 1] {
        script.between(&first, &second, entries);
    }
    let (first, second) = (in_turn(64), in_turn(64).into_iter().map(deeper).collect::<Vec<_>>());
    script.title("between, 64 members and a list of 127, of 129");
    for entries in [127, 129] {
        script.between(&survey_of(&first), &survey_of(&second), entries);
    }
}

/// Files that are no surveys, as the first and as the second.
fn own_refusals(script: &mut Script) {
    let sound = survey_of(&[stringer(1)]);
    let files = [
        ("no bytes", vec![]),
        ("cut short", sound[..37].to_vec()),
        ("a vehicle's mark", with_byte(&sound, 2, b'V')),
        ("no members", with_byte(&sound, 5, 0)),
        ("a section", survey_of(&[with(stringer(1), &[(SECTION, 3)])])),
        ("a range", survey_of(&[with(stringer(1), &[(S2, 61)])])),
        ("an unused field", survey_of(&[with(stringer(1), &[(WHOLE_B, 1)])])),
    ];
    for (title, file) in &files {
        script.title(&format!("between, first then second refused: {title}"));
        script.between(file, &sound, 2);
        script.between(&sound, file, 2);
    }
}

/// Two faults at once: 12, the first survey's own refusals, the second's, 15, 14.
fn order(script: &mut Script) {
    let [sound, worn] = [1, 2].map(stringer);
    let [no_kind, no_species] = [KIND, SPECIES].map(|word| with(sound, &[(word, 0)]));
    script.title("the first survey's refusal before the second's");
    between(script, &[no_species], &[no_kind]);
    between(script, &[sound, no_species], &[no_kind]);
    script.title("the second survey's refusal before 15 and 14");
    between(script, &[worn, sound], &[sound, no_kind]);
    between(script, &[sound], &[worn, no_kind]);
    script.between(&survey_of(&[sound]), &survey_of(&[no_kind]), 1);
    script.title("15 before 14");
    script.between(&survey_of(&[worn]), &survey_of(&[sound]), 1);
    script.between(&survey_of(&[sound]), &survey_of(&[sound, worn]), 0);
    script.title("12 before all, a survey alone being loaded");
    script.start();
    script.survey(&survey_of(&[sound]));
    for (first, second) in [(sound, worn), (worn, sound), (no_kind, sound), (sound, no_species)] {
        between(script, &[first], &[second]);
    }
    script.between(&survey_of(&[sound]), &survey_of(&[worn]), 0);
}

/// No survey is loaded by the call, and both loaded files are kept.
fn kept(script: &mut Script) {
    script.title("no survey need be loaded, and none is after the call");
    script.start();
    script.vehicle(&vehicle_of(&case_l()));
    stringers(script, 0, 7);
    script.rate(1);
    script.judge(2);
    script.title("the loaded survey and vehicle are kept");
    script.survey(&survey_of(&[usual(2, 1)]));
    script.all(1);
    stringers(script, 0, 7);
    script.all(1);
    stringers(script, 1, 0);
    script.all(1);
    script.between(&survey_of(&[stringer(0)]), &[], 2);
    script.all(1);
}

pub fn cases(script: &mut Script) {
    verdicts(script);
    script.vehicle(&vehicle_of(&case_l()));
    kinds().for_each(|(kind, code)| words(script, kind, code));
    codes(script);
    far_apart(script);
    counts(script);
    lists(script);
    own_refusals(script);
    order(script);
    kept(script);
}
