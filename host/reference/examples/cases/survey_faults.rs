//! Every refusal of a survey, at the first, a middle and the last place.

use crate::records::*;
use reference::layout::*;
use reference::script::Script;

fn headers(script: &mut Script) {
    let sound = survey_of(&three());
    script.title("surveys cut short, and one byte too long");
    for length in [0, 1, 2, 3, 4, 5, 6, 7, 37, 38, 39, sound.len() - 1] {
        script.survey(&sound[..length]);
    }
    script.survey(&[&sound[..], &[0]].concat());
    script.title("mark or version, before count and length");
    for at in 0..5 {
        script.survey(&with_byte(&sound, at, sound[at] ^ 1));
        script.survey(&with_byte(&with_byte(&sound, at, 0xff), 5, 0)[..6]);
    }
    script.title("too short comes before the mark");
    script.survey(&with_byte(&sound, 0, 0)[..5]);
    script.title("count, before length");
    script.survey(&with_byte(&sound, 5, 0));
    script.title("counts that the length does not have");
    for count in [1, 2, 4, 64, 65, 128, 255] {
        script.survey(&with_byte(&sound, 5, count));
    }
}

/// A damaged record at one of three places, in turn.
pub struct Turn<'a> {
    pub script: &'a mut Script,
    pub place: usize,
}

impl Turn<'_> {
    pub fn refuse(&mut self, title: &str, record: Words) {
        let mut members = three();
        members[self.place] = record;
        self.script.title(title);
        self.script.survey(&survey_of(&members));
        self.place = (self.place + 1) % 3;
    }
}

/// Kind, species and section of a record.
fn codes(turn: &mut Turn, kind: u16, code: u16) {
    let sound = usual(kind, code);
    for wrong in [0, LAST_KIND + 1, 256 + kind] {
        turn.refuse(&format!("kind {wrong}"), with(sound, &[(KIND, wrong)]));
    }
    for species in [0, 9, 257] {
        let record = with(sound, &[(SPECIES, species)]);
        turn.refuse(&format!("kind {kind} species {species}"), record);
    }
    for section in [0, 1, 2, 3, 4, 5, 6, 256 + code] {
        if !sections(kind).contains(&section) {
            let record = with(sound, &[(SECTION, section)]);
            turn.refuse(&format!("kind {kind} section {section}"), record);
        }
    }
}

/// Each word that is unused, and each used one just outside its range.
fn words(turn: &mut Turn, kind: u16, code: u16) {
    let sound = usual(kind, code);
    for word in (0..16).filter(|word| used_words(kind, code) >> word & 1 == 0) {
        for value in [1, 256] {
            let title = format!("kind {kind} section {code} unused word {word} is {value}");
            turn.refuse(&title, with(sound, &[(word, value)]));
        }
    }
    for &(word, least, greatest) in used(kind, code) {
        let greatest = match word {
            FROM_SUPPORT if in_truss(kind) => sound[SPAN] - 1,
            _ => greatest,
        };
        let values = [least.checked_sub(1), Some(greatest + 1), Some(u16::MAX)];
        for value in values.into_iter().flatten() {
            let title = format!("kind {kind} section {code} word {word} is {value}");
            turn.refuse(&title, with(sound, &[(word, value)]));
        }
    }
    if is_joint(kind) {
        let title = format!("kind {kind} section {code} A above B");
        turn.refuse(&title, with(sound, &[(PART_A, 5), (WHOLE_B, 4)]));
    }
}

/// Two faults in a record: 4, 5, 6, 8, 7; two records: the first.
fn order(turn: &mut Turn) {
    let sound = usual(1, 2);
    let all = [(KIND, 9), (SPECIES, 9), (SECTION, 9), (WHOLE_B, 9), (SPAN, 9)];
    for from in 0..all.len() {
        turn.refuse("the first of its faults", with(sound, &all[from..]));
    }
    turn.refuse("8 and 7, the 7 in an earlier word", with(sound, &[(SPAN, 9), (WHOLE_B, 1)]));
    turn.refuse("lost area in bending", with(sound, &[(S6, 1)]));
    turn.refuse("lost area in bending and a range", with(sound, &[(S6, 1), (S1, 0)]));
    let faults: Vec<Words> =
        [(WHOLE_B, 9), (SPAN, 9), (KIND, 9)].iter().map(|&fault| with(sound, &[fault])).collect();
    turn.script.title("the first faulty record, whatever its number");
    turn.script.survey(&survey_of(&faults));
    turn.script.survey(&survey_of(&[sound, faults[1], faults[2]]));
    turn.script.survey(&survey_of(&[sound, sound, faults[2]]));
}

/// One word of a sound record for each refusal that a record has: 4, 5, 6, 8 and 7.
pub const FAULTS: [(usize, u16); 5] =
    [(KIND, 0), (SPECIES, 9), (SECTION, 6), (WHOLE_B, 1), (SPAN, 99)];

/// Many members with a fault at this place.
pub fn at_place(script: &mut Script, mut members: Vec<Words>, place: usize, fault: (usize, u16)) {
    members[place - 1] = with(usual(1, 1), &[fault]);
    script.title(&format!("{} members, word {} at place {place}", members.len(), fault.0));
    script.survey(&survey_of(&members));
}

pub fn cases(script: &mut Script) {
    script.start();
    headers(script);
    let mut turn = Turn { script, place: 0 };
    for (kind, code) in kinds() {
        codes(&mut turn, kind, code);
        words(&mut turn, kind, code);
    }
    order(&mut turn);
    for (fault, place) in FAULTS.into_iter().zip([1, 30, 31, 63, 64]) {
        at_place(script, in_turn(64), place, fault);
    }
}
