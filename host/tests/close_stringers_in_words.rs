//! Closely spaced stringers in the text form and in the words for refusals: the deck's fields have
//! names and limits of their own.

use reference::reader;
use tbr::check_survey;
use tbr::file::Contents;
use tbr::form::{explain, read, write};

const CLOSE_STRINGER: &str = "close stringer, species pine, span 500 cm, spacing 60 cm, boards 2, \
                              board thickness 10 cm, board width 20 cm, deck rot 1 cm, \
                              dead load 97 kgf/m, section log, diameter 28 cm, rot 1 cm, tiers 1";

const STRINGER: &str = "stringer, species pine, span 500 cm, spacing 140 cm, dead load 100 kgf/m, \
                        section log, diameter 28 cm, rot 0 cm, tiers 1";

/// The words of the one member of this text, which goes there and back.
fn member(text: &str) -> [u16; 16] {
    let contents = read(text.as_bytes()).unwrap();
    assert_eq!(write(&contents).unwrap(), text);
    assert!(reader::survey(&contents.bytes().unwrap()).is_ok(), "{text}");
    match contents {
        Contents::Survey(survey) => survey.members[0],
        Contents::Vehicle(_) => panic!("{text}"),
    }
}

/// The one fault of this text.
fn error(text: &str) -> String {
    let faults = read(text.as_bytes()).unwrap_err();
    assert_eq!(faults.len(), 1, "{faults:?}");
    faults[0].to_string()
}

/// The deck's fields stand in x, h, A and B; A may be above B, and they go there and back.
#[test]
fn a_close_stringer() {
    let text = format!("survey\n{CLOSE_STRINGER}\n");
    assert_eq!(member(&text), [7, 1, 500, 60, 2, 10, 97, 1, 28, 1, 1, 0, 0, 0, 20, 1]);
    let log = "section log, diameter 28 cm, rot 1 cm, tiers 1";
    let sawn = "section sawn, width 18 cm, height 24 cm, side rot 1 cm, top rot 2 cm, pieces 3";
    let text = text.replace(log, sawn).replace("deck rot 1 cm", "deck rot 20 cm");
    assert_eq!(member(&text), [7, 1, 500, 60, 2, 10, 97, 2, 18, 24, 1, 2, 3, 0, 20, 20]);
}

#[test]
fn errors_of_a_close_stringer() {
    for (from, to, words) in [
        ("spacing 60", "spacing 29", "spacing: 29 is outside 30 to 100 cm"),
        ("spacing 60", "spacing 140", "spacing: 140 is outside 30 to 100 cm"),
        ("boards 2", "boards 0", "boards: 0 is outside 1 to 10"),
        ("boards 2", "boards 2 cm", "boards: 'cm' follows a plain number"),
        ("thickness 10", "thickness 21", "board thickness: 21 is outside 1 to 20 cm"),
        ("width 20", "width 61", "board width: 61 is outside 1 to 60 cm"),
        ("deck rot 1", "deck rot 21", "deck rot: 21 is outside 0 to 20 cm"),
        (", deck rot 1 cm", "", "deck rot: is missing"),
        ("section log", "section crescent", "section: 'crescent' is not one of: log, sawn"),
        ("tiers 1", "tiers 1, joint part 2", "'joint part 2': there is no such field here"),
    ] {
        let line = CLOSE_STRINGER.replace(from, to);
        let text = format!("survey\n{line}\n");
        assert_eq!(error(&text), format!("line 2, {words}"), "{line}");
    }
    let boards = STRINGER.replace("spacing 140 cm", "spacing 140 cm, boards 2");
    let words = "line 2, 'boards 2': there is no such field here";
    assert_eq!(error(&format!("survey\n{boards}\n")), words);
}

const CLOSE_STRINGERS: &[u8] = include_bytes!("../../samples/close-stringers.tbr");

/// The survey with a word of a member, from 1, replaced.
fn with_word(place: usize, word: usize, value: u16) -> Vec<u8> {
    let mut bytes = CLOSE_STRINGERS.to_vec();
    let at = 6 + 32 * (place - 1) + 2 * word;
    bytes[at..at + 2].copy_from_slice(&value.to_le_bytes());
    bytes
}

/// The fields that a refused survey's refusal is about, in words.
fn survey_words(bytes: &[u8]) -> Vec<String> {
    let refusal = check_survey(bytes).unwrap_err();
    explain(bytes, &refusal).iter().map(|fault| fault.to_string()).collect()
}

/// The names and limits of the kind itself: the same words are others in a stringer or a joint.
#[test]
fn fields_of_a_close_stringer_at_fault() {
    let (log, sawn) = (1, 3);
    let [kind, d, x, h, section, s4, s6, a, b] = [0, 3, 4, 5, 7, 11, 13, 14, 15];
    for (place, word, value, words) in [
        (log, section, 5, "section: 5 is not one of: 1 log, 2 sawn"),
        (log, section, 4, "section: 4 is not one of: 1 log, 2 sawn"),
        (log, d, 29, "spacing (d): 29 is outside 30 to 100 cm"),
        (log, d, 101, "spacing (d): 101 is outside 30 to 100 cm"),
        (log, x, 0, "boards (x): 0 is outside 1 to 10"),
        (log, x, 11, "boards (x): 11 is outside 1 to 10"),
        (log, h, 0, "board thickness (h): 0 is outside 1 to 20 cm"),
        (log, h, 21, "board thickness (h): 21 is outside 1 to 20 cm"),
        (sawn, a, 0, "board width (A): 0 is outside 1 to 60 cm"),
        (sawn, a, 61, "board width (A): 61 is outside 1 to 60 cm"),
        (sawn, b, 21, "deck rot (B): 21 is outside 0 to 20 cm"),
        (log, s4, 1, "s4: 1 must be 0: the section 'log' does not use it"),
        (sawn, s6, 1, "lost area (s6): 1 must be 0: a beam in bending has no lost area"),
    ] {
        let bytes = with_word(place, word, value);
        assert_eq!(survey_words(&bytes), [words], "{place} {word}");
    }
    let stringer = ["x: 2", "h: 10", "A: 20", "B: 1"];
    let unused = |number| format!("{number} must be 0: the kind 'stringer' does not use it");
    assert_eq!(survey_words(&with_word(log, kind, 1)), stringer.map(unused));
}
