//! Records in one order: version 2 and what it refuses, at every edge and in every turn, what a
//! refused load keeps, and two surveys of any versions.

use crate::records::*;
use reference::generate::{joined, survey_bytes_of, with_version};
use reference::layout::*;
use reference::script::Script;

fn ordered(members: &[Words]) -> Vec<u8> {
    survey_bytes_of(IN_ORDER, members)
}

/// A stringer of this span and spacing.
fn spaced(span: u16, spacing: u16) -> Words {
    with(stringer(0), &[(SPAN, span), (SPACING, spacing)])
}

fn beam(span: u16) -> Words {
    with(cross_beam(), &[(SPAN, span)])
}

/// Two records in order, then exchanged.
fn pairs(script: &mut Script) {
    let pairs = [
        ("kind, not span and spacing", spaced(5000, 1000), beam(100)),
        ("kind, the cross beam's spacing being 0", beam(5000), with(chord(), &[(SPAN, 201)])),
        ("span, not spacing", spaced(499, 150), spaced(500, 140)),
        ("span of cross beams", beam(299), beam(300)),
        ("span, not its low byte", spaced(511, 140), spaced(512, 140)),
        ("spacing", spaced(500, 140), spaced(500, 141)),
        ("spacing, not its low byte", spaced(500, 255), spaced(500, 256)),
        ("close spacing", usual(7, 2), with(usual(7, 1), &[(SPACING, 61)])),
    ];
    for (title, first, second) in pairs {
        script.title(&format!("order by {title}"));
        script.survey(&ordered(&[first, second]));
        script.survey(&ordered(&[second, first]));
    }
    script.title("version 1 has them in any order");
    for (_, first, second) in [pairs[0], pairs[2], pairs[5]] {
        script.survey(&survey_of(&[second, first]));
    }
}

/// All kinds in order, and equals that differ in all else.
fn taken(script: &mut Script) {
    script.title("version 2, all kinds in order");
    let kinds: Vec<Words> = (1..=LAST_KIND).map(|kind| usual(kind, sections(kind)[0])).collect();
    script.survey(&ordered(&kinds));
    script.all(kinds.len());
    script.title("equals as they come");
    let equals = [stringer(1), usual(1, 2), usual(1, 5), stringer(0)];
    let equals = equals.map(|words| with(words, &[(SPAN, 500), (SPACING, 140)]));
    script.survey(&ordered(&equals));
    script.all(equals.len());
    script.title("one record of version 2, and a yard on it");
    script.survey(&ordered(&[stringer(0)]));
    script.yard(&joined(&[vehicle_of(&case_l())]), 1);
}

fn spans(spans: &[u16]) -> Vec<Words> {
    spans.iter().map(|&span| spaced(span, 140)).collect()
}

/// The later record's place: the second, a middle one, the last; the first of several.
fn places(script: &mut Script) {
    script.title("order, the later record and the first of several");
    for all in [&[500, 300, 400, 200][..], &[300, 500, 400, 200], &[500, 500, 400]] {
        script.survey(&ordered(&spans(all)));
    }
    script.title("order, the last of 64");
    let mut full = vec![spaced(500, 140); 64];
    full[63][SPACING] = 139;
    script.survey(&ordered(&full));
}

/// Every other fault of any record comes first, and so does the header.
fn turns(script: &mut Script) {
    let falling = spans(&[500, 400]);
    script.title("order after 4, 5, 6, 8, 7 of a later record");
    for (word, value) in [(KIND, 8), (SPECIES, 0), (SECTION, 4), (WHOLE_B, 1), (S2, 61)] {
        let faulty = with(stringer(0), &[(word, value)]);
        script.survey(&ordered(&[&falling[..], &[faulty]].concat()));
    }
    script.title("order after a fault of the record itself, and of the first");
    script.survey(&ordered(&[falling[0], with(falling[1], &[(KIND, 0)])]));
    script.survey(&ordered(&[with(falling[0], &[(DEAD_LOAD, 10001)]), falling[1]]));
    let file = ordered(&falling);
    script.title("order after length, mark and count");
    script.survey(&file[..file.len() - 1]);
    script.survey(&with_byte(&file, 2, b'V'));
    for count in [0, 1] {
        script.survey(&with_byte(&file, 5, count));
    }
    script.title("versions of a survey");
    for version in [0, 3, 256, 257, 258] {
        script.survey(&with_version(&survey_of(&falling[..1]), version));
    }
    script.survey(&with_version(&file, 3));
    script.title("versions of a vehicle");
    for version in [0, 3, 257] {
        script.vehicle(&with_version(&vehicle_of(&case_l()), version));
    }
}

/// A load that is refused for its order leaves the survey, one that is taken replaces it.
fn kept(script: &mut Script) {
    script.title("a survey out of order leaves none, then the one before");
    script.start();
    script.vehicle(&vehicle_of(&case_l()));
    let falling = spans(&[500, 400]);
    script.survey(&ordered(&falling));
    script.judge(4);
    script.survey(&survey_of(&falling));
    script.all(2);
    script.survey(&ordered(&spans(&[300, 200])));
    script.all(2);
    script.survey(&ordered(&spans(&[300, 600, 700])));
    script.all(3);
}

/// A survey, then a worse one of another version with a member added in the middle.
fn worse(script: &mut Script) {
    let [short, long] = [spaced(500, 140), spaced(600, 140)];
    let [short_worn, long_worn] = [short, long].map(|words| with(words, &[(S2, 1)]));
    for (title, first, second) in [
        ("1 and 2", survey_of(&[long, short]), ordered(&[short_worn, spaced(550, 140), long_worn])),
        ("2 and 1", ordered(&[short, long]), survey_of(&[long_worn, beam(300), short_worn])),
    ] {
        script.title(&format!("worse with a member in the middle, versions {title}"));
        for (file, count) in [(first, 2), (second, 3)] {
            script.survey(&file);
            script.all(count);
        }
    }
}

/// Two surveys of one bridge in all versions; 16 in its survey's turn, behind 12.
fn between(script: &mut Script) {
    let worn = |records: &[Words]| -> Vec<Words> {
        records.iter().map(|&words| with(words, &[(S2, 1)])).collect()
    };
    let (rising, falling) = (spans(&[400, 500]), spans(&[500, 400]));
    let faulty = [rising[0], with(rising[1], &[(KIND, 0)])];
    let [one, two] = [survey_bytes_of(1, &rising), survey_bytes_of(2, &rising)];
    let [one_worn, two_worn] = [1, 2].map(|version| survey_bytes_of(version, &worn(&rising)));
    script.title("between versions 1 and 2, 2 and 1, 2 and 2");
    script.between(&one, &two_worn, 4);
    script.between(&two, &one_worn, 4);
    script.between(&two, &two_worn, 5);
    let late = ordered(&falling);
    script.title("between, 16 of the first before the second's refusals and 15");
    script.between(&late, &survey_of(&faulty), 4);
    script.between(&late, &survey_of(&rising[..1]), 0);
    script.title("between, 16 of the second before 15 and 14");
    script.between(&survey_of(&falling), &late, 4);
    script.between(&one_worn, &late, 0);
    script.title("between, the first's refusals before 16 of the second");
    script.between(&survey_of(&faulty), &late, 4);
    script.between(&ordered(&spans(&[300, 400, 350])), &late, 4);
    script.title("12 before 16");
    script.start();
    script.between(&late, &late, 4);
}

pub fn cases(script: &mut Script) {
    script.start();
    script.vehicle(&vehicle_of(&case_l()));
    taken(script);
    pairs(script);
    places(script);
    turns(script);
    kept(script);
    worse(script);
    between(script);
}
