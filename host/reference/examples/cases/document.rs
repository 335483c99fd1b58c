//! The document's own cases, and which member governs.

use crate::records::*;
use reference::layout::*;
use reference::script::Script;

fn letters(script: &mut Script) {
    script.start();
    script.vehicle(&vehicle_of(&case_l()));
    for (letter, rot) in [("A", 0), ("B", 1), ("C", 7), ("D", 8)] {
        script.title(&format!("case {letter}, with the vehicle of case L"));
        script.survey(&survey_of(&[stringer(rot)]));
        script.all(1);
    }
    script.title("cases E and F on one bridge");
    script.survey(&survey_of(&[chord(), cross_beam()]));
    script.all(2);
    let long = with(stringer(0), &[(SPAN, 1000)]);
    for (letters, weight) in [("I and K", 4000), ("J", 4001)] {
        script.title(&format!("cases {letters}"));
        script.survey(&survey_of(&[long, chord()]));
        script.vehicle(&vehicle_of(&lorry(&[[2000, 0], [weight, 300]])));
        script.all(2);
    }
}

/// The least margin governs, the first on a tie, and not the least permitted load.
fn governing(script: &mut Script) {
    script.start();
    script.vehicle(&vehicle_of(&case_l()));
    let [sound, worn, worst] = [stringer(0), stringer(1), stringer(7)];
    let bridges = [
        ("a tie: the first governs", vec![sound, worn, worn]),
        ("a tie at the front", vec![worn, worn, sound]),
        ("the last governs", vec![sound, worn, worst]),
        ("least margin, not least load", vec![chord(), cross_beam(), sound]),
        ("one member that refuses", vec![sound, worst, sound]),
    ];
    for (title, members) in bridges {
        script.title(title);
        script.survey(&survey_of(&members));
        script.all(members.len());
    }
}

pub fn cases(script: &mut Script) {
    letters(script);
    governing(script);
}
