//! 11 to 14 in every order of state, lists of every length, and what refused loads keep.

use crate::records::*;
use reference::generate::reading_bits;
use reference::layout::*;
use reference::script::Script;

/// Every call that looks at the state, with places and lists at the edges for so many members.
fn calls(script: &mut Script, count: usize) {
    for place in [0, 1, count, count + 1, 65, 256, 65535] {
        script.rate(place);
    }
    for place in [0, count, count + 1] {
        script.gauge(place, [0, 640, 0].map(reading_bits));
    }
    for entries in [0, 1, 2 * count - 1, 2 * count, 2 * count + 1, 2 * count + 5, 160] {
        script.judge(entries);
    }
}

fn orders(script: &mut Script, members: &[Words]) {
    let count = members.len();
    let (survey, vehicle) = (survey_of(members), vehicle_of(&case_l()));
    let mut section = |title: &str, loads: &dyn Fn(&mut Script)| {
        script.title(&format!("{count} members, {title}"));
        script.start();
        loads(script);
        calls(script, count);
    };
    section("nothing loaded", &|_| {});
    section("no survey", &|script| script.vehicle(&vehicle));
    section("no vehicle", &|script| script.survey(&survey));
    section("survey then vehicle", &|script| {
        script.survey(&survey);
        script.vehicle(&vehicle);
    });
    section("vehicle then survey", &|script| {
        script.vehicle(&vehicle);
        script.survey(&survey);
    });
}

/// A file of each refusal number.
fn refused_surveys() -> Vec<Vec<u8>> {
    let sound = survey_of(&three());
    let changed = |changes: &[(usize, u16)]| {
        let [first, second, third] = [three()[0], three()[1], three()[2]];
        survey_of(&[first, with(second, changes), third])
    };
    vec![
        sound[..sound.len() - 1].to_vec(),
        with_byte(&sound, 2, b'V'),
        with_byte(&sound, 5, 0),
        changed(&[(KIND, 8)]),
        changed(&[(SPECIES, 9)]),
        changed(&[(SECTION, 4)]),
        changed(&[(S5, 61)]),
        survey_of(&[with(usual(1, 1), &[(WHOLE_B, 1)])]),
    ]
}

fn refused_vehicles() -> Vec<Vec<u8>> {
    let sound = vehicle_of(&case_l());
    let changed = |at, byte| with_byte(&sound, at, byte);
    vec![sound[..8].to_vec(), changed(3, 3), changed(8, 17), changed(5, 2), changed(11, 1)]
}

/// Loads that are refused, before and after both files were taken.
fn kept(script: &mut Script) {
    script.title("refused loads leave a new session empty");
    script.start();
    for bytes in refused_surveys() {
        script.survey(&bytes);
        script.judge(2);
    }
    script.survey(&survey_of(&three()));
    for bytes in refused_vehicles() {
        script.vehicle(&bytes);
        script.judge(6);
    }
    script.title("refused loads keep both files");
    script.vehicle(&vehicle_of(&case_l()));
    script.all(3);
    for bytes in refused_surveys() {
        script.survey(&bytes);
        script.all(3);
    }
    for bytes in refused_vehicles() {
        script.vehicle(&bytes);
        script.all(3);
    }
}

/// A load that is taken replaces its own file only.
fn replaced(script: &mut Script) {
    script.title("each load replaces its own file");
    let other = [usual(2, 2), usual(5, 4)];
    script.survey(&survey_of(&other));
    script.all(2);
    script.rate(3);
    script.vehicle(&vehicle_of(&lorry(&[[9000, 0], [9000, 140], [4000, 500]])));
    script.all(2);
    script.survey(&survey_of(&three()));
    script.all(3);
    script.title("a new session has nothing");
    script.start();
    script.rate(1);
    script.judge(6);
}

pub fn cases(script: &mut Script) {
    orders(script, &three()[..1]);
    orders(script, &three());
    orders(script, &in_turn(64));
    kept(script);
    replaced(script);
}
