//! Gauges under a test load against the reference: scripts of tens of thousands of such calls
//! between others through the program `cases`, every line equal.

mod common;

use common::scripts::*;
use common::{programs, seed};
use reference::generate::*;
use reference::layout::{LAST_KIND, MOST_MEMBERS};
use reference::script::{Script, GAUGE_BYTES, SPACE};

/// A round of calls is shorter than this: what is loaded, and some sixty calls.
const LONGEST_ROUND: usize = 20_000;

fn gauge(script: &mut Script, Gauge { place, readings }: Gauge) {
    script.gauge(place, readings);
}

/// A survey and a vehicle, of which one or both may be missing; gauges on them, and between them
/// every other call.
fn round(random: &mut Random, script: &mut Script) {
    let members = if random.once_in(80) { MOST_MEMBERS } else { 1 + random.below(4) };
    let survey = tested_survey(random, members);
    let vehicle = vehicle(random, Spread::Usual, 1);
    let missing = random.below(24);
    if missing < 4 {
        script.start();
    }
    if missing > 1 {
        script.survey(&survey_bytes(&survey));
    }
    if missing > 2 || missing == 1 {
        script.vehicle(&vehicle_bytes(&vehicle));
    }
    for _ in 0..20 + random.below(40) {
        if random.once_in(32) {
            another_call(random, script);
        }
        gauge(script, some_gauge(random, &survey, vehicle.class));
    }
    script.rate(1);
}

/// Within or over, whatever the deflection, or refused.
fn class(answer: &str) -> &str {
    match answer.starts_with("refused") {
        true => answer,
        false => answer.split(' ').next().unwrap_or(answer),
    }
}

fn scripts() -> Scripts {
    Scripts { seed: seed(0x6a06_1001), scripts: 3, longest: LONGEST_ROUND, round }
}

/// The scripts are worth something only if all answers are among them.
#[test]
fn the_scripts_have_every_answer() {
    let seen = scripts().answers("gauge", class, 20_000);
    hold_often(&seen, &["within", "over"], 5000);
    let refusals = ["11 at 0", "12 at 0", "13 at 0", "20 at 0", "20 at 1", "20 at 2", "20 at 3"];
    hold_refused(&seen, &refusals, 300);
}

#[test]
fn thousands_of_gauges() {
    scripts().agree();
}

/// Bad readings of each sort in each position, and each thing that can be missing.
#[test]
fn damage_of_every_sort() {
    let seed = seed(0x6a06_1002);
    let (mut random, mut script) = (Random::new(seed), Script::default());
    for _ in 0..4 {
        for DamagedGauge { call, number, place } in damaged_gauges(&mut random) {
            script.start();
            call.survey.iter().for_each(|records| script.survey(&survey_bytes(records)));
            call.vehicle.iter().for_each(|words| script.vehicle(&vehicle_bytes(words)));
            gauge(&mut script, call.gauge);
            let expected = format!("gauge refused {number} at {place}");
            assert_eq!(script.text.lines().last(), Some(&*expected), "TBR_SEED={seed}");
        }
    }
    assert!(script.bytes.len() < SPACE, "{} bytes", script.bytes.len());
    agree(&script, &format!("TBR_SEED={seed}"));
}

/// Every span, kind and class by turns, at the greatest deflection within the limit and one 64th
/// above it: the answer turns between the two.
#[test]
fn answers_turn_at_the_limit() {
    let seed = seed(0x6a06_1003);
    let (mut random, mut script) = (Random::new(seed), Script::default());
    let mut members = 0;
    while script.bytes.len() + LONGEST_ROUND < SPACE {
        let survey: Vec<_> = (1..=LAST_KIND).map(|kind| tested_member(&mut random, kind)).collect();
        script.survey(&survey_bytes(&survey));
        for class in [0, 1] {
            let vehicle = vehicle(&mut random, Spread::Usual, 1);
            script.vehicle(&vehicle_bytes(&VehicleWords { class, ..vehicle }));
            for (record, place) in survey.iter().zip(1..) {
                let most = most_within(record, class);
                for by in [most, most + 1] {
                    script.gauge(place, deflected(&mut random, by));
                }
                members += 1;
            }
        }
    }
    assert!(members > 3000, "{members} members");
    agree(&script, &format!("TBR_SEED={seed}"));
    let printed = programs::printed("cases", &script.bytes);
    let answers: Vec<&str> =
        printed.lines().filter_map(|line| line.strip_prefix("gauge ")).collect();
    assert_eq!(answers.len(), 2 * members);
    for turn in answers.chunks(2) {
        assert_eq!([class(turn[0]), class(turn[1])], ["within", "over"], "TBR_SEED={seed}");
    }
}

/// Any bits as readings, most of them none.
#[test]
fn any_bits_as_readings() {
    let seed = seed(0x6a06_1004);
    let (mut random, mut script) = (Random::new(seed), Script::default());
    script.survey(&survey_bytes(&tested_survey(&mut random, 3)));
    script.vehicle(&vehicle_bytes(&vehicle(&mut random, Spread::Usual, 1)));
    let edges: Vec<u32> = edge_readings().into_iter().map(reading_bits).collect();
    while script.bytes.len() < 200_000 {
        let readings = [(); 3].map(|()| match random.below(4) {
            0 => random.large(0, u32::MAX),
            // Next to a good reading, in its bits.
            1 => random.pick(&edges).wrapping_add(random.large(0, 2)).wrapping_sub(1),
            2 => random.pick(&edges) ^ 1 << random.below(32),
            _ => *random.pick(&edges),
        });
        script.gauge(1 + random.below(3), readings);
    }
    agree(&script, &format!("TBR_SEED={seed}"));
}

/// A script that is cut within a gauge's step: what is left of it is printed. Of a longer step the
/// first bytes count.
#[test]
fn steps_of_other_lengths() {
    let sound = |script: &mut Script| {
        script.survey(&survey_bytes(&tested_survey(&mut Random::new(1), 1)));
        script.vehicle(&vehicle_bytes(&vehicle(&mut Random::new(2), Spread::Usual, 1)));
    };
    let letters = b"abcdefghijklmnopqrstuvwxyz";
    for length in 0..GAUGE_BYTES {
        let mut script = Script::default();
        sound(&mut script);
        script.gauge_body(&letters[..length]);
        script.rate(1);
        script.bytes.extend([b'G', 14, 0]);
        script.bytes.extend(&letters[..length]);
        script.text.push_str(std::str::from_utf8(&letters[..length]).expect("letters"));
        script.text.push('\n');
        agree(&script, &format!("cut at {length} bytes"));
    }
    let mut script = Script::default();
    sound(&mut script);
    for more in 0..20 {
        let body = [&[1, 0], &reading_bits(9).to_le_bytes()[..], &reading_bits(640).to_le_bytes()];
        script.gauge_body(&[&body.concat()[..], &[0; 4], &letters[..more]].concat());
        script.rate(1);
    }
    agree(&script, "longer steps");
}
