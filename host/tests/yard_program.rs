//! The calls on a session against the reference: scripts of thousands of yards between other calls
//! through the program `cases`, every line equal.

mod common;

use common::scripts::*;
use common::seed;
use reference::generate::*;
use reference::layout::heaviest;
use reference::script::{Script, SPACE};

/// A round of calls is shorter than this: two files, ten yards and what is between them.
const LONGEST_ROUND: usize = 50_000;

/// A sound yard or a damaged one, with a list that holds it, just not, or much more.
fn judge_yard(random: &mut Random, script: &mut Script) {
    let spread = spread(random);
    let (count, axles) = match random.below(40) {
        0 => (32, 16),
        1..=3 => (1 + random.below(32), 16),
        4..=9 => (1 + random.below(32), 3),
        _ => (1 + random.below(5), 4),
    };
    let yard = match random.below(3) {
        0 => some_yard_damage(random, count),
        _ => yard_bytes(&yard(random, spread, count, axles)),
    };
    let longest = [count - 1, count, count, count + 1, 40, random.below(41)];
    script.yard(&yard, *random.pick(&longest));
}

/// Calls on one session: each load now and then, yards often.
fn round(random: &mut Random, script: &mut Script) {
    if random.once_in(4) {
        script.start();
    }
    load_survey(random, script);
    for _ in 0..1 + random.below(10) {
        match random.below(12) {
            0 => load_vehicle(random, script),
            1 => script.rate(random.below(5)),
            2 => script.judge(random.below(12)),
            3 if random.once_in(4) => script.start(),
            _ => judge_yard(random, script),
        }
    }
    script.judge(8);
}

/// A yard's answer, of however many vehicles that pass.
fn some_or_none(answer: &str) -> &str {
    match answer.parse() {
        Ok(0) => "none",
        Ok(1_u64..) => "some",
        Err(_) => answer,
    }
}

fn scripts() -> Scripts {
    Scripts { seed: seed(0x9a4d_1001), scripts: 6, longest: LONGEST_ROUND, round }
}

/// The scripts are worth something only if all answers are among them.
#[test]
fn the_scripts_have_every_answer() {
    let seen = scripts().answers("yard", some_or_none, 5000);
    hold_often(&seen, &["none", "some"], 20);
    let refusals = ["1 at 0", "2 at 0", "3 at 0", "7 at 0", "7 at 1", "11 at 0", "14 at 0"];
    hold_refused(&seen, &refusals, 20);
}

#[test]
fn thousands_of_yards() {
    scripts().agree();
}

/// One damage in each way at each place of a yard of 32 vehicles. Such a yard is a byte, files of
/// 105 bytes at most and up to 300 bytes left over, so 70 of them fit a script, whatever the seed.
#[test]
fn damage_at_every_place() {
    let seed = seed(0x9a4d_1002);
    let mut random = Random::new(seed);
    let survey = survey_bytes(&survey(&mut random, Spread::Usual, 1));
    for yards in damaged_yards(&mut random).chunks(70) {
        let mut script = Script::default();
        script.survey(&survey);
        yards.iter().for_each(|damaged| script.yard(&damaged.yard, 33));
        assert!(script.bytes.len() < SPACE, "{} bytes", script.bytes.len());
        agree(&script, &format!("TBR_SEED={seed}"));
    }
}

/// Vehicles at the limit of a one-member bridge, 1 kgf more or less on an axle, joined.
#[test]
fn verdicts_turn_at_the_limit() {
    let seed = seed(0x9a4d_1003);
    let (mut random, mut script) = (Random::new(seed), Script::default());
    while script.bytes.len() < 100_000 {
        let Some((survey, limit)) = at_the_limit(&mut random) else { continue };
        let mut vehicles = Vec::new();
        for _ in 0..6 {
            let mut vehicle = limit.clone();
            let axle = random.below(vehicle.axles.len());
            let weight = &mut vehicle.axles[axle][0];
            *weight = (*weight + random.large(0, 2)).clamp(2, heaviest(vehicle.version) + 1) - 1;
            vehicles.push(vehicle);
        }
        script.survey(&survey);
        script.yard(&yard_bytes(&vehicles), 6);
    }
    agree(&script, &format!("TBR_SEED={seed}"));
}

/// Random bytes behind any count, some with the mark of a vehicle in front.
#[test]
fn any_bytes_as_a_yard() {
    let seed = seed(0x9a4d_1004);
    let (mut random, mut script) = (Random::new(seed), Script::default());
    script.survey(&survey_bytes(&survey(&mut random, Spread::Usual, 2)));
    while script.bytes.len() < 200_000 {
        let count = [random.between(0, 40).to_le_bytes()[0]];
        let file = any_bytes(&mut random, b"TBV", 120);
        let more = any_bytes(&mut random, b"TBV", 120);
        script.yard(&[&count, &file[..], &more].concat(), 3);
        script.yard(&file, 3);
    }
    agree(&script, &format!("TBR_SEED={seed}"));
}
