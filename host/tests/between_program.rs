//! Two surveys of one bridge against the reference: scripts of thousands of such calls between
//! others through the program `cases`, every line equal.

mod common;

use common::scripts::*;
use common::seed;
use reference::generate::*;
use reference::layout::{Words, MOST_MEMBERS};
use reference::script::{Script, MOST_ENTRIES, SPACE};

/// A round of calls is shorter than this: a survey, twelve calls and what is between them.
const LONGEST_ROUND: usize = 160_000;

/// Two surveys of one bridge: mostly small, as brute force is dear; half of them in order.
fn two_surveys(random: &mut Random) -> [Vec<Words>; 2] {
    let members = 1 + random.below(4);
    let first = match random.below(180) {
        0 => full_survey(random, Spread::Wide),
        1..=60 => survey(random, Spread::Wide, members),
        _ => bearing_survey(random, members),
    };
    let second = worn(random, &first);
    let pair = [first, second];
    if random.once_in(2) {
        ordered_pair(&pair)
    } else {
        pair
    }
}

/// The files of two surveys as they stand, each of any version that has them so.
fn files(random: &mut Random, first: &[Words], second: &[Words]) -> [Vec<u8>; 2] {
    [first, second].map(|records| file_as_they_stand(random, records))
}

/// Two surveys of one bridge, often with a vehicle that one of them just bears loaded before.
fn one_bridge(random: &mut Random, script: &mut Script) {
    let [first, second] = two_surveys(random);
    if !random.once_in(4) {
        script.vehicle(&vehicle_bytes(&vehicle_near(random, &first, &second)));
    }
    let entries = some_entries(random, first.len());
    let mut ends = vec![[&first, &second]];
    let middle = survey_between(random, &first, &second);
    if random.once_in(4) {
        ends.extend([[&first, &middle], [&middle, &second]]);
    }
    for [first, second] in ends {
        let [first, second] = files(random, first, second);
        script.between(&first, &second, entries);
    }
}

/// The surveys out of order, or files that are no surveys.
fn damaged(random: &mut Random, script: &mut Script) {
    let count = 1 + random.below(4);
    let [first, second] = some_pair_damage(random, count);
    script.between(&first, &second, some_entries(random, count));
}

/// Calls on one session: each load now and then, two surveys often.
fn round(random: &mut Random, script: &mut Script) {
    if random.once_in(4) {
        script.start();
    }
    if random.once_in(3) {
        load_survey(random, script);
    }
    for _ in 0..1 + random.below(12) {
        match random.below(24) {
            0 => load_vehicle(random, script),
            1 => load_survey(random, script),
            2 => script.rate(random.below(5)),
            3 => script.judge(random.below(12)),
            4 => script.yard(&some_yard_damage(random, 3), 3),
            5 if random.once_in(4) => script.start(),
            6..=13 => damaged(random, script),
            _ => one_bridge(random, script),
        }
    }
    script.judge(8);
}

/// The answer without a refusal's place.
fn without_place(answer: &str) -> &str {
    answer.split(" at ").next().unwrap_or(answer)
}

fn scripts() -> Scripts {
    Scripts { seed: seed(0xbe20_1001), scripts: 6, longest: LONGEST_ROUND, round }
}

#[test]
fn the_scripts_have_every_answer() {
    let seen = scripts().answers("between", without_place, 4000);
    hold_often(&seen, &["all", "none", "undecided"], 200);
    hold_refused(&seen, &[1, 2, 3, 4, 5, 6, 7, 8, 12, 14, 15, 16], 20);
}

#[test]
fn thousands_of_two_surveys() {
    scripts().agree();
}

/// Two of the largest surveys refused in each way at each place.
#[test]
fn damage_at_every_place() {
    let seed = seed(0xbe20_1002);
    let mut random = Random::new(seed);
    let vehicle = vehicle_bytes(&vehicle(&mut random, Spread::Usual, 1));
    for pairs in damaged_pairs(&mut random).chunks(30) {
        let mut script = Script::default();
        script.vehicle(&vehicle);
        pairs.iter().for_each(|pair| script.between(&pair.first, &pair.second, 9));
        assert!(script.bytes.len() < SPACE, "{} bytes", script.bytes.len());
        agree(&script, &format!("TBR_SEED={seed}"));
    }
}

/// Full surveys with lists just too short, just long enough and longer.
#[test]
fn full_surveys() {
    let seed = seed(0xbe20_1003);
    let (mut random, mut script) = (Random::new(seed), Script::default());
    while script.bytes.len() < 400_000 {
        let first = in_order(&bearing_survey(&mut random, MOST_MEMBERS));
        let second = worn(&mut random, &first);
        script.vehicle(&vehicle_bytes(&vehicle_near(&mut random, &first, &second)));
        let entries = *random.pick(&[509, 510, 511, MOST_ENTRIES]);
        let [first, second] = files(&mut random, &first, &second);
        script.between(&first, &second, entries);
    }
    agree(&script, &format!("TBR_SEED={seed}"));
}

/// One member whose verdict turns at the weight of an axle: 1 kgf more or less, for either end.
#[test]
fn verdicts_turn_at_the_limits() {
    let seed = seed(0xbe20_1004);
    let (mut random, mut script) = (Random::new(seed), Script::default());
    while script.bytes.len() < 100_000 {
        let first = bearing_survey(&mut random, 1);
        let second = worn(&mut random, &first);
        for _ in 0..4 {
            script.vehicle(&vehicle_bytes(&vehicle_near(&mut random, &first, &second)));
            let [first, second] = files(&mut random, &first, &second);
            script.between(&first, &second, 2);
        }
    }
    agree(&script, &format!("TBR_SEED={seed}"));
}

/// Random bytes as either survey or both, some with the mark of a survey in front.
#[test]
fn any_bytes_as_two_surveys() {
    let seed = seed(0xbe20_1005);
    let (mut random, mut script) = (Random::new(seed), Script::default());
    script.vehicle(&vehicle_bytes(&vehicle(&mut random, Spread::Usual, 2)));
    let sound = survey_bytes(&survey(&mut random, Spread::Usual, 2));
    while script.bytes.len() < 200_000 {
        let (one, other) = (any_bytes(&mut random, b"TBR", 80), any_bytes(&mut random, b"TBR", 80));
        script.between(&one, &other, 3);
        script.between(&sound, &other, 4);
        script.between(&one, &sound, 4);
    }
    agree(&script, &format!("TBR_SEED={seed}"));
}
