//! Two surveys of one bridge joined, against the reference: scripts of thousands of joins between
//! other calls through the program `cases`, every line equal; and the program's own bytes, which it
//! takes as a survey and joins again.

mod common;

use common::scripts::*;
use common::{programs, seed};
use reference::generate::*;
use reference::layout::MOST_MEMBERS;
use reference::script::{Script, MOST_BYTES, SPACE};

/// A round of calls is shorter than this: at most twelve, and a full survey may be loaded in each.
const LONGEST_ROUND: usize = 40_000;

fn join(script: &mut Script, Join { first, second, room }: &Join) {
    script.join(first, second, *room);
}

/// A join that is taken; what it writes is often loaded then and judged.
fn one_bridge(random: &mut Random, script: &mut Script) {
    let (turn, members) = (random.below(4), 1 + random.below(4));
    let call = sound_join(random, turn, members);
    join(script, &call);
    if random.once_in(8) {
        let written = reference::join(&call.first, &call.second, call.room);
        script.survey(&written.expect("a join that is taken"));
        script.judge(2 * members);
    }
}

/// Calls on one session: joins mostly, and between them every other.
fn round(random: &mut Random, script: &mut Script) {
    if random.once_in(4) {
        script.start();
    }
    for _ in 0..1 + random.below(12) {
        match random.below(48) {
            0 => load_vehicle(random, script),
            1 => load_survey(random, script),
            2..=6 => another_call(random, script),
            7 => script.start(),
            8..=27 => join(script, &some_join(random, 4)),
            _ => one_bridge(random, script),
        }
    }
    script.judge(8);
}

/// Taken, whatever the length, or refused, whatever the place.
fn class(answer: &str) -> &str {
    match answer.starts_with("refused") {
        true => answer.split(" at ").next().unwrap_or(answer),
        false => "taken",
    }
}

fn scripts() -> Scripts {
    Scripts { seed: seed(0x101a_1001), scripts: 6, longest: LONGEST_ROUND, round }
}

/// The scripts are worth something only if all answers are among them.
#[test]
fn the_scripts_have_every_answer() {
    let seen = scripts().answers("join", class, 6000);
    hold_often(&seen, &["taken"], 3000);
    hold_refused(&seen, &[14, 18, 19], 200);
    hold_refused(&seen, &[1, 2, 3, 4, 5, 6, 7, 8, 16], 20);
}

#[test]
fn thousands_of_joins() {
    scripts().agree();
}

/// These joins, in as many scripts as they need.
fn agree_on(joins: &[Join], what: &str) {
    let mut script = Script::default();
    for call in joins {
        join(&mut script, call);
        if script.bytes.len() + LONGEST_ROUND > SPACE {
            agree(&std::mem::take(&mut script), what);
        }
    }
    agree(&script, what);
}

/// Two of the largest surveys refused in each way at each place, headers and short outputs.
#[test]
fn damage_at_every_place() {
    let seed = seed(0x101a_1002);
    let damaged = damaged_joins(&mut Random::new(seed));
    let joins: Vec<Join> = damaged.into_iter().map(|damaged| damaged.join).collect();
    assert!(joins.len() > 5000, "{} joins", joins.len());
    agree_on(&joins, &format!("TBR_SEED={seed}"));
}

/// Every number of every kind and section alone: as far apart as may be, farther, at both edges.
#[test]
fn records_apart_in_one_number() {
    let seed = seed(0x101a_1003);
    let mut random = Random::new(seed);
    let mut joins = Vec::new();
    for spread in [Spread::Usual, Spread::Wide, Spread::Wide] {
        for record in of_each_kind(&mut random, spread) {
            for Apart { first, second, .. } in apart_in_one(&record) {
                let [first, second] = [first, second].map(|record| survey_bytes(&[record]));
                joins.push(Join { first, second, room: survey_length(1) });
            }
        }
    }
    assert!(joins.len() > 4000, "{} joins", joins.len());
    agree_on(&joins, &format!("TBR_SEED={seed}"));
}

/// Full surveys with outputs just too short, just long enough and longer; the joined one loaded.
#[test]
fn full_surveys() {
    let seed = seed(0x101a_1004);
    let (mut random, mut script) = (Random::new(seed), Script::default());
    script.vehicle(&vehicle_bytes(&vehicle_of(&mut random, 1, Spread::Usual, 1)));
    for turn in 0..24 {
        let Join { first, second, .. } = sound_join(&mut random, turn, MOST_MEMBERS);
        let least = survey_length(MOST_MEMBERS);
        let room = [least - 1, least, least + 1, MOST_BYTES][turn % 4];
        script.join(&first, &second, room);
        if turn % 8 == 1 {
            script.survey(&reference::join(&first, &second, least).expect("a join that is taken"));
            script.judge(2 * MOST_MEMBERS);
        }
    }
    agree(&script, &format!("TBR_SEED={seed}"));
}

/// Outputs of every length for surveys of one to four members.
#[test]
fn outputs_of_every_length() {
    let seed = seed(0x101a_1005);
    let mut random = Random::new(seed);
    let mut joins = Vec::new();
    for members in 1..=4 {
        let call = sound_join(&mut random, members, members);
        let rooms = 0..=survey_length(members) + 20;
        joins.extend(rooms.map(|room| Join { room, ..call.clone() }));
    }
    agree_on(&joins, &format!("TBR_SEED={seed}"));
}

/// A buffer that is longer than any that the program lends is not lent.
#[test]
fn no_longer_buffer_is_lent() {
    let mut script = Script::default();
    let Join { first, second, .. } = sound_join(&mut Random::new(1), 0, 1);
    for room in [MOST_BYTES, MOST_BYTES + 1, 65_535] {
        script.join(&first, &second, room);
    }
    assert_eq!(script.text.lines().filter(|line| *line == "no buffer is so long").count(), 2);
    agree(&script, "long buffers");
}

/// The program's own bytes: it takes each joined survey, which joined with itself is the same, and
/// joins it with either of the two.
#[test]
fn the_programs_own_bytes() {
    let seed = seed(0x101a_1006);
    let mut random = Random::new(seed);
    let joins = (0..400).map(|turn| {
        let members = 1 + random.below(4);
        Join { room: survey_length(members), ..sound_join(&mut random, turn, members) }
    });
    let joins: Vec<Join> = joins.collect();
    let mut script = Script::default();
    joins.iter().for_each(|call| join(&mut script, call));
    let written = printed_bytes(&script);
    assert_eq!(written.len(), joins.len(), "TBR_SEED={seed}");
    let mut again = Script::default();
    for (bytes, Join { first, second, room }) in written.iter().zip(&joins) {
        assert_eq!((&bytes[..5], bytes.len()), (&b"TBR\x01\x00"[..], *room), "TBR_SEED={seed}");
        again.survey(bytes);
        for other in [bytes, first, second] {
            again.join(bytes, other, *room);
        }
    }
    assert!(again.bytes.len() < SPACE, "{} bytes", again.bytes.len());
    let printed = programs::printed("cases", &again.bytes);
    let times = |start: &str| printed.lines().filter(|line| line.starts_with(start)).count();
    assert_eq!((times("survey taken"), times("join refused")), (joins.len(), 0));
    let with_itself: Vec<Vec<u8>> = printed_bytes(&again).into_iter().step_by(3).collect();
    assert!(with_itself == written, "TBR_SEED={seed}");
}

/// Random bytes as either survey or both, some with the mark of a survey in front.
#[test]
fn any_bytes_as_two_surveys() {
    let seed = seed(0x101a_1007);
    let (mut random, mut script) = (Random::new(seed), Script::default());
    let sound = survey_bytes(&survey(&mut random, Spread::Usual, 2));
    while script.bytes.len() < 200_000 {
        let (one, other) = (any_bytes(&mut random, b"TBR", 80), any_bytes(&mut random, b"TBR", 80));
        script.join(&one, &other, random.below(100));
        script.join(&sound, &other, 70);
        script.join(&one, &sound, 70);
    }
    agree(&script, &format!("TBR_SEED={seed}"));
}
