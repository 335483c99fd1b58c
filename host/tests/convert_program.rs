//! The converter of vehicle files against the reference: scripts of tens of thousands of
//! conversions between other calls through the program `cases`, every line equal; there and back by
//! the program's own bytes; and vehicles that it rates alike in both versions.

mod common;

use common::scripts::*;
use common::{programs, seed};
use reference::generate::*;
use reference::script::{Script, MOST_BYTES, SPACE};
use std::collections::BTreeMap;

const SCRIPTS: u64 = 6;

/// A round of calls is shorter than this: nine steps at most, on vehicles of at most 16 axles.
const LONGEST_ROUND: usize = 1000;

/// The number and place of a refusal, or none: the conversion is taken.
type Answer = Option<(u64, u64)>;

/// A script, and how often each version was wanted with each answer.
struct Conversions {
    script: Script,
    seen: BTreeMap<(u8, Answer), u64>,
    rounds: u64,
    /// So often every damaged conversion was asked for.
    all_damage: u64,
}

impl Conversions {
    /// Asks for a conversion that must be answered so.
    fn convert(&mut self, conversion: &Conversion, answer: Answer) {
        let Conversion { wanted, file, room } = conversion;
        self.script.convert(*wanted, file, *room);
        let said = match answer {
            None => length(u16::from(*wanted), usize::from(file[8])).to_string(),
            Some((number, place)) => format!("refused {number} at {place}"),
        };
        // The bytes of the output are the last line.
        let line = self.script.text.lines().rev().nth(1);
        assert_eq!(line, Some(&*format!("convert {said}")), "to {wanted}");
        *self.seen.entry((*wanted, answer)).or_default() += 1;
    }

    /// A vehicle in both versions loaded and judged, and converted there and back: from version 1
    /// and from version 2 by turns.
    fn both_versions(&mut self, random: &mut Random, turn: usize) {
        let (spread, axles) = (spread(random), 1 + random.below(5));
        let heavy = fitting_vehicle(random, spread, axles);
        let light = VehicleWords { version: 1, ..heavy.clone() };
        let files = [light, heavy].map(|words| vehicle_bytes(&words));
        for file in &files {
            self.script.vehicle(file);
            self.script.judge(6);
        }
        for way in [turn % 2, 1 - turn % 2] {
            let (wanted, file) = ([2, 1][way], files[way].clone());
            let room = length(wanted.into(), axles) + random.below(3);
            self.convert(&Conversion { wanted, file, room }, None);
        }
    }

    /// A sound conversion, one that is refused, one of any file; in each fourth round both versions
    /// of a vehicle. The ways and the refusals take turns.
    fn round(&mut self, random: &mut Random, damaged: &[DamagedConversion]) {
        let turn = usize::try_from(self.rounds).expect("a number of rounds");
        self.convert(&sound_conversion(random, turn), None);
        let DamagedConversion { conversion, number, place } = &damaged[turn % damaged.len()];
        self.convert(conversion, Some((*number, *place)));
        let Conversion { wanted, file, room } = some_conversion(random);
        self.script.convert(wanted, &file, room);
        if turn % 4 == 0 {
            self.both_versions(random, turn / 4);
        }
        self.rounds += 1;
        self.all_damage = self.rounds / damaged.len() as u64;
    }
}

/// A script that nearly fills the program's space, on a survey of three members.
fn conversions(seed: u64) -> Conversions {
    let mut random = Random::new(seed);
    let (script, seen) = (Script::default(), BTreeMap::new());
    let mut all = Conversions { script, seen, rounds: 0, all_damage: 0 };
    all.script.survey(&survey_file(&mut random, Spread::Usual, 3));
    let damaged = damaged_conversions(&mut random);
    while all.script.bytes.len() + LONGEST_ROUND < SPACE {
        let before = all.script.bytes.len();
        all.round(&mut random, &damaged);
        assert!(all.script.bytes.len() - before < LONGEST_ROUND);
    }
    all
}

/// How often the calls of this name were answered, in the reference's lines.
fn answered(script: &Script, name: &str) -> u64 {
    script.text.lines().filter(|line| line.starts_with(name)).count() as u64
}

/// Each refusal in each way, at each place that it can have.
fn refusals(wanted: u8) -> impl Iterator<Item = (u64, u64)> {
    let headers = [1, 2, 3, 14].map(|number| (number, 0));
    let faults = (0..=16).map(|place| (7, place));
    let heavy = (1..=16).map(|place| (17, place)).filter(move |_| wanted == 1);
    headers.into_iter().chain(faults).chain(heavy)
}

/// The scripts are worth something only if all answers are among them, and they have them by turns:
/// half of the sound conversions are of each way, and every refusal comes with all damage.
#[test]
fn the_scripts_have_every_answer() {
    let first = seed(0xc0b7_1001);
    let mut total = 0;
    for seed in first..first + SCRIPTS {
        let all = conversions(seed);
        total += answered(&all.script, "convert ");
        assert!(all.all_damage > 0, "{} rounds", all.rounds);
        for wanted in [1, 2] {
            let times = |answer| all.seen.get(&(wanted, answer)).copied().unwrap_or(0);
            let sound = times(None);
            assert!(sound >= all.rounds / 2, "{sound} of {} go to {wanted}", all.rounds);
            for refusal in refusals(wanted) {
                let refused = times(Some(refusal));
                assert!(refused >= all.all_damage, "{refusal:?} to {wanted}: {refused} times");
            }
        }
    }
    assert!(total >= 20_000, "{total} conversions");
}

#[test]
fn thousands_of_conversions() {
    let first = seed(0xc0b7_1001);
    for seed in first..first + SCRIPTS {
        agree(&conversions(seed).script, &format!("TBR_SEED={seed}"));
    }
}

/// Every length of the output up to one that is longer than any vehicle, for every number of axles,
/// both ways.
#[test]
fn outputs_of_every_length() {
    let seed = seed(0xc0b7_1002);
    let mut random = Random::new(seed);
    for wanted in VERSIONS {
        let mut script = Script::default();
        for axles in 1..=16 {
            let light = vehicle_of(&mut random, 1, Spread::Wide, axles);
            let file = vehicle_bytes(&VehicleWords { version: other_version(wanted), ..light });
            let to = wanted.to_le_bytes()[0];
            (0..=LONGEST_OUTPUT).for_each(|room| script.convert(to, &file, room));
        }
        assert!(script.bytes.len() < SPACE, "{} bytes", script.bytes.len());
        assert_eq!(answered(&script, "convert "), 16 * (LONGEST_OUTPUT as u64 + 1));
        agree(&script, &format!("TBR_SEED={seed}, to {wanted}"));
    }
}

/// A buffer that is longer than any that the program lends is not lent.
#[test]
fn no_longer_buffer_is_lent() {
    let mut script = Script::default();
    let file = vehicle_bytes(&vehicle_of(&mut Random::new(1), 1, Spread::Usual, 1));
    for room in [MOST_BYTES, MOST_BYTES + 1, 65_535] {
        script.convert(2, &file, room);
    }
    assert_eq!(script.text.lines().filter(|line| *line == "no buffer is so long").count(), 2);
    agree(&script, "long buffers");
}

/// "there and back gives the same bytes": what the program writes is put to it again.
#[test]
fn there_and_back_by_the_programs_own_bytes() {
    const FILES: usize = 1000;
    let seed = seed(0xc0b7_1003);
    let mut random = Random::new(seed);
    for wanted in VERSIONS {
        let file = |i: usize| {
            let light = vehicle_of(&mut random, 1, Spread::Wide, 1 + i % 16);
            vehicle_bytes(&VehicleWords { version: other_version(wanted), ..light })
        };
        let files: Vec<Vec<u8>> = (0..FILES).map(file).collect();
        let gone = |files: &[Vec<u8>], wanted: u16| {
            let mut script = Script::default();
            for file in files {
                let room = length(wanted, usize::from(file[8]));
                script.convert(wanted.to_le_bytes()[0], file, room);
            }
            assert!(script.bytes.len() < SPACE, "{} bytes", script.bytes.len());
            printed_bytes(&script)
        };
        let there = gone(&files, wanted);
        assert_eq!(there.len(), FILES, "TBR_SEED={seed}");
        assert!(there.iter().all(|file| u16::from(file[3]) == wanted), "TBR_SEED={seed}");
        assert_eq!(gone(&there, other_version(wanted)), files, "TBR_SEED={seed}");
    }
}

/// "A vehicle rates alike in both versions": the program prints the same for each.
#[test]
fn vehicles_rate_alike() {
    let seed = seed(0xc0b7_1004);
    let mut random = Random::new(seed);
    let mut script = Script::default();
    let members = 3;
    script.survey(&survey_file(&mut random, Spread::Usual, members));
    let mut vehicles = 0;
    while script.bytes.len() + LONGEST_ROUND < SPACE {
        let spread = [Spread::Usual, Spread::Wide][vehicles % 2];
        let heavy = fitting_vehicle(&mut random, spread, 1 + vehicles % 16);
        for version in VERSIONS {
            script.vehicle(&vehicle_bytes(&VehicleWords { version, ..heavy.clone() }));
            script.all(members);
        }
        vehicles += 1;
    }
    assert!(vehicles > 500, "{vehicles} vehicles");
    agree(&script, &format!("TBR_SEED={seed}"));
    let printed = programs::printed("cases", &script.bytes);
    let lines: Vec<&str> = printed.lines().skip(1).collect();
    // A vehicle taken, each member rated, the bridge judged, the list.
    let pairs = lines.chunks(2 * (members + 3));
    assert_eq!(pairs.len(), vehicles);
    for (pair, i) in pairs.zip(1..) {
        let (light, heavy) = pair.split_at(members + 3);
        assert_eq!(light[0], "vehicle taken", "TBR_SEED={seed}, vehicle {i}");
        assert_eq!(light, heavy, "TBR_SEED={seed}, vehicle {i}");
    }
}

/// Any bytes as a vehicle file, many with its mark and a version in front.
#[test]
fn any_bytes_as_a_vehicle() {
    let seed = seed(0xc0b7_1005);
    let (mut random, mut script) = (Random::new(seed), Script::default());
    while script.bytes.len() < 200_000 {
        let file = any_bytes(&mut random, b"TBV", 120);
        for wanted in [1, 2] {
            script.convert(wanted, &file, random.below(LONGEST_OUTPUT + 1));
        }
    }
    agree(&script, &format!("TBR_SEED={seed}"));
}
