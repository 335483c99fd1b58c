//! Scripts of calls on a session for the program `cases`, made at random.

use super::programs;
use reference::generate::*;
use reference::script::{Script, SPACE};
use std::collections::BTreeMap;
use std::fmt::Display;

pub fn spread(random: &mut Random) -> Spread {
    if random.once_in(3) {
        Spread::Wide
    } else {
        Spread::Usual
    }
}

/// Mostly small surveys of either version, as brute force is dear; now and then a refused one.
pub fn load_survey(random: &mut Random, script: &mut Script) {
    let spread = spread(random);
    let bytes = match random.below(96) {
        0..=3 => some_damage(random).0,
        4 => full_survey_file(random, spread),
        5 => survey_file(random, spread, 65),
        _ => {
            let members = 1 + random.below(4);
            survey_file(random, spread, members)
        }
    };
    script.survey(&bytes);
}

pub fn load_vehicle(random: &mut Random, script: &mut Script) {
    let (spread, axles) = (spread(random), 1 + random.below(4));
    let bytes = match random.below(6) {
        0 => some_damage(random).1,
        _ => vehicle_bytes(&vehicle(random, spread, axles)),
    };
    script.vehicle(&bytes);
}

/// A step that asks for more bytes than the script has left: what is there is printed.
pub fn end_within(script: &mut Script, letter: u8, left: &[u8]) {
    script.bytes.extend([letter, 99, 0]);
    script.bytes.extend(left);
    script.text.push_str(std::str::from_utf8(left).expect("letters"));
    script.text.push('\n');
}

pub fn couple(script: &mut Script, Coupling { first, second, gap }: &Coupling) {
    script.couple(first, second, *gap);
}

/// Any call but a load, with what is small or damaged.
pub fn another_call(random: &mut Random, script: &mut Script) {
    match random.below(6) {
        0 => script.rate(random.below(5)),
        1 => script.judge(random.below(12)),
        2 => script.yard(&some_yard_damage(random, 3), 3),
        3 => {
            let [first, second] = some_pair_damage(random, 3);
            script.between(&first, &second, 6);
        }
        4 => {
            let Conversion { wanted, file, room } = some_conversion(random);
            script.convert(wanted, &file, room);
        }
        _ => {
            let Join { first, second, room } = some_join(random, 3);
            script.join(&first, &second, room);
        }
    }
}

/// Scripts of rounds of calls that nearly fill the program's space, so many from this seed on; a
/// round is shorter than the longest.
pub struct Scripts {
    pub seed: u64,
    pub scripts: u64,
    pub longest: usize,
    pub round: fn(&mut Random, &mut Script),
}

impl Scripts {
    fn filled(&self, seed: u64) -> Script {
        let (mut random, mut script) = (Random::new(seed), Script::default());
        while script.bytes.len() + self.longest < SPACE {
            let before = script.bytes.len();
            (self.round)(&mut random, &mut script);
            assert!(script.bytes.len() - before < self.longest);
        }
        script
    }

    fn seeds(&self) -> std::ops::Range<u64> {
        self.seed..self.seed + self.scripts
    }

    /// How often the calls of this name were answered in each way, more than so often in all; an
    /// answer is put in a class first.
    pub fn answers(&self, name: &str, class: fn(&str) -> &str, least: u64) -> Answers {
        let answer =
            |line: &str| Some(class(line.strip_prefix(name)?.strip_prefix(' ')?).to_string());
        let mut seen = BTreeMap::new();
        for script in self.seeds().map(|seed| self.filled(seed)) {
            for answer in script.text.lines().filter_map(answer) {
                *seen.entry(answer).or_default() += 1;
            }
        }
        println!("{seen:?}");
        assert!(seen.values().sum::<u64>() > least, "{seen:?}");
        seen
    }

    /// Every line of all of them is the reference's.
    pub fn agree(&self) {
        self.seeds().for_each(|seed| agree(&self.filled(seed), &format!("TBR_SEED={seed}")));
    }
}

/// How often each answer was given.
pub type Answers = BTreeMap<String, u64>;

/// The scripts are worth something only if all answers are among them.
pub fn hold_often(seen: &Answers, answers: &[&str], times: u64) {
    for answer in answers {
        let seen_times = seen.get(*answer).copied().unwrap_or(0);
        assert!(seen_times >= times, "{answer} is rare: {seen:?}");
    }
}

/// The same of refusals.
pub fn hold_refused(seen: &Answers, refusals: &[impl Display], times: u64) {
    for refusal in refusals {
        hold_often(seen, &[&format!("refused {refusal}")], times);
    }
}

/// Every line that the program prints is the reference's.
pub fn agree(script: &Script, what: &str) {
    let printed = programs::printed("cases", &script.bytes);
    for ((line, expected), number) in printed.lines().zip(script.text.lines()).zip(1..) {
        assert_eq!(line, expected, "{what}, line {number}");
    }
    assert_eq!(printed.len(), script.text.len(), "{what}");
}

/// The bytes that the program prints behind each call that fills a buffer.
pub fn printed_bytes(script: &Script) -> Vec<Vec<u8>> {
    let printed = programs::printed("cases", &script.bytes);
    let lines = printed.lines().filter_map(|line| line.strip_prefix("bytes "));
    let byte = |hex: &str, i: usize| u8::from_str_radix(&hex[i..i + 2], 16).expect("a byte");
    lines.map(|hex| (0..hex.len()).step_by(2).map(|i| byte(hex, i)).collect()).collect()
}
