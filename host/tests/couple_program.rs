//! Lorry and trailer coupled, against the reference: scripts of thousands of couplings between
//! other calls through the program `cases`, every line equal; and what the program itself answers
//! for a coupled vehicle, beside both halves alone and the same axles in one file.

mod common;

use common::scripts::*;
use common::{programs, seed};
use reference::generate::*;
use reference::layout::MOST_AXLES;
use reference::script::{Script, SPACE};

/// A round of calls is shorter than this: at most twelve, and a full survey may be loaded in each.
const LONGEST_ROUND: usize = 40_000;

/// Calls on one session: couplings mostly, what is loaded then judged, and every other call.
fn round(random: &mut Random, script: &mut Script) {
    if random.once_in(4) {
        script.start();
    }
    for _ in 0..1 + random.below(12) {
        match random.below(48) {
            0 | 1 => load_vehicle(random, script),
            2..=4 => load_survey(random, script),
            5..=7 => another_call(random, script),
            8 => script.start(),
            9..=27 => couple(script, &some_coupling(random)),
            turn => {
                let spread = spread(random);
                couple(script, &sound_coupling(random, turn, spread));
                script.judge(8);
            }
        }
    }
    script.judge(8);
}

fn scripts() -> Scripts {
    Scripts { seed: seed(0xc0de_1001), scripts: 3, longest: LONGEST_ROUND, round }
}

/// The scripts are worth something only if all answers are among them.
#[test]
fn the_scripts_have_every_answer() {
    let seen = scripts().answers("couple", |answer| answer, 10_000);
    hold_often(&seen, &["taken"], 5000);
    hold_refused(&seen, &["1 at 0", "2 at 0", "3 at 0", "7 at 0"], 200);
    hold_refused(&seen, &["7 at 1", "7 at 2", "7 at 3"], 30);
}

#[test]
fn thousands_of_couplings() {
    scripts().agree();
}

/// A session with a bridge and a vehicle that all members bear.
fn loaded(random: &mut Random) -> Script {
    let mut script = Script::default();
    script.survey(&survey_bytes(&bearing_survey(random, 2)));
    script.vehicle(&vehicle_bytes(&vehicle_of(random, 1, Spread::Usual, 1)));
    script
}

/// Each refusal of either file at each place, and each reason that sound ones are not coupled for:
/// the vehicle is kept, and so is the survey.
#[test]
fn damage_of_every_sort() {
    let seed = seed(0xc0de_1002);
    let mut random = Random::new(seed);
    let mut script = loaded(&mut random);
    let damaged = damaged_couplings(&mut random);
    assert!(damaged.len() > 800, "{} couplings", damaged.len());
    for DamagedCoupling { coupling, number, place } in damaged {
        couple(&mut script, &coupling);
        let expected = format!("couple refused {number} at {place}");
        assert_eq!(script.text.lines().last(), Some(&*expected), "TBR_SEED={seed}");
        script.rate(1);
    }
    assert!(script.bytes.len() < SPACE, "{} bytes", script.bytes.len());
    agree(&script, &format!("TBR_SEED={seed}"));
}

/// Every number of axles of both, in each pair of versions.
#[test]
fn every_number_of_axles() {
    let seed = seed(0xc0de_1003);
    let mut random = Random::new(seed);
    let mut script = loaded(&mut random);
    let counts = || 1..=MOST_AXLES;
    for (first, second) in counts().flat_map(|one| counts().map(move |other| (one, other))) {
        for turn in 0..4 {
            let [one, other] = two_halves(&mut random, turn, Spread::Usual, [first, second]);
            script.couple(&vehicle_bytes(&one), &vehicle_bytes(&other), random.edgy(1, 2000));
            script.rate(1);
        }
    }
    assert!(script.bytes.len() < SPACE, "{} bytes", script.bytes.len());
    agree(&script, &format!("TBR_SEED={seed}"));
}

/// Every gap, and next to each end of it.
#[test]
fn every_gap() {
    let seed = seed(0xc0de_1004);
    let mut random = Random::new(seed);
    let mut script = loaded(&mut random);
    let halves = two_halves(&mut random, 1, Spread::Usual, [1, 2]);
    let [first, second] = halves.each_ref().map(vehicle_bytes);
    for gap in (0..=2100).chain(NO_GAPS) {
        script.couple(&first, &second, gap);
        [1, 2].into_iter().for_each(|place| script.rate(place));
    }
    agree(&script, &format!("TBR_SEED={seed}"));
}

/// The vehicle loads of two members in each list that the program prints.
fn printed_loads(script: &Script) -> Vec<[u64; 2]> {
    let printed = programs::printed("cases", &script.bytes);
    let lists = printed.lines().filter_map(|line| line.strip_prefix("list "));
    let load = |list: &str, i| list.split(' ').nth(i).map(|number| number.parse().expect("a load"));
    lists.map(|list| [1, 3].map(|i| load(list, i).expect("two members"))).collect()
}

/// A bridge judged under each half alone, both coupled, and their axles in one file.
fn judged_four_times(random: &mut Random, script: &mut Script, turn: usize) {
    script.survey(&survey_bytes(&survey(random, Spread::Usual, 2)));
    let axles = [1 + random.below(8), 1 + random.below(8)];
    let halves = two_halves(random, turn, Spread::Usual, axles);
    let (gap, [first, second]) = (random.edgy(1, 2000), halves.each_ref().map(vehicle_bytes));
    script.vehicle(&first);
    script.judge(4);
    script.vehicle(&second);
    script.judge(4);
    script.couple(&first, &second, gap);
    script.judge(4);
    script.vehicle(&vehicle_bytes(&in_one_vehicle(&halves, gap)));
    script.judge(4);
}

/// "For every member the coupled load is at most the sum of the two loads, and at least each of
/// them", by what the program prints; and the same axles in one file have the same load.
#[test]
fn loads_of_both_halves() {
    let seed = seed(0xc0de_1005);
    let (mut random, mut script) = (Random::new(seed), Script::default());
    let (calls, mut above) = (800, 0);
    (0..calls).for_each(|turn| judged_four_times(&mut random, &mut script, turn));
    assert!(script.bytes.len() < SPACE, "{} bytes", script.bytes.len());
    let loads = printed_loads(&script);
    assert_eq!(loads.len(), 4 * calls, "TBR_SEED={seed}");
    for (loads, i) in loads.chunks(4).flat_map(|loads| [(loads, 0), (loads, 1)]) {
        let [one, other, both, file] = [0, 1, 2, 3].map(|call: usize| loads[call][i]);
        assert!(both <= one + other && both >= one.max(other), "TBR_SEED={seed}: {loads:?}");
        assert_eq!(both, file, "TBR_SEED={seed}");
        above += u32::from(both > one.max(other));
    }
    assert!(above > 200, "{above} of {calls} are above each half");
}

/// Random bytes as either vehicle or both, some with the mark of a vehicle in front.
#[test]
fn any_bytes_as_two_vehicles() {
    let seed = seed(0xc0de_1006);
    let mut random = Random::new(seed);
    let mut script = loaded(&mut random);
    let sound = vehicle_bytes(&vehicle(&mut random, Spread::Usual, 3));
    while script.bytes.len() < 200_000 {
        let [one, other] = [(); 2].map(|()| any_bytes(&mut random, b"TBV", 40));
        let gap = random.edgy(0, 2001);
        script.couple(&one, &other, gap);
        script.couple(&sound, &other, gap);
        script.couple(&one, &sound, gap);
        script.rate(1);
    }
    agree(&script, &format!("TBR_SEED={seed}"));
}

const LETTERS: &[u8; 26] = b"abcdefghijklmnopqrstuvwxyz";

/// A step that ends before its first file does is printed; so is what is left of it where the
/// script ends.
#[test]
fn steps_that_are_cut() {
    for length in 0..LETTERS.len() {
        let mut script = loaded(&mut Random::new(1));
        script.couple_body(&LETTERS[..length]);
        script.rate(1);
        end_within(&mut script, b'K', &LETTERS[..length]);
        agree(&script, &format!("cut at {length} bytes"));
    }
}

/// A first file of up to 27 bytes where 26 are left: only the last is cut.
#[test]
fn lengths_of_the_first_file() {
    let mut script = loaded(&mut Random::new(2));
    for length in 0..=27 {
        script.couple_body(&[&[b'g', 0, length, 0], &LETTERS[..]].concat());
        script.rate(1);
    }
    assert_eq!(script.text.matches("couple refused").count(), 27);
    agree(&script, "lengths of the first file");
}
