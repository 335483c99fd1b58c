//! Closely spaced stringers, kind 7: figures worked out by hand, and what the generator makes of
//! them.

use reference::fraction::{over, whole};
use reference::generate::*;
use reference::layout::*;
use reference::permitted::{exact, permitted_load};
use reference::section::{deck_inertia, moment_of_inertia, section_modulus};
use reference::spread::{self, stiffness_number, GREATEST_K};
use reference::{influence::vehicle_load, reader, Axle, Member, Vehicle};
use std::collections::BTreeMap;

const SEED: u64 = 0xc105_e000;

/// One sawn piece 12 by 20, l = 1000, d = 50, q = 10, one board 12 wide and 5 thick with rot 3.
const SAWN: Member = Member {
    kind: 7,
    species: 1,
    l: 1000,
    d: 50,
    x: 1,
    h: 5,
    q: 10,
    code: 2,
    s: [12, 20, 0, 0, 1, 0],
    a: 12,
    b: 3,
};

/// Three tiers of log 31, rot 7 in the top one; beech, l = 1009, d = 89, q = 100, three boards 44
/// wide and 15 thick with this rot.
fn logs(deck_rot: u16) -> Member {
    let (s, deck) = ([31, 7, 3, 0, 0, 0], Member { x: 3, h: 15, a: 44, b: deck_rot, ..SAWN });
    Member { species: 8, l: 1009, d: 89, q: 100, code: 1, s, ..deck }
}

fn vehicle(class: u8, track: u16) -> Vehicle {
    Vehicle { class, track, axles: vec![Axle { weight: 1, distance: 0 }] }
}

/// β of a member.
fn beta(member: &Member, track: u16) -> i128 {
    spread::beta(stiffness_number(member), member.d, track)
}

/// I = W h / 2 = 12 × 20³ / 12 = 8000, J = 12 × 2³ / 12 = 8, 8d³ / l³ = 1/1000: k = 1, the shares
/// are 3/5 and 1/5. E = 190 = 3 × 50 + 40, so no stringer has a part of both wheels that is above
/// 3/5: β = 0.6. W = 800: (3072 × 800 − 2.4 × 0.1 × 10⁶) / (1.4 × 0.6 × 10⁶) = 2.64.
#[test]
fn three_stringers_by_hand() {
    assert_eq!(section_modulus(&SAWN), whole(800));
    assert_eq!(moment_of_inertia(&SAWN), whole(8000));
    assert_eq!(deck_inertia(&SAWN), whole(8));
    assert_eq!(stiffness_number(&SAWN), 10_000);
    assert_eq!(beta(&SAWN, 190), 6000);
    assert_eq!(exact(&SAWN, &vehicle(0, 190)), whole(264));
    assert_eq!(permitted_load(&SAWN, &vehicle(0, 190)), 264);
}

/// l = 200, a piece 10 by 20, two boards 50 wide and 13 thick with rot 3: I = 10 × 20³ / 12, J = 2
/// × 50 × 10³ / 12, 8d³ / l³ = 1/8: k = 0.1. The shares are 2.87, 2.1, 0.7 over 8.47. E = 100 = 2 ×
/// 50: the stringer between the wheels has 4.2 / 8.47 = 0.49587 and those under them 3.57 / 8.47: β
/// = 0.4959. W = 2000/3, oak, class 1, q = 20: (3072 × 2000/3 × 1.3 − 2.4 × 0.2 × 40,000) / (1.1 ×
/// 0.4959 × 40,000) = 121.1387; with β unrounded it would be 121.1467.
#[test]
fn five_stringers_by_hand() {
    let deck = Member { x: 2, h: 13, a: 50, b: 3, ..SAWN };
    let member = Member { species: 6, l: 200, q: 20, s: [10, 20, 0, 0, 1, 0], ..deck };
    assert_eq!(section_modulus(&member), over(2000, 3));
    assert_eq!(stiffness_number(&member), 1000);
    assert_eq!(beta(&member, 100), 4959);
    assert_eq!(permitted_load(&member, &vehicle(1, 100)), 12_113);
}

/// The same with four boards of 10 thick: J = 4 × 50 × 10³ / 12, k = 0.05. The shares are 4.93075,
/// 3.965, 2.105, 0.1075 over 17.28575. E = 100 = 2 × 50: the stringer between the wheels has 7.93 /
/// 17.28575 = 0.45876, those under them 7.03575 / 17.28575: β = 0.4588. E = 190 = 3 × 50 + 40:
/// under the first wheel 4.93075 and 10/50 of the third share, 4.95225 / 17.28575 = 0.28649;
/// without the third it would be 0.28525. (3072 × 2000/3 × 1.3 − 2.4 × 0.2 × 40,000) / (1.1 × β ×
/// 40,000) = 130.93445 and 209.6779.
#[test]
fn seven_stringers_by_hand() {
    let deck = Member { x: 4, h: 10, a: 50, b: 0, ..SAWN };
    let member = Member { species: 6, l: 200, q: 20, s: [10, 20, 0, 0, 1, 0], ..deck };
    assert_eq!(stiffness_number(&member), 500);
    assert_eq!([100, 190].map(|track| beta(&member, track)), [4588, 2865]);
    let loads = [100, 190].map(|track| permitted_load(&member, &vehicle(1, track)));
    assert_eq!(loads, [13_093, 20_967]);
}

/// l = 200, d = 70: 8d³ / l³ = 0.343. Two tiers of log 20 have I = 2 × 785 × 10 = 15,700, three
/// boards 49 wide and 20 thick J = 98,000: k = 0.05495, kept as 0.0550, so five share. With rot 1
/// in the top log, net 18, I = 573 × 9 + 7850 = 13,007: k = 0.0455, and seven share.
#[test]
fn a_half_at_the_border() {
    let of = |rot| {
        let (s, deck) = ([20, rot, 2, 0, 0, 0], Member { x: 3, h: 20, a: 49, b: 0, ..SAWN });
        Member { l: 200, d: 70, code: 1, s, ..deck }
    };
    assert_eq!([0, 1].map(|rot| stiffness_number(&of(rot))), [550, 455]);
    // E = 140 = 2 × 70, the stringer between the wheels: 3.21 / 6.891175 = 0.46581, and twice
    // 3.6887315 / 16.3200074 = 0.45205.
    assert_eq!([0, 1].map(|rot| beta(&of(rot), 140)), [4659, 4521]);
}

/// The top log has net diameter 17: W = 482, I = 482 × 17 / 2 = 4097. Two sound ones have W = 2925,
/// I = 2925 × 31 / 2 = 45,337.5 each: W = 6332, I = 94,772. J = 3 × 44 × 6³ / 12 = 2376 with deck
/// rot 9, 1375 with 10: k = 0.2190 and 0.3784. More deck rot gives a higher load here: the shares
/// change.
#[test]
fn deeper_deck_rot_may_bear_more() {
    assert_eq!(section_modulus(&logs(9)), whole(6332));
    assert_eq!(moment_of_inertia(&logs(9)), whole(94_772));
    let found = [9, 10].map(|rot| {
        let member = logs(rot);
        (deck_inertia(&member), stiffness_number(&member), beta(&member, 190))
    });
    assert_eq!(found, [(whole(2376), 2190, 5011), (whole(1375), 3784, 4965)]);
    let loads = [9, 10].map(|rot| permitted_load(&logs(rot), &vehicle(0, 190)));
    assert_eq!(loads, [2653, 2678]);
}

/// Code 2 takes its net width and net height, for W and for I: 12 by 20 are left of 13 by 24.
#[test]
fn a_decayed_piece() {
    let decayed = Member { s: [13, 24, 1, 4, 1, 0], ..SAWN };
    assert_eq!(section_modulus(&decayed), whole(800));
    assert_eq!(moment_of_inertia(&decayed), whole(8000));
    let three = Member { s: [13, 24, 1, 4, 3, 0], ..SAWN };
    assert_eq!(moment_of_inertia(&three), whole(24_000));
}

/// Base and apex as kind 1: the vehicles of cases I and L.
#[test]
fn the_vehicle_load() {
    let of = |l, weights: [u32; 2], apart| {
        let axle = |weight, distance| Axle { weight, distance };
        let axles = vec![axle(weights[0], 0), axle(weights[1], apart)];
        vehicle_load(&Member { l, ..SAWN }, &Vehicle { class: 0, track: 190, axles })
    };
    assert_eq!(of(1000, [2000, 4000], 300), 960);
    assert_eq!(of(500, [1500, 3000], 370), 1200);
}

/// Nothing is left of the boards, of the boards and the stringer, or of the stringer alone.
#[test]
fn nothing_left() {
    for rot in [5, 6, 20] {
        assert_eq!(stiffness_number(&Member { b: rot, ..SAWN }), GREATEST_K, "deck rot {rot}");
        let rotten = Member { b: rot, s: [12, 20, 12, 0, 1, 0], ..SAWN };
        assert_eq!(stiffness_number(&rotten), GREATEST_K, "deck rot {rot}");
    }
    let rotten = Member { s: [12, 20, 0, 20, 1, 0], ..SAWN };
    assert_eq!((stiffness_number(&rotten), permitted_load(&rotten, &vehicle(0, 190))), (0, 0));
    // k = 0: seven stringers bear a seventh each, and some bear one of both wheels.
    assert_eq!(beta(&rotten, 190), 2858);
}

/// One log 13 over a span of 100, d = 30: I = 1404, 8d³ = 216,000, l³ = 10⁶. A board 8 wide with 4
/// cm left has J = 128/3: k = 7.10775, in ten-thousandths a half. A board 10 wide and 4 thick has J
/// = 160/3 and k = 5.6862, 7 wide 112/3 and 8.12314...
#[test]
fn halves_are_rounded_up() {
    let of = |a, h| {
        let s = [13, 0, 1, 0, 0, 0];
        stiffness_number(&Member { l: 100, d: 30, code: 1, s, x: 1, h, a, b: 0, ..SAWN })
    };
    assert_eq!([of(8, 4), of(10, 4), of(7, 4)], [71_078, 56_862, 81_231]);
    // 5 wide: 11.37 is above the greatest; 6 wide: 9.4770.
    assert_eq!([of(5, 4), of(6, 4), of(60, 20)], [GREATEST_K, 94_770, 76]);
}

/// The greatest influence is under a wheel, between two wheels, or under both, by track and
/// spacing.
#[test]
fn the_most_loaded_stringer() {
    let of = |j: [u16; 3], d, track| {
        let [s1, a, b] = j;
        beta(&Member { d, l: 20 * d, s: [s1, 20, 0, 0, 1, 0], a, b, ..SAWN }, track)
    };
    let (stiff, even, soft) = ([12, 12, 3], [12, 60, 3], [12, 60, 0]);
    // k = 1: 3/5 and 1/5.
    assert_eq!(of(stiff, 100, 100), 8000, "neighbours, 3/5 + 1/5");
    assert_eq!(of(stiff, 100, 150), 7000, "3/5 + half of 1/5");
    assert_eq!(of(stiff, 100, 200), 6000, "two places apart, between them 1/5 + 1/5");
    assert_eq!(of(stiff, 30, 300), 6000, "ten places apart");
    // k = 1/5: 1 + 3.6 + 0.28, 1 + 2.2, 0.4 over 12.08.
    assert_eq!(of(even, 100, 100), 6689, "4.88 + 3.2 over 12.08");
    assert_eq!(of(even, 100, 200), 5299, "between the wheels, twice 3.2 over 12.08");
    assert_eq!(of(even, 100, 250), 4206, "under the first wheel, 4.88 + half of 0.4 over 12.08");
    assert_eq!(of(even, 75, 300), 4040, "four places apart, none of the other wheel");
    // k = 0.0128: 1.943118, 1.737137, 1.291451, 0.770092 over 9.540476.
    assert_eq!(of(soft, 100, 100), 3858, "1.943118 + 1.737137 over 9.540476");
    assert_eq!(of(soft, 100, 300), 3175, "1.737137 + 1.291451 over 9.540476");
    assert_eq!(of(soft, 75, 300), 2708, "in the middle, twice 1.291451 over 9.540476");
    assert_eq!(of(soft, 60, 300), 2161, "1.291451 + 0.770092 over 9.540476");
    assert_eq!(of(soft, 50, 300), 2037, "1.943118 over 9.540476; in the middle twice 0.770092");
}

/// k = 0, a seventh each: up to six places apart some stringer has a seventh of both wheels.
#[test]
fn wheels_far_apart_over_even_shares() {
    for (spacing, track, beta, what) in [
        (100, 100, 2858, "m 1: 2/7"),
        (60, 300, 2858, "m 5: 2/7"),
        (50, 300, 2858, "m 6: 2/7, third of both"),
        (30, 180, 2858, "m 6: the same"),
        (49, 300, 2683, "m 6, r 6: 1/7 + 43/49 of 1/7"),
        (45, 300, 1905, "m 6, r 30: 1/7 + a third of 1/7"),
        (43, 300, 1462, "m 6, r 42: 1/7 + 1/43 of 1/7"),
        (30, 210, 1429, "m 7: none has a share of both"),
        (30, 300, 1429, "m 10: the same"),
    ] {
        assert_eq!(spread::beta(0, spacing, track), beta, "{what}");
    }
}

fn is_close(words: &Words) -> bool {
    words[KIND] == CLOSE_STRINGER
}

/// What a closely spaced stringer is an example of.
fn marks(words: &Words) -> Vec<&'static str> {
    let member = reader::survey(&survey_bytes(&[*words])).expect("a sound survey")[0];
    let k = stiffness_number(&member);
    let net = i32::from(words[BOARD_THICKNESS]) - i32::from(words[DECK_ROT]);
    let marks = [
        ("k below 0.055", k < 550),
        ("k from 0.055 to 1/3", k >= 550 && 3 * k < 10_000),
        ("k from 1/3 up", 3 * k >= 10_000 && k < GREATEST_K),
        ("the greatest k", net > 0 && k == GREATEST_K),
        ("boards just gone", net == 0),
        ("a last centimetre of boards", net == 1),
        ("A above B", words[PART_A] > words[WHOLE_B]),
        ("A at most B", words[PART_A] <= words[WHOLE_B]),
    ];
    marks.into_iter().filter(|(_, met)| *met).map(|(mark, _)| mark).collect()
}

#[test]
fn the_generator_meets_every_spread() {
    for spread in [Spread::Wide, Spread::Usual] {
        let mut random = Random::new(SEED);
        let mut met: BTreeMap<(u16, &str), u32> = BTreeMap::new();
        for words in survey(&mut random, spread, 20_000).iter().filter(|words| is_close(words)) {
            for mark in marks(words) {
                *met.entry((words[SECTION], mark)).or_default() += 1;
            }
        }
        assert!(met.len() == 16 && met.values().all(|&times| times > 5), "{met:?}");
    }
}

/// Both sides of 0.055 are met often, and the two numbers next to it too.
#[test]
fn the_generator_meets_the_border() {
    let mut random = Random::new(SEED);
    let mut met: BTreeMap<i128, u32> = BTreeMap::new();
    for words in (0..4000).filter_map(|_| at_seven_stringers(&mut random)) {
        let members = reader::survey(&survey_bytes(&[words])).expect("a sound survey");
        *met.entry(stiffness_number(&members[0])).or_default() += 1;
    }
    let [seven, five] = [met.range(540..550), met.range(550..560)]
        .map(|side| side.map(|(_, times)| times).sum::<u32>());
    assert!(seven > 1000 && five > 1000 && met[&549] > 300 && met[&550] > 300, "{met:?}");
}

/// Any wear: rot of the stringer and of its deck grows. The same spread: its dead load alone.
#[test]
fn how_a_worse_survey_wears() {
    let mut random = Random::new(SEED);
    let members = survey(&mut random, Spread::Usual, 64);
    let (mut deck, mut stringer, mut heavier) = (0, 0, 0);
    for round in 0..200 {
        let any = worse_survey(&mut random, &members, Wear::Any, 0);
        let same = worse_survey(&mut random, &members, Wear::SameSpread, 0);
        for ((one, any), same) in members.iter().zip(&any).zip(&same) {
            let grown = |other: &Words| -> Vec<usize> {
                assert!((0..16).all(|i| other[i] >= one[i]), "seed {SEED:#x}, round {round}");
                (0..16).filter(|&i| other[i] > one[i]).collect()
            };
            if is_close(one) {
                deck += u32::from(grown(any).contains(&DECK_ROT));
                stringer += u32::from(grown(any).iter().any(|i| [S2, S3, S4].contains(i)));
                assert!(grown(same).iter().all(|&i| i == DEAD_LOAD), "round {round}");
                heavier += u32::from(!grown(same).is_empty());
            }
        }
    }
    assert!(deck > 100 && stringer > 100 && heavier > 100, "{deck}, {stringer}, {heavier}");
}
