//! Two measurers, by hand: what is joined and how, what must agree, and the refusals in their
//! order.

mod joins;
mod records;

use joins::{said, Said};
use records::*;
use reference::generate::*;
use reference::layout::*;
use reference::script::MOST_BYTES;
use reference::{join, reader};

/// Two surveys of version 1, with an output that is just long enough for the first.
fn joined(first: &[Words], second: &[Words]) -> Said {
    joined_of([FREE_ORDER; 2], first, second)
}

fn joined_of(versions: [u16; 2], first: &[Words], second: &[Words]) -> Said {
    let room = 6 + 32 * first.len();
    let [first, second] = [(versions[0], first), (versions[1], second)]
        .map(|(version, records)| survey_bytes_of(version, records));
    said(&Join { first, second, room })
}

/// One record of each: the joined one, or the number of the refusal.
fn one(first: Words, second: Words) -> Result<Words, u64> {
    match joined(&[first], &[second]) {
        Ok(bytes) => Ok(reader::records(&bytes).expect("an accepted survey")[0]),
        Err((number, place)) => {
            assert_eq!(place, 1);
            Err(number)
        }
    }
}

/// One number of a record in each survey.
fn numbers(record: Words, word: usize, first: u16, second: u16) -> Result<u16, u64> {
    let joined = one(with(record, &[(word, first)]), with(record, &[(word, second)]))?;
    assert_eq!(with(joined, &[(word, 0)]), with(record, &[(word, 0)]), "all else stays");
    Ok(joined[word])
}

/// Case A beside one of 505 cm, 141 cm, 101 kgf/m, diameter 29 and rot 1: 503, 141, 101, 28 and 1.
#[test]
fn the_bytes_of_a_joined_survey() {
    let other = [1, 1, 505, 141, 0, 0, 101, 1, 29, 1, 1, 0, 0, 0, 0, 0];
    let mut expected = [0; 38];
    expected[..16].copy_from_slice(&[b'T', b'B', b'R', 1, 0, 1, 1, 0, 1, 0, 0xf7, 1, 141, 0, 0, 0]);
    expected[18..28].copy_from_slice(&[101, 0, 1, 0, 28, 0, 1, 0, 1, 0]);
    assert_eq!(joined(&[STRINGER], &[other]), Ok(expected.to_vec()));
    assert_eq!(joined(&[other], &[STRINGER]), Ok(expected.to_vec()));
}

/// Each kind with all that may differ: the first, the second and the joined record.
const JOINED: [[Words; 3]; 7] = [
    [
        CRESCENT,
        [1, 2, 497, 139, 0, 0, 95, 5, 31, 5, 2, 0, 0, 0, 0, 0],
        [1, 2, 499, 140, 0, 0, 98, 5, 30, 5, 2, 0, 0, 0, 0, 0],
    ],
    [
        BEAM,
        [2, 3, 303, 0, 200, 0, 10000, 2, 21, 24, 2, 1, 4, 0, 0, 0],
        [2, 3, 302, 0, 200, 0, 5000, 2, 20, 24, 2, 1, 4, 0, 0, 0],
    ],
    [
        CHORD,
        [3, 4, 995, 501, 200, 151, 0, 2, 4, 21, 1, 1, 4, 10, 0, 0],
        [3, 4, 998, 501, 200, 150, 250, 2, 4, 20, 1, 1, 4, 7, 0, 0],
    ],
    [
        DOWELS,
        [4, 5, 1004, 499, 200, 11, 1, 3, 1, 16, 11, 5, 0, 20, 3, 4],
        [4, 5, 1002, 500, 200, 10, 1, 3, 1, 16, 10, 5, 1, 20, 3, 4],
    ],
    [
        KEYS,
        [5, 6, 1001, 500, 200, 149, 9999, 4, 401, 27, 0, 0, 0, 0, 3, 4],
        [5, 6, 1001, 500, 200, 149, 5000, 4, 400, 24, 0, 0, 0, 0, 3, 4],
    ],
    [
        PLATES,
        [6, 0, 1002, 501, 200, 151, 10000, 4, 10000, 1, 0, 0, 0, 0, 3, 4],
        [6, 0, 1001, 501, 200, 150, 5000, 4, 9999, 1, 0, 0, 0, 0, 3, 4],
    ],
    [
        CLOSE,
        [7, 7, 605, 61, 2, 10, 0, 1, 29, 2, 2, 0, 0, 0, 20, 1],
        [7, 7, 603, 61, 2, 10, 50, 1, 29, 2, 2, 0, 0, 0, 20, 1],
    ],
];

/// The mean, an odd half up for span, spacing, rot, loss and dead load, and down otherwise.
#[test]
fn every_kind_by_hand() {
    for [first, second, joined] in JOINED {
        assert_eq!(one(first, second), Ok(joined));
        assert_eq!(one(second, first), Ok(joined), "the other way round");
    }
}

/// "spans may differ by 5": 2.5 above the lesser goes up.
#[test]
fn spans() {
    for record in ALL {
        let l = record[SPAN];
        for (by, mean) in [(0, 0), (1, 1), (2, 1), (3, 2), (4, 2), (5, 3)] {
            assert_eq!(numbers(record, SPAN, l, l + by), Ok(l + mean), "by {by}");
            assert_eq!(numbers(record, SPAN, l + by, l), Ok(l + mean), "by {by}");
        }
        for by in [6, 7, 8, 256, 261] {
            assert_eq!(numbers(record, SPAN, l, l + by), Err(19), "by {by}");
            assert_eq!(numbers(record, SPAN, l + by, l), Err(19), "by {by}");
        }
    }
}

/// "section sizes (log diameter, width and height, c and a, the area of code 4), spacing, truss
/// height and rot by 1"; "up for .. spacing, rot ..., and down otherwise"
#[test]
fn sizes_and_rot() {
    let sizes = [
        (STRINGER, vec![S1]),
        (CRESCENT, vec![S1]),
        (BEAM, vec![S1, S2]),
        (CHORD, vec![TRUSS_HEIGHT, S1, S2]),
        (DOWELS, vec![TRUSS_HEIGHT, S3, S4]),
        (KEYS, vec![TRUSS_HEIGHT, S1]),
        (with(PLATES, &[(S1, 300)]), vec![TRUSS_HEIGHT, S1]),
        (CLOSE, vec![S1]),
    ];
    let others = [
        (STRINGER, vec![SPACING, S2]),
        (CRESCENT, vec![SPACING, S2]),
        (BEAM, vec![S3, S4]),
        (CHORD, vec![SPACING, S3, S4]),
        (DOWELS, vec![SPACING, S5]),
        (KEYS, vec![SPACING]),
        (PLATES, vec![SPACING]),
        (CLOSE, vec![SPACING, S2]),
    ];
    for (all, half) in [(sizes, 0), (others, 1)] {
        for (record, words) in all {
            for word in words {
                let size = record[word];
                for (first, second) in [(size, size + 1), (size + 1, size)] {
                    assert_eq!(numbers(record, word, first, second), Ok(size + half), "{word}");
                }
                for by in [2, 3, 5] {
                    assert_eq!(numbers(record, word, size, size + by), Err(19), "{word} by {by}");
                    assert_eq!(numbers(record, word, size + by, size), Err(19), "{word} by {by}");
                }
            }
        }
    }
}

/// "Losses and dead load may differ by any amount", and an odd half goes up.
#[test]
fn losses_and_dead_load() {
    let losses = [(CHORD, S6), (KEYS, S2), (PLATES, S2)];
    for (record, word) in ALL.map(|record| (record, DEAD_LOAD)).into_iter().chain(losses) {
        for (first, second, mean) in
            [(0, 0, 0), (0, 1, 1), (0, 2, 1), (0, 9999, 5000), (0, 10000, 5000), (7, 20, 14)]
        {
            assert_eq!(numbers(record, word, first, second), Ok(mean), "{word}");
            assert_eq!(numbers(record, word, second, first), Ok(mean), "{word}");
        }
        assert_eq!(numbers(record, word, 9999, 10000), Ok(10000), "{word}");
        assert_eq!(numbers(record, word, 10000, 10000), Ok(10000), "{word}");
    }
}

/// "Kinds, species, codes, x, tiers, pieces, cuts, dowel type and diameter, A and B (deck rot too)
/// must agree; for kind 7 h must too."
#[test]
fn what_must_agree() {
    for (record, words) in [
        (STRINGER, vec![SPECIES, S3]),
        (CRESCENT, vec![SPECIES, S3]),
        (BEAM, vec![SPECIES, FROM_SUPPORT, S5]),
        (CHORD, vec![SPECIES, FROM_SUPPORT, S5]),
        (DOWELS, vec![SPECIES, FROM_SUPPORT, S1, S2, S6, PART_A, WHOLE_B]),
        (KEYS, vec![SPECIES, FROM_SUPPORT, PART_A, WHOLE_B]),
        (PLATES, vec![FROM_SUPPORT, PART_A, WHOLE_B]),
        (CLOSE, vec![SPECIES, S3, BOARDS, BOARD_THICKNESS, BOARD_WIDTH, DECK_ROT]),
    ] {
        for word in words {
            let (least, more) = (record[word], record[word] + 1);
            assert_eq!(numbers(record, word, least, least), Ok(least), "{word}");
            assert_eq!(numbers(record, word, least, more), Err(18), "{word}");
            assert_eq!(numbers(record, word, more, least), Err(18), "{word}");
        }
    }
    assert_eq!(one(STRINGER, with(STRINGER, &[(SECTION, 5)])), Err(18), "the code alone");
    assert_eq!(one(with(STRINGER, &[(SECTION, 5)]), STRINGER), Err(18), "the code alone");
    // Spacing and truss height, which a cross beam has not, are too far apart: that is 19, later.
    let beam = [2, 4, 1000, 0, 200, 0, 500, 2, 5, 20, 0, 0, 4, 0, 0, 0];
    assert_eq!(one(CHORD, beam), Err(18), "the kind alone");
    assert_eq!(one(beam, CHORD), Err(18), "the kind alone");
}

/// In a record kinds or codes that differ are 18 whatever else differs.
#[test]
fn kinds_and_codes() {
    for (first, i) in ALL.into_iter().zip(0..) {
        for (second, k) in ALL.into_iter().zip(0..) {
            let expected = if i == k { Ok(first) } else { Err(18) };
            assert_eq!(one(first, second), expected, "{i}, {k}");
            let longer = with(second, &[(SPAN, second[SPAN] + 6)]);
            assert_eq!(one(first, longer), Err(if i == k { 19 } else { 18 }), "{i}, {k}");
        }
    }
}

/// A record's field with its least and greatest value: joined at both ends.
#[test]
fn edges_of_ranges() {
    for (record, word, least, greatest) in [
        (STRINGER, SPAN, 100, 5000),
        (STRINGER, SPACING, 10, 1000),
        (CLOSE, SPACING, 30, 100),
        (CHORD, TRUSS_HEIGHT, 10, 500),
        (STRINGER, S1, 13, 39),
        (CRESCENT, S1, 14, 36),
        (CHORD, S1, 1, 60),
        (CHORD, S2, 1, 60),
        (DOWELS, S3, 1, 60),
        (DOWELS, S4, 1, 60),
        (KEYS, S1, 1, 10000),
        (STRINGER, S2, 0, 60),
        (CRESCENT, S2, 0, 60),
        (CHORD, S3, 0, 60),
        (CHORD, S4, 0, 60),
        (DOWELS, S5, 0, 60),
        (CLOSE, S2, 0, 60),
    ] {
        let half = u16::from(matches!(word, SPAN | SPACING) || is_rot(&record, word));
        for lower in [least, greatest - 1] {
            assert_eq!(numbers(record, word, lower, lower + 1), Ok(lower + half), "{word}");
            assert_eq!(numbers(record, word, lower + 1, lower), Ok(lower + half), "{word}");
        }
    }
    assert_eq!(numbers(STRINGER, SPAN, 100, 105), Ok(103));
    assert_eq!(numbers(STRINGER, SPAN, 4995, 5000), Ok(4998));
    assert_eq!(numbers(STRINGER, SPAN, 4994, 5000), Err(19));
    // x = 200 is below the shorter span by 1, and so below the mean.
    for (first, second, mean) in [(201, 201, 201), (201, 202, 202), (206, 201, 204)] {
        assert_eq!(numbers(CHORD, SPAN, first, second), Ok(mean));
    }
    assert_eq!(numbers(CHORD, SPAN, 200, 205), Err(7), "of the first survey itself");
}

/// "A mean outside its range cannot arise": every two values of a used number that may stand beside
/// each other give one that may. Losses and dead loads are tried at few values of the second.
#[test]
fn means_are_within_their_ranges() {
    let mut random = Random::new(0x0a10_0001);
    let mut taken = 0;
    for record in of_each_kind(&mut random, Spread::Usual) {
        for &(word, _, _) in used(record[KIND], record[SECTION]) {
            for value in 0..=10_000 {
                let first = survey_bytes(&[with(record, &[(word, value)])]);
                if reader::records(&first).is_err() {
                    continue;
                }
                for other in (value..=value + 6).chain([9999, 10_000]) {
                    let second = survey_bytes(&[with(record, &[(word, other)])]);
                    if let Ok(bytes) = join(&first, &second, 38) {
                        let mean = reader::records(&bytes).expect("an accepted survey")[0][word];
                        assert!(value.min(other) <= mean && mean <= value.max(other));
                        taken += 1;
                    }
                }
            }
        }
    }
    assert!(taken > 900_000, "{taken} are joined");
}

/// "The joined survey is written as version 1, so its order is the first survey's."
#[test]
fn version_and_order() {
    let [short, long] = [STRINGER, with(STRINGER, &[(SPAN, 600)])];
    let rising = survey_bytes(&[short, long]);
    for versions in [[1, 1], [1, 2], [2, 1], [2, 2]] {
        let answer = joined_of(versions, &[short, long], &[short, long]);
        assert_eq!(answer, Ok(rising.clone()), "{versions:?}");
    }
    assert_eq!(joined(&[long, short], &[long, short]), Ok(survey_bytes(&[long, short])));
    // Matched by place, not by what they are.
    assert_eq!(joined(&[long, short], &[short, long]), Err((19, 1)));
    assert_eq!(joined_of([1, 2], &[long, short], &[short, long]), Err((19, 1)));
    // Both stand in order by span, then spacing; their means do not.
    let at = |span, spacing| with(STRINGER, &[(SPAN, span), (SPACING, spacing)]);
    let [crossed, level] = [[at(500, 141), at(501, 140)], [at(501, 140), at(501, 140)]];
    let means = survey_bytes(&[at(501, 141), at(501, 140)]);
    assert_eq!(joined_of([2, 2], &crossed, &level), Ok(means.clone()));
    assert_eq!(reader::records(&with_version(&means, 2)).map_err(|fault| fault.number), Err(16));
}

/// "18: counts differ, place 0, tested first"
#[test]
fn counts() {
    let far = with(STRINGER, &[(SPAN, 506)]);
    let other = with(STRINGER, &[(SPECIES, 2)]);
    assert_eq!(joined(&[STRINGER], &[STRINGER, STRINGER]), Err((18, 0)));
    assert_eq!(joined(&[STRINGER, STRINGER], &[STRINGER]), Err((18, 0)));
    for second in [far, other, BEAM] {
        assert_eq!(joined(&[STRINGER], &[second, STRINGER]), Err((18, 0)));
        assert_eq!(joined(&[second, STRINGER], &[STRINGER]), Err((18, 0)));
    }
    assert_eq!(joined(&[STRINGER; 254], &[STRINGER; MOST_MEMBERS]), Err((18, 0)));
}

/// "First record at fault, 18 before 19 in it"
#[test]
fn the_first_record_at_fault() {
    let far = with(STRINGER, &[(SPAN, 506)]);
    let other = with(STRINGER, &[(SPECIES, 2)]);
    let both = with(far, &[(SPECIES, 2)]);
    let said = |second: &[Words]| joined(&vec![STRINGER; second.len()], second).map(|_| ());
    assert_eq!(said(&[both]), Err((18, 1)), "18 before 19 in a record");
    assert_eq!(said(&[far, other]), Err((19, 1)), "19 in the first before 18 in the second");
    assert_eq!(said(&[other, far]), Err((18, 1)));
    assert_eq!(said(&[STRINGER, far, both]), Err((19, 2)));
    assert_eq!(said(&[STRINGER, both, far]), Err((18, 2)));
    // Fields before and behind the one that must agree.
    for word in [SPAN, SPACING, S1, S2] {
        let second = with(STRINGER, &[(word, STRINGER[word] + 6), (S3, 2)]);
        assert_eq!(said(&[second]), Err((18, 1)), "word {word}");
    }
    for i in 0..MOST_MEMBERS {
        for (second, number) in [(far, 19), (other, 18), (both, 18)] {
            let mut records = vec![STRINGER; MOST_MEMBERS];
            records[i] = second;
            assert_eq!(said(&records), Err((number, i as u64 + 1)));
        }
    }
}

/// "after both are read, the first's own refusals before the second's; then 14"
#[test]
fn the_order_of_refusals() {
    let far = with(STRINGER, &[(SPAN, 506)]);
    let [no_kind, no_species] = [KIND, SPECIES].map(|word| with(STRINGER, &[(word, 0)]));
    let order = |first: &[Words], second: &[Words]| {
        let [first, second] = [first, second].map(survey_bytes);
        let answers = [0, 38, MOST_BYTES].map(|room| {
            said(&Join { first: first.clone(), second: second.clone(), room }).map(|_| ())
        });
        assert!(answers.iter().all(|answer| answer == &answers[0]), "{answers:?}");
        answers[0]
    };
    assert_eq!(order(&[no_species], &[no_kind]), Err((5, 1)), "the first's before the second's");
    assert_eq!(order(&[STRINGER, no_species], &[no_kind]), Err((5, 2)), "whatever the places");
    assert_eq!(order(&[STRINGER, STRINGER], &[far, no_kind]), Err((4, 2)), "the second's, then 19");
    assert_eq!(order(&[STRINGER], &[STRINGER, no_kind]), Err((4, 2)), "and before the counts");
    assert_eq!(order(&[STRINGER, no_kind], &[STRINGER]), Err((4, 2)), "the first's as well");
    assert_eq!(order(&[STRINGER], &[far]), Err((19, 1)), "19 before 14");
    assert_eq!(order(&[STRINGER], &[BEAM]), Err((18, 1)), "18 before 14");
    assert_eq!(order(&[STRINGER], &[STRINGER, far]), Err((18, 0)), "the counts before 14");
    let falling = [far, STRINGER];
    let late = |versions| joined_of(versions, &falling, &falling[..1]).map(|_| ());
    assert_eq!(late([2, 1]), Err((16, 2)), "the first's order before the counts");
    assert_eq!(late([1, 1]), Err((18, 0)));
    assert_eq!(joined_of([1, 2], &[STRINGER, no_kind], &falling), Err((4, 2)));
    assert_eq!(joined_of([2, 2], &falling, &[no_kind, STRINGER]), Err((16, 2)));
}

/// Own refusals of the whole file: its length, mark and count, place 0.
#[test]
fn files_that_are_no_surveys() {
    let sound = survey_bytes(&[STRINGER]);
    let mut marked = sound.clone();
    marked[2] = b'V';
    let none = survey_bytes(&[]);
    for (bytes, number) in [(&sound[..37], 1), (&sound[..0], 1), (&marked, 2), (&none, 3)] {
        let both = Join { first: bytes.to_vec(), second: vec![0; 6], room: 38 };
        assert_eq!(said(&both), Err((number, 0)));
        let second = Join { first: sound.clone(), second: bytes.to_vec(), room: 38 };
        assert_eq!(said(&second), Err((number, 0)));
    }
}

/// "14 if the output is too short", last.
#[test]
fn outputs_of_every_length() {
    for members in [1, 2, 64, 65, MOST_MEMBERS] {
        let file = survey_bytes(&vec![STRINGER; members]);
        let least = 6 + 32 * members;
        for room in (0..least).step_by(members).chain(least - 1..=least + 40) {
            let answer = said(&Join { first: file.clone(), second: file.clone(), room });
            let expected = if room < least { Err((14, 0)) } else { Ok(file.clone()) };
            assert_eq!(answer, expected, "{members} members, {room} bytes");
        }
    }
}
