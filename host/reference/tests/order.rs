//! Records in one order, by hand: what stands before what, places, which refusal comes first, and
//! the versions.

use reference::generate::*;
use reference::layout::*;
use reference::{reader, File, Refused};

/// A log or sawn member of this kind that stands here; a cross beam has no spacing.
fn at([kind, span, spacing]: [u16; 3]) -> Words {
    let mut words: Words = [0; 16];
    [words[KIND], words[SPAN], words[SPACING]] = [kind, span, spacing];
    [words[SPECIES], words[DEAD_LOAD], words[SECTION]] = [1, 100, 1];
    words[S1..=S3].copy_from_slice(&[28, 0, 1]);
    match kind {
        2 => words[FROM_SUPPORT] = 200,
        3 => {
            [words[FROM_SUPPORT], words[TRUSS_HEIGHT], words[SECTION]] = [50, 150, 2];
            words[S1..=S6].copy_from_slice(&[5, 20, 0, 0, 4, 0]);
        }
        CLOSE_STRINGER => {
            [words[BOARDS], words[BOARD_THICKNESS], words[BOARD_WIDTH]] = [2, 10, 20];
        }
        _ => {}
    }
    words
}

fn with(mut words: Words, word: usize, value: u16) -> Words {
    words[word] = value;
    words
}

/// Number and place of the refusal of these records in this version.
fn refusal(version: u16, records: &[Words]) -> Option<(u64, u64)> {
    refusal_of(&survey_bytes_of(version, records))
}

fn refusal_of(bytes: &[u8]) -> Option<(u64, u64)> {
    let Refused { file, number, place } = reader::records(bytes).err()?;
    assert_eq!(file, File::Survey);
    Some((number, place))
}

/// Kind, span and spacing of two records: the first stands before the second.
const BEFORE: [[[u16; 3]; 2]; 14] = [
    // By kind, whatever the others: the cross beam's spacing is 0.
    [[1, 500, 140], [2, 500, 0]],
    [[1, 5000, 1000], [2, 100, 0]],
    [[2, 5000, 0], [3, 100, 10]],
    [[1, 5000, 1000], [3, 100, 10]],
    [[3, 5000, 1000], [7, 100, 30]],
    // By span, whatever the spacing.
    [[1, 499, 140], [1, 500, 140]],
    [[1, 499, 1000], [1, 500, 10]],
    [[2, 300, 0], [2, 301, 0]],
    [[3, 255, 140], [3, 256, 140]],
    [[1, 511, 255], [1, 512, 254]],
    // By spacing alone.
    [[1, 500, 139], [1, 500, 140]],
    [[1, 500, 255], [1, 500, 256]],
    [[3, 500, 10], [3, 500, 1000]],
    [[7, 500, 30], [7, 500, 31]],
];

#[test]
fn kind_then_span_then_spacing() {
    for [first, second] in BEFORE {
        let [one, other] = [first, second].map(at);
        assert_eq!(refusal(IN_ORDER, &[one, other]), None, "{first:?} {second:?}");
        assert_eq!(refusal(IN_ORDER, &[other, one]), Some((16, 2)), "{second:?} {first:?}");
        for records in [[one, other], [other, one]] {
            assert_eq!(refusal(FREE_ORDER, &records), None, "{first:?} {second:?}");
        }
    }
}

/// The other thirteen words say nothing: either order of two that differ in one of them.
#[test]
fn equals_stand_as_they_come() {
    for record in [at([1, 500, 140]), at([2, 300, 0]), at([3, 500, 140]), at([7, 500, 60])] {
        assert_eq!(refusal(IN_ORDER, &[record; MOST_MEMBERS]), None);
        let used = used(record[KIND], record[SECTION]).map(|limit| limit.0);
        for word in used.chain([SPECIES]).filter(|&word| word != SPAN && word != SPACING) {
            let other = with(record, word, record[word] + 1);
            for records in [[record, other], [other, record]] {
                assert_eq!(refusal(IN_ORDER, &records), None, "{record:?}, word {word}");
            }
        }
    }
    let (log, sawn) = (at([1, 500, 140]), with(with(at([1, 500, 140]), SECTION, 2), S5, 1));
    let sawn = with(sawn, S2, 20);
    for records in [[log, sawn], [sawn, log]] {
        assert_eq!(refusal(IN_ORDER, &records), None, "the section code");
    }
}

/// What stands before and behind chords of span 500 and spacing 140: by kind, span and spacing.
const LESS: [[u16; 3]; 3] = [[2, 500, 0], [3, 499, 140], [3, 500, 139]];
const GREATER: [[u16; 3]; 3] = [[7, 500, 60], [3, 501, 140], [3, 500, 141]];

/// All alike but one: where it is less it is itself too late, where it is greater the next one is.
#[test]
fn the_place_of_the_later_record() {
    let counts = [1, 2, 3, 63, 64, 65, 127, 128, 129, MOST_MEMBERS];
    let places = |count| (1..=count).map(move |place| (count, place));
    for (count, place) in counts.into_iter().flat_map(places) {
        let refusal = |one| {
            let mut records = vec![at([3, 500, 140]); count];
            records[place - 1] = at(one);
            refusal(IN_ORDER, &records)
        };
        let late = (place > 1).then_some((16, place as u64));
        let next = (place < count).then_some((16, place as u64 + 1));
        for (less, greater) in LESS.into_iter().zip(GREATER) {
            assert_eq!(refusal(less), late, "{less:?} at {place} of {count}");
            assert_eq!(refusal(greater), next, "{greater:?} at {place} of {count}");
        }
    }
}

#[test]
fn the_first_of_several() {
    let spans = |spans: &[u16]| {
        let records: Vec<Words> = spans.iter().map(|&span| at([1, span, 140])).collect();
        refusal(IN_ORDER, &records)
    };
    assert_eq!(spans(&[100, 200, 300, 400, 500]), None);
    assert_eq!(spans(&[500, 400, 300, 200, 100]), Some((16, 2)));
    assert_eq!(spans(&[100, 300, 200, 500, 400]), Some((16, 3)));
    assert_eq!(spans(&[100, 200, 400, 300, 200]), Some((16, 4)));
    // Behind a record that stands too late, the next is compared with that one.
    assert_eq!(spans(&[100, 500, 200, 300, 400]), Some((16, 3)));
    assert_eq!(spans(&[100, 300, 300, 200, 200]), Some((16, 4)));
}

/// Each fault of a record, at any place of records that are all out of order.
#[test]
fn every_other_fault_of_a_record_comes_first() {
    let faults =
        [(KIND, 0, 4), (KIND, 8, 4), (SPECIES, 9, 5), (SECTION, 3, 6), (S6, 1, 8), (S1, 60, 7)];
    for count in 2..=6 {
        let falling: Vec<Words> = (0..count).map(|i| at([1, 500 - i, 140])).collect();
        assert_eq!(refusal(IN_ORDER, &falling), Some((16, 2)));
        for (i, place) in (0..falling.len()).zip(1..) {
            for (word, value, number) in faults {
                let mut records = falling.clone();
                records[i] = with(records[i], word, value);
                let answer = Some((number, place));
                assert_eq!(
                    refusal(IN_ORDER, &records),
                    answer,
                    "word {word} at {place} of {count}"
                );
            }
        }
    }
}

/// An unused spacing is a fault of its own, and no place in the order.
#[test]
fn a_cross_beam_with_a_spacing() {
    let [beam, spaced] = [at([2, 300, 0]), at([2, 300, 140])];
    assert_eq!(refusal(IN_ORDER, &[beam, beam]), None);
    assert_eq!(refusal(IN_ORDER, &[spaced, beam]), Some((8, 1)));
    assert_eq!(refusal(IN_ORDER, &[beam, spaced]), Some((8, 2)));
}

/// Too short for the header, mark or version, count, length.
#[test]
fn the_header_comes_first() {
    let falling = survey_bytes_of(IN_ORDER, &[at([1, 500, 140]), at([1, 499, 140])]);
    assert_eq!(refusal_of(&falling), Some((16, 2)));
    for length in 0..falling.len() {
        assert_eq!(refusal_of(&falling[..length]), Some((1, 0)), "{length} bytes");
    }
    assert_eq!(refusal_of(&[&falling[..], &[0]].concat()), Some((1, 0)));
    for (byte, value, number) in [(0, b't', 2), (2, b'V', 2), (5, 0, 3), (5, 3, 1), (5, 65, 1)] {
        let mut bytes = falling.clone();
        bytes[byte] = value;
        assert_eq!(refusal_of(&bytes), Some((number, 0)), "byte {byte} is {value}");
    }
}

/// Every version word: 1 and 2 are a survey's.
#[test]
fn versions() {
    let records = [at([1, 500, 140]), at([1, 499, 140])];
    for version in 0..=u16::MAX {
        let refused = (!(1..=2).contains(&version)).then_some((2, 0));
        assert_eq!(refusal(version, &records[..1]), refused, "version {version}");
        let falling = if version == 2 { Some((16, 2)) } else { refused };
        assert_eq!(refusal(version, &records), falling, "version {version}");
    }
}

/// The records come out as they stand in the file, in both versions.
#[test]
fn both_versions_have_the_same_records() {
    let mut random = Random::new(0x02de_0001);
    for _ in 0..200 {
        let members = in_order(&any_survey(&mut random, Spread::Wide, 9));
        for version in [FREE_ORDER, IN_ORDER] {
            let read = reader::records(&survey_bytes_of(version, &members));
            assert_eq!(read.expect("a sound survey"), members);
        }
    }
}

/// What the order makes of records: each is in it, none stands before its predecessor by the
/// request's words, and equals are in the places that they had to each other.
#[test]
fn put_in_order() {
    let mut random = Random::new(0x02de_0002);
    let (mut moved, mut equals) = (0, 0);
    for _ in 0..500 {
        let mut members = any_survey(&mut random, Spread::Usual, 12);
        // No number of the order: the place that each had.
        members.iter_mut().zip(1..).for_each(|(words, place)| words[DEAD_LOAD] = place);
        let ordered = in_order(&members);
        moved += u32::from(ordered != members);
        let mut places: Vec<u16> = ordered.iter().map(|words| words[DEAD_LOAD]).collect();
        for pair in ordered.windows(2) {
            let [one, other] = [&pair[0], &pair[1]];
            let kinds = one[KIND].cmp(&other[KIND]);
            let spans = one[SPAN].cmp(&other[SPAN]);
            let order = kinds.then(spans).then(one[SPACING].cmp(&other[SPACING]));
            assert!(order.is_le(), "{one:?} {other:?}");
            assert!(order.is_lt() || one[DEAD_LOAD] < other[DEAD_LOAD], "{one:?} {other:?}");
            equals += u32::from(order.is_eq());
        }
        places.sort_unstable();
        assert!(places.into_iter().eq(1..=12), "every record once");
    }
    assert!(moved > 400 && equals > 500, "{moved} surveys moved, {equals} equals");
}
