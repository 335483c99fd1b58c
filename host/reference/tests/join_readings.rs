//! Two measurers: what the request could be taken for. The right reading is worked a second time
//! here, and the generated joins must show each wrong one.

mod joins;
mod raw;
mod readings;

use joins::{said, Said};
use raw::raw;
use readings::hold;
use reference::generate::*;
use reference::layout::{standing, Words};
use reference::reader;

/// What a field of a record is.
#[derive(Clone, Copy, Debug, PartialEq, Eq)]
enum Field {
    Kind,
    Species,
    Span,
    Spacing,
    FromSupport,
    TrussHeight,
    DeadLoad,
    Code,
    Diameter,
    Side,
    Thickness,
    Area,
    Rot,
    Loss,
    Tiers,
    Pieces,
    Cuts,
    DowelType,
    DowelDiameter,
    PartA,
    WholeB,
    BoardCount,
    BoardThickness,
    BoardWidth,
    DeckRot,
    Unused,
}

use Field::*;

/// The fields of which "the mean is taken".
const MEANS: [Field; 10] =
    [Span, Spacing, TrussHeight, Diameter, Side, Thickness, Area, Rot, Loss, DeadLoad];

/// Those that must agree.
const SAME: [Field; 15] = [
    Kind,
    Species,
    FromSupport,
    Code,
    Tiers,
    Pieces,
    Cuts,
    DowelType,
    DowelDiameter,
    PartA,
    WholeB,
    BoardCount,
    BoardThickness,
    BoardWidth,
    DeckRot,
];

/// What the request could be taken for, and is not.
#[derive(Clone, Copy, Debug, PartialEq, Eq)]
enum Wrong {
    /// The half goes the other way.
    Half(Field),
    /// One more is taken.
    Wider(Field),
    /// One less is taken; of what may differ by any amount, no more than 1.
    Narrower(Field),
    /// The mean is taken, whatever the difference.
    Free(Field),
    First,
    Second,
    Greater,
    Lesser,
    NineteenBeforeEighteen,
    EighteenOfAnyRecordFirst,
    TheLastRecord,
    SecondBeforeFirst,
    RecordsBeforeSecond,
    CountsBeforeReading,
    CountsAfterRecords,
    CountsAtPlaceOne,
    CountsFree,
    MatchedInOrder,
    WrittenInOrder,
    SecondVersion,
    VersionOfTheFirst,
    VersionOfTheSecond,
    FourteenFirst,
    FourteenBeforeRecords,
    RoomForMore,
}

use Wrong::*;

const OTHERS: [Wrong; 21] = [
    First,
    Second,
    Greater,
    Lesser,
    NineteenBeforeEighteen,
    EighteenOfAnyRecordFirst,
    TheLastRecord,
    SecondBeforeFirst,
    RecordsBeforeSecond,
    CountsBeforeReading,
    CountsAfterRecords,
    CountsAtPlaceOne,
    CountsFree,
    MatchedInOrder,
    WrittenInOrder,
    SecondVersion,
    VersionOfTheFirst,
    VersionOfTheSecond,
    FourteenFirst,
    FourteenBeforeRecords,
    RoomForMore,
];

fn all_wrong() -> Vec<Wrong> {
    let limited = MEANS.into_iter().filter(|field| !matches!(field, Loss | DeadLoad));
    let halves = MEANS.map(Half).into_iter().chain(MEANS.map(Narrower));
    halves.chain(limited.map(Wider)).chain(SAME.map(Free)).chain(OTHERS).collect()
}

const FRONT: [Field; 8] = [Kind, Species, Span, Spacing, FromSupport, TrussHeight, DeadLoad, Code];
const SECTIONS: [[Field; 6]; 5] = [
    [Diameter, Rot, Tiers, Unused, Unused, Unused],
    [Side, Side, Rot, Rot, Pieces, Loss],
    [DowelType, DowelDiameter, Thickness, Thickness, Rot, Cuts],
    [Area, Loss, Unused, Unused, Unused, Unused],
    [Diameter, Rot, Tiers, Unused, Unused, Unused],
];

/// What the sixteen numbers of a record are.
fn fields(record: &Words) -> Vec<Field> {
    let section = SECTIONS[usize::from(record[7] - 1)];
    let mut fields = [&FRONT[..], &section, &[PartA, WholeB]].concat();
    if record[0] == 7 {
        [fields[4], fields[5]] = [BoardCount, BoardThickness];
        [fields[14], fields[15]] = [BoardWidth, DeckRot];
    }
    fields
}

/// By how much a field may differ and whether its half goes up; none where it must agree.
fn tolerance(wrong: Option<Wrong>, field: Field) -> Option<(i32, bool)> {
    let (apart, up) = match field {
        _ if wrong == Some(Free(field)) => (i32::MAX, false),
        Span => (5, true),
        Spacing | Rot => (1, true),
        TrussHeight | Diameter | Side | Thickness | Area => (1, false),
        Loss | DeadLoad => (i32::MAX, true),
        _ => return None,
    };
    let apart = match wrong {
        Some(Wider(wider)) if wider == field => apart + 1,
        Some(Narrower(narrower)) if narrower == field && apart > 5 => 1,
        Some(Narrower(narrower)) if narrower == field => apart - 1,
        _ => apart,
    };
    Some((apart, up != (wrong == Some(Half(field)))))
}

/// The numbers that a pair of records could be refused with, 18 and 19.
fn faults(wrong: Option<Wrong>, first: &Words, second: &Words) -> [bool; 2] {
    let mut faults = [false; 2];
    for ((field, one), other) in fields(first).into_iter().zip(first).zip(second) {
        let by = (i32::from(*one) - i32::from(*other)).abs();
        match tolerance(wrong, field) {
            None => faults[0] |= by > 0,
            Some((apart, _)) => faults[1] |= by > apart,
        }
    }
    faults
}

/// The number and place of the record at fault.
fn record_fault(wrong: Option<Wrong>, first: &[Words], second: &[Words]) -> Option<(u64, u64)> {
    let pairs = (1u64..).zip(first.iter().zip(second));
    let all = pairs.filter_map(|(place, (first, second))| match faults(wrong, first, second) {
        [true, true] if wrong == Some(NineteenBeforeEighteen) => Some((19, place)),
        [true, _] => Some((18, place)),
        [false, true] => Some((19, place)),
        _ => None,
    });
    let all: Vec<(u64, u64)> = all.collect();
    let early = all.iter().find(|fault| fault.0 == 18);
    match wrong {
        Some(EighteenOfAnyRecordFirst) => early.or(all.first()).copied(),
        Some(TheLastRecord) => all.last().copied(),
        _ => all.first().copied(),
    }
}

fn count_fault(wrong: Option<Wrong>, first: &[Words], second: &[Words]) -> Option<(u64, u64)> {
    let differ = first.len() != second.len() && wrong != Some(CountsFree);
    differ.then_some((18, u64::from(wrong == Some(CountsAtPlaceOne))))
}

/// A joined number.
fn mean(wrong: Option<Wrong>, field: Field, one: u16, other: u16) -> u16 {
    let Some((_, up)) = tolerance(wrong, field) else { return one };
    let (lesser, greater) = (one.min(other), one.max(other));
    let above = greater - lesser;
    match wrong {
        Some(First) => one,
        Some(Second) => other,
        Some(Greater) => greater,
        Some(Lesser) => lesser,
        _ if up => lesser + above.div_ceil(2),
        _ => lesser + above / 2,
    }
}

fn written(wrong: Option<Wrong>, call: &Join, first: &[Words], second: &[Words]) -> Vec<u8> {
    let record = |first: &Words, second: &Words| -> Words {
        let fields = fields(first);
        std::array::from_fn(|i| mean(wrong, fields[i], first[i], second[i]))
    };
    let mut records: Vec<Words> = first.iter().zip(second).map(|(a, b)| record(a, b)).collect();
    if wrong == Some(WrittenInOrder) {
        records.sort_by_key(standing);
    }
    let version = match wrong {
        Some(SecondVersion) => 2,
        Some(VersionOfTheFirst) => call.first[3],
        Some(VersionOfTheSecond) => call.second[3],
        _ => 1,
    };
    let count = u8::try_from(records.len()).expect("a count of one byte");
    let head = [b'T', b'B', b'R', version, 0, count].into_iter();
    head.chain(records.iter().flatten().flat_map(|word| word.to_le_bytes())).collect()
}

/// The records of a pair of surveys, as they are matched; none where a section of the first has no
/// fields, which only files that are refused have.
fn matched(wrong: Option<Wrong>, call: &Join) -> [Vec<Words>; 2] {
    let mut ends = [raw(&call.first), raw(&call.second)];
    if ends[0].iter().any(|record| !(1..=5).contains(&record[7])) {
        ends[0].clear();
    }
    if wrong == Some(MatchedInOrder) {
        ends.iter_mut().for_each(|records| records.sort_by_key(standing));
    }
    ends
}

/// A join in one wrong way or rightly.
fn joined(wrong: Option<Wrong>, call: &Join) -> Said {
    let own = |bytes| reader::records(bytes).err().map(|refused| (refused.number, refused.place));
    let [first, second] = matched(wrong, call);
    let length = 6 + 32 * first.len() + usize::from(wrong == Some(RoomForMore));
    let mut tests = [
        own(&call.first),
        own(&call.second),
        count_fault(wrong, &first, &second),
        record_fault(wrong, &first, &second),
        (call.room < length).then_some((14, 0)),
    ];
    match wrong {
        Some(SecondBeforeFirst) => tests.swap(0, 1),
        Some(RecordsBeforeSecond) => tests[1..].rotate_left(1),
        Some(CountsBeforeReading) => tests[..3].rotate_right(1),
        Some(CountsAfterRecords) => tests.swap(2, 3),
        Some(FourteenFirst) => tests.rotate_right(1),
        Some(FourteenBeforeRecords) => tests.swap(3, 4),
        _ => {}
    }
    match tests.into_iter().flatten().next() {
        Some(fault) => Err(fault),
        None => Ok(written(wrong, call, &first, &second)),
    }
}

/// Joins as the tests of the program have them.
#[test]
fn wrong_readings_are_seen() {
    let mut random = Random::new(0x0a10_2001);
    let mut all = Vec::new();
    for round in 0..4000 {
        let members = 1 + random.below(3);
        all.push(sound_join(&mut random, round, members));
        all.push(some_join(&mut random, 3));
    }
    // A part of them, as each is read in every wrong way.
    let damaged = damaged_joins(&mut random).into_iter().step_by(5);
    all.extend(damaged.map(|damaged| damaged.join));
    for _ in 0..4 {
        for Apart { first, second, .. } in
            of_each_kind(&mut random, Spread::Wide).iter().flat_map(apart_in_one)
        {
            let [first, second] = [first, second].map(|record| survey_bytes(&[record]));
            all.push(Join { first, second, room: 38 });
        }
    }
    hold(&all, &all_wrong(), said, joined);
}

/// Sound joins alone show every mean that goes wrong.
#[test]
fn wrong_means_are_seen_in_sound_joins() {
    let mut random = Random::new(0x0a10_2002);
    let mut sound = |round| {
        let members = 1 + random.below(3);
        sound_join(&mut random, round, members)
    };
    let all: Vec<Join> = (0..6000).map(&mut sound).collect();
    let means = MEANS.map(Half).into_iter().chain([First, Second, Greater, Lesser]);
    let means: Vec<Wrong> = means.chain([WrittenInOrder, SecondVersion]).collect();
    hold(&all, &means, said, joined);
}
