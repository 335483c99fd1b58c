//! Rot between two readings: what the request could be taken for. The right reading is worked a
//! second time here, and each wrong one must answer some call in another way.

mod raw;
mod two_surveys;

use raw::raw;
use reference::generate::*;
use reference::layout::*;
use reference::{reader, Passing};
use two_surveys::*;

/// What the request could be taken for, and is not.
#[derive(Clone, Copy, Debug, PartialEq, Eq)]
enum Wrong {
    LowestAndHighestExchanged,
    UndecidedWhenBothRefuse,
    VerdictOfTheFirstEnd,
    VerdictOfTheSecondEnd,
    OrderOfDeadLoadOnly,
    OrderOfRotOnly,
    GreaterAndNotAsGreat,
    CloseRotFree,
    DeckRotFree,
    CodeFree,
    VehicleLast,
    SecondBeforeFirst,
    OrderBeforeSecond,
    ListBeforeOrder,
    OneEntryAMember,
    CountAtPlaceOne,
    SixteenAfterTheSecond,
    SixteenAfterFifteen,
}

const WRONG: [Wrong; 18] = [
    Wrong::LowestAndHighestExchanged,
    Wrong::UndecidedWhenBothRefuse,
    Wrong::VerdictOfTheFirstEnd,
    Wrong::VerdictOfTheSecondEnd,
    Wrong::OrderOfDeadLoadOnly,
    Wrong::OrderOfRotOnly,
    Wrong::GreaterAndNotAsGreat,
    Wrong::CloseRotFree,
    Wrong::DeckRotFree,
    Wrong::CodeFree,
    Wrong::VehicleLast,
    Wrong::SecondBeforeFirst,
    Wrong::OrderBeforeSecond,
    Wrong::ListBeforeOrder,
    Wrong::OneEntryAMember,
    Wrong::CountAtPlaceOne,
    Wrong::SixteenAfterTheSecond,
    Wrong::SixteenAfterFifteen,
];

/// Is this word of the second record as it should be?
fn word_fits(wrong: Option<Wrong>, first: &Words, second: &Words, word: usize) -> bool {
    let is = |what| wrong == Some(what);
    let close = first[KIND] == 7;
    let wearing = wears(first, word);
    let free = is(Wrong::CloseRotFree) || is(Wrong::DeckRotFree) && word == DECK_ROT;
    let unseen = is(Wrong::OrderOfDeadLoadOnly) && wearing && word != DEAD_LOAD
        || is(Wrong::OrderOfRotOnly) && wearing && !is_rot(first, word)
        || is(Wrong::CodeFree) && word == SECTION;
    match wearing && (!close || free || word == DEAD_LOAD) {
        _ if unseen => true,
        true if is(Wrong::GreaterAndNotAsGreat) => first[word] < second[word],
        true => first[word] <= second[word],
        false => first[word] == second[word],
    }
}

/// Number and place of 15.
fn out_of_order(wrong: Option<Wrong>, first: &[Words], second: &[Words]) -> Option<(u64, u64)> {
    if first.len() != second.len() {
        return Some((15, u64::from(wrong == Some(Wrong::CountAtPlaceOne))));
    }
    let ordered = |(one, other)| (0..16).all(|word| word_fits(wrong, one, other, word));
    let place = first.iter().zip(second).position(|pair| !ordered(pair))?;
    Some((15, place as u64 + 1))
}

/// The refusal of a call, read in one wrong way or rightly.
fn refusal(wrong: Option<Wrong>, call: &Call) -> Option<(u64, u64)> {
    let is = |what| wrong == Some(what);
    let own = |bytes| reader::records(bytes).err().map(|refused| (refused.number, refused.place));
    let (first, second) = (raw(&call.first), raw(&call.second));
    let each = if is(Wrong::OneEntryAMember) { 1 } else { 2 };
    let mut tests = [
        call.vehicle.is_none().then_some((12, 0)),
        own(&call.first),
        own(&call.second),
        out_of_order(wrong, &first, &second),
        (call.entries < each * first.len()).then_some((14, 0)),
    ];
    let late = |test: Option<(u64, u64)>| test.is_some_and(|refused| refused.0 == 16);
    match wrong {
        Some(Wrong::SixteenAfterTheSecond) if late(tests[1]) => tests.swap(1, 2),
        Some(Wrong::SixteenAfterFifteen) if late(tests[2]) => tests.swap(2, 3),
        Some(Wrong::VehicleLast) => tests.rotate_left(1),
        Some(Wrong::SecondBeforeFirst) => tests.swap(1, 2),
        Some(Wrong::OrderBeforeSecond) => tests.swap(2, 3),
        Some(Wrong::ListBeforeOrder) => tests.swap(3, 4),
        _ => {}
    }
    tests.into_iter().flatten().next()
}

/// The call read in one wrong way or, without one, rightly: a second working of the request.
fn misread(wrong: Option<Wrong>, call: &Call) -> Said {
    if let Some(refused) = refusal(wrong, call) {
        return Err(refused);
    }
    let vehicle = call.vehicle.as_ref().expect("a vehicle");
    let [first, second] = [&call.first, &call.second].map(|bytes| {
        reference::judge::judge_members(&reader::survey(bytes).expect("a survey"), vehicle)
    });
    let passing = match (first.passes, second.passes) {
        (false, false) if wrong == Some(Wrong::UndecidedWhenBothRefuse) => Passing::Undecided,
        (true, false) if wrong == Some(Wrong::VerdictOfTheFirstEnd) => Passing::All,
        (true, false) if wrong == Some(Wrong::VerdictOfTheSecondEnd) => Passing::None,
        (true, true) => Passing::All,
        (false, false) => Passing::None,
        _ => Passing::Undecided,
    };
    let bounds = first.members.iter().zip(&second.members).map(|(one, other)| match wrong {
        Some(Wrong::LowestAndHighestExchanged) => (one.permitted, other.permitted),
        _ => (other.permitted, one.permitted),
    });
    Ok((passing, bounds.collect()))
}

/// A call as the tests of the program make it: two surveys of one bridge, often near the brink; or
/// damaged in any way.
fn some_call(random: &mut Random) -> Call {
    let count = 1 + random.below(3);
    let first = match random.below(3) {
        0 => survey(random, Spread::Wide, count),
        _ => bearing_survey(random, count),
    };
    let second = worn(random, &first);
    let vehicle = read(&vehicle_near(random, &first, &second));
    let files = match random.below(2) {
        0 => [&first, &second].map(|records| file_as_they_stand(random, records)),
        _ => some_pair_damage(random, count),
    };
    let [first, second] = files;
    let vehicle = Some(vehicle).filter(|_| !random.once_in(12));
    Call { vehicle, first, second, entries: some_entries(random, count) }
}

/// The right reading agrees with the reference on every call; each wrong one is seen.
#[test]
fn wrong_readings_are_seen() {
    const SEED: u64 = 0xbe20_0007;
    let mut random = Random::new(SEED);
    let mut seen = [0; WRONG.len()];
    for round in 0..4000 {
        let call = some_call(&mut random);
        let answer = said(&call);
        assert_eq!(misread(None, &call), answer, "seed {SEED:#x}, round {round}");
        for (seen, wrong) in seen.iter_mut().zip(WRONG) {
            *seen += u32::from(misread(Some(wrong), &call) != answer);
        }
    }
    println!("{seen:?}");
    for (seen, wrong) in seen.iter().zip(WRONG) {
        assert!(*seen > 10, "{wrong:?} is seen {seen} times");
    }
}
