//! Gauges under a test load: what the request could be taken for. The right reading is worked a
//! second time here, by the fields of the readings' bits, and the generated calls must show each
//! wrong one.

mod gauges;
mod readings;

use gauges::{said, Said};
use readings::hold;
use reference::generate::*;
use reference::layout::{Words, KIND, SPAN};

/// The enum and a list of its cases.
macro_rules! wrong {
    ($($case:ident,)*) => {
        /// What the request could be taken for, and is not.
        #[derive(Clone, Copy, Debug, PartialEq, Eq)]
        enum Wrong {
            /// The other part of the span for this kind.
            OtherPart(u16),
            $($case,)*
        }

        const OTHERS: &[Wrong] = &[$(Wrong::$case,)*];
    };
}

wrong! {
    OverAtTheLimit,
    NoFifth,
    FifthForClass0,
    FifthForBoth,
    FifthLess,
    PartsExchanged,
    SpanInCm,
    LimitInWholeMm,
    LimitRoundedUp,
    LimitRoundedHalfUp,
    HalvesTaken,
    NoiseTaken,
    MinusZeroTaken,
    SignIgnored,
    SmallTaken,
    DenormalsTaken,
    ZeroRefused,
    LastRefused,
    FiveTwelveTaken,
    NotANumberTaken,
    TurnedRound,
    LoadedAboveEmpty,
    AfterAboveEmpty,
    LoadedAlone,
    CarriesLoaded,
    CarriesNothingWhenOver,
    EmptyNotTested,
    LoadedNotTested,
    AfterNotTested,
    LastBadReading,
    LoadedFirst,
    PlacesFromZero,
    AllAtZero,
    PlaceOfTheMember,
    RisenFirst,
    RisenAtThree,
    RisenTaken,
    EqualRefused,
    EmptyAboveLoadedRefused,
    EmptyAboveAfterRefused,
    TwentyFirst,
    TwentyBeforeTwelve,
    TwentyBeforeThirteen,
    ThirteenFirst,
    TwelveFirst,
    MembersFromZero,
}

use Wrong::*;

fn all_wrong() -> Vec<Wrong> {
    OTHERS.iter().copied().chain((1..=7).map(OtherPart)).collect()
}

/// Bits without their sign, in 128ths of a mm.
fn size(wrong: Option<Wrong>, bits: u32) -> Option<i64> {
    let (exponent, fraction) = (bits >> 23, bits & 0x7f_ffff);
    match exponent {
        0 if fraction == 0 => (wrong != Some(ZeroRefused)).then_some(0),
        0 => (wrong == Some(DenormalsTaken)).then_some(0),
        120 if fraction == 0 && wrong == Some(HalvesTaken) => Some(1),
        1..=120 => (wrong == Some(SmallTaken)).then_some(0),
        // From 1/64, which is 2 to the 121 − 127, to what is below 512.
        121..=135 => {
            let (all, below) = (1 << 23 | i64::from(fraction), 144 - exponent);
            let (whole, rest) = (all >> below, all & ((1 << below) - 1));
            match wrong {
                Some(LastRefused) if whole == 32_767 => None,
                Some(HalvesTaken) if 2 * rest == 1 << below => Some(2 * whole + 1),
                Some(NoiseTaken) => Some(2 * whole),
                _ => (rest == 0).then_some(2 * whole),
            }
        }
        136 if fraction == 0 && wrong == Some(FiveTwelveTaken) => Some(65_536),
        255 if fraction != 0 && wrong == Some(NotANumberTaken) => Some(0),
        _ => None,
    }
}

/// A reading in 128ths of a mm.
fn reading(wrong: Option<Wrong>, bits: u32) -> Option<i64> {
    let (sign, rest) = (bits >> 31, bits & 0x7fff_ffff);
    match (sign, wrong) {
        (0, _) | (_, Some(SignIgnored)) => size(wrong, rest),
        (_, Some(MinusZeroTaken)) if rest == 0 => Some(0),
        _ => None,
    }
}

/// Is the last reading above the second? Of bad ones too.
fn rises(wrong: Option<Wrong>, bits: [u32; 3], [empty, loaded, after]: [Option<i64>; 3]) -> bool {
    match wrong {
        Some(RisenFirst) => f32::from_bits(bits[2]) > f32::from_bits(bits[1]),
        Some(RisenTaken) => false,
        Some(TurnedRound) => loaded > after,
        Some(EqualRefused) => after >= loaded,
        Some(EmptyAboveLoadedRefused) => after > loaded || empty > loaded,
        Some(EmptyAboveAfterRefused) => after > loaded || empty > after,
        _ => after > loaded,
    }
}

/// The place of the reading that is refused.
fn bad_place(wrong: Option<Wrong>, readings: [Option<i64>; 3]) -> Option<u64> {
    let mut places: Vec<u64> =
        (1..).zip(readings).filter_map(|(place, read)| read.is_none().then_some(place)).collect();
    match wrong {
        Some(EmptyNotTested) => places.retain(|place| *place != 1),
        Some(LoadedNotTested) => places.retain(|place| *place != 2),
        Some(AfterNotTested) => places.retain(|place| *place != 3),
        Some(LastBadReading) => places.reverse(),
        Some(LoadedFirst) => places.sort_by_key(|place| [1, 0, 2][*place as usize - 1]),
        _ => {}
    }
    places.first().copied()
}

/// The place of 20.
fn fault(wrong: Option<Wrong>, gauge: &Gauge, readings: [Option<i64>; 3]) -> Option<u64> {
    let risen = rises(wrong, gauge.readings, readings).then_some(match wrong {
        Some(RisenAtThree) => 3,
        _ => 0,
    });
    let bad = bad_place(wrong, readings).map(|place| match wrong {
        Some(PlacesFromZero) => place - 1,
        Some(AllAtZero) => 0,
        Some(PlaceOfTheMember) => gauge.place as u64,
        _ => place,
    });
    match wrong {
        Some(RisenFirst) => risen.or(bad),
        _ => bad.or(risen),
    }
}

/// The deflection, in 128ths of a mm.
fn deflection(wrong: Option<Wrong>, readings: [Option<i64>; 3]) -> i64 {
    let [empty, loaded, after] = readings.map(|read| read.unwrap_or(0));
    match wrong {
        Some(TurnedRound) => after - loaded,
        Some(LoadedAboveEmpty) => loaded - empty,
        Some(AfterAboveEmpty) => after - empty,
        Some(LoadedAlone) => loaded,
        _ => loaded - after,
    }
}

/// The part of the span that a kind may deflect.
fn part(wrong: Option<Wrong>, kind: u16) -> i64 {
    let beam = [1, 2, 7].contains(&kind);
    let other = wrong == Some(OtherPart(kind)) || wrong == Some(PartsExchanged);
    if beam != other {
        180
    } else {
        300
    }
}

/// Is the deflection within the limit? It is a whole number over a divisor, in 128ths.
fn is_within(wrong: Option<Wrong>, record: &Words, class: u8, deflection: i64) -> bool {
    let fifths = match (wrong, class) {
        (Some(NoFifth), _) => 5,
        (Some(FifthForClass0), _) => 6 - i64::from(class),
        (Some(FifthForBoth), _) => 6,
        (Some(FifthLess), 1) => 4,
        _ => 5 + i64::from(class),
    };
    let millimetres = if wrong == Some(SpanInCm) { 1 } else { 10 };
    let (limit, over) =
        (128 * millimetres * i64::from(record[SPAN]) * fifths, 5 * part(wrong, record[KIND]));
    match wrong {
        Some(OverAtTheLimit) => deflection * over < limit,
        Some(LimitInWholeMm) => deflection <= limit / over / 128 * 128,
        Some(LimitRoundedUp) => deflection <= (limit + 2 * over - 1) / (2 * over) * 2,
        Some(LimitRoundedHalfUp) => deflection <= (limit + over) / (2 * over) * 2,
        _ => deflection * over <= limit,
    }
}

/// The bits of so many 128ths of a mm.
fn bits_of(parts: i64) -> u32 {
    (parts as f32 / 128.0).to_bits()
}

/// 11, 12, 13 and 20 with their places, in the order of the tests.
fn refusals(
    wrong: Option<Wrong>,
    call: &GaugeCall,
    twenty: Option<u64>,
) -> Vec<Option<(u64, u64)>> {
    let members = call.survey.as_ref().map_or(0, Vec::len);
    let places = match wrong {
        Some(MembersFromZero) => 0..members,
        _ => 1..members + 1,
    };
    let mut tests = vec![
        call.survey.is_none().then_some((11, 0)),
        call.vehicle.is_none().then_some((12, 0)),
        (!places.contains(&call.gauge.place)).then_some((13, 0)),
        twenty.map(|place| (20, place)),
    ];
    match wrong {
        Some(TwentyFirst) => tests.rotate_right(1),
        Some(TwentyBeforeTwelve) => tests[1..].rotate_right(1),
        Some(TwentyBeforeThirteen) => tests.swap(2, 3),
        Some(ThirteenFirst) => tests[..3].rotate_right(1),
        Some(TwelveFirst) => tests.swap(0, 1),
        _ => {}
    }
    tests
}

/// A call answered in one wrong way or rightly.
fn gauged(wrong: Option<Wrong>, call: &GaugeCall) -> Said {
    let readings = call.gauge.readings.map(|bits| reading(wrong, bits));
    let twenty = fault(wrong, &call.gauge, readings);
    if let Some(refusal) = refusals(wrong, call, twenty).into_iter().flatten().next() {
        return Err(refusal);
    }
    let (Some(survey), Some(vehicle)) = (&call.survey, &call.vehicle) else {
        panic!("something is missing")
    };
    let first = usize::from(wrong != Some(MembersFromZero));
    let elastic = deflection(wrong, readings);
    let within = is_within(wrong, &survey[call.gauge.place - first], vehicle.class, elastic);
    let carried = match wrong {
        Some(CarriesLoaded) => readings[1].unwrap_or(0),
        Some(CarriesNothingWhenOver) if !within => 0,
        _ => elastic,
    };
    Ok((within, bits_of(carried)))
}

/// Calls as the tests of the program have them.
#[test]
fn wrong_readings_are_seen() {
    let mut random = Random::new(0x0b11_2001);
    let mut all: Vec<GaugeCall> = (0..16_000).map(|_| some_gauge_call(&mut random)).collect();
    all.extend((0..4).flat_map(|_| damaged_gauges(&mut random)).map(|damaged| damaged.call));
    hold(&all, &all_wrong(), said, gauged);
}

/// Good readings alone show every wrong limit and every wrong deflection.
#[test]
fn wrong_limits_are_seen_in_good_readings() {
    let mut random = Random::new(0x0b11_2002);
    let all: Vec<GaugeCall> = (0..8000).map(|_| sound_gauge_call(&mut random)).collect();
    let fifths = [NoFifth, FifthForClass0, FifthForBoth, FifthLess, OverAtTheLimit, SpanInCm];
    let limits = [PartsExchanged, LimitInWholeMm, LimitRoundedUp, LimitRoundedHalfUp];
    let limits = fifths.into_iter().chain(limits).chain((1..=7).map(OtherPart));
    let deflections = [TurnedRound, LoadedAboveEmpty, AfterAboveEmpty, LoadedAlone];
    let others = [CarriesLoaded, CarriesNothingWhenOver, ZeroRefused, LastRefused, EqualRefused];
    let wrongs: Vec<Wrong> = limits.chain(deflections).chain(others).collect();
    hold(&all, &wrongs, said, gauged);
}
