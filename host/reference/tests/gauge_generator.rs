//! Gauges under a test load: what the generator makes is within, over or refused as it says.

mod gauges;

use gauges::said;
use reference::generate::*;
use reference::layout::*;
use std::collections::BTreeMap;

/// Each sort of bits that are no reading is of that sort.
#[test]
fn bits_that_are_no_readings() {
    const SEED: u64 = 0x0b11_1001;
    let mut random = Random::new(SEED);
    let last = f32::from_bits(reading_bits(LAST_READING));
    for (why, round) in NoReading::ALL.into_iter().flat_map(|why| (0..2000).map(move |r| (why, r)))
    {
        let bits = why.bits(&mut random);
        let value = f32::from_bits(bits);
        let parts = 64.0 * f64::from(value);
        let sort = match why {
            NoReading::NotANumber => value.is_nan(),
            NoReading::Infinite => value.is_infinite(),
            NoReading::MinusZero => bits == 1 << 31,
            NoReading::Negative => (-last..0.0).contains(&value) && parts.fract() == 0.0,
            NoReading::Denormal => value.is_subnormal(),
            NoReading::Small => value.is_normal() && 0.0 < value && value < 1.0 / 64.0,
            NoReading::Half => parts.fract() == 0.5 && value <= last + 1.0 / 128.0,
            NoReading::Great => value.is_finite() && value >= 512.0,
            NoReading::OneBit | NoReading::Noise => {
                (1.0 / 64.0..512.0).contains(&value) && parts.fract() != 0.0
            }
        };
        assert!(sort, "seed {SEED:#x}, {why:?} {round}: {value} {bits:#x}");
    }
}

#[test]
fn each_damage_has_its_number_and_place() {
    const SEED: u64 = 0x0b11_1002;
    let mut random = Random::new(SEED);
    let mut seen: BTreeMap<(u64, u64), u32> = BTreeMap::new();
    for round in 0..20 {
        for DamagedGauge { call, number, place } in damaged_gauges(&mut random) {
            assert_eq!(said(&call), Err((number, place)), "seed {SEED:#x}, {:?}", call.gauge);
            *seen.entry((number, place)).or_default() += 1;
        }
        assert_eq!(seen.len(), 7, "round {round}: {seen:?}");
    }
    for (number, place) in [(20, 1), (20, 2), (20, 3)] {
        assert_eq!(seen[&(number, place)], 20 * 60, "each sort six times a round");
    }
    assert!(seen.values().all(|&times| times >= 20 * 24), "{seen:?}");
}

/// Good readings are within as long as the deflection is at most the greatest that the generator
/// takes for it; of each kind and class, with limits that are a whole number of 64ths and others.
#[test]
fn readings_at_the_limit() {
    const SEED: u64 = 0x0b11_1003;
    let mut random = Random::new(SEED);
    let mut seen = BTreeMap::new();
    for round in 0..40_000 {
        let call = sound_gauge_call(&mut random);
        let (Some(survey), Some(vehicle)) = (&call.survey, &call.vehicle) else {
            panic!("something is missing")
        };
        let (record, class) = (&survey[call.gauge.place - 1], vehicle.class);
        let (within, bits) = said(&call).expect("good readings");
        let most = most_within(record, class);
        let by = (f32::from_bits(bits) * 64.0) as i64 - i64::from(most);
        assert_eq!(within, by <= 0, "seed {SEED:#x}, round {round}, by {by}");
        // 64 × 10 of the span in cm, 5 or 6 fifths of it, over the part.
        let (part, fifths) =
            (if in_bending(record[KIND]) { 180 } else { 300 }, 5 + u32::from(class));
        let whole = 128 * fifths * u32::from(record[SPAN]) % part == 0;
        *seen.entry((record[KIND], class, whole, by.clamp(-2, 3))).or_insert(0) += 1;
    }
    for (kind, class, whole) in
        (1..=LAST_KIND).flat_map(|k| [(k, 0, false), (k, 0, true), (k, 1, false), (k, 1, true)])
    {
        for by in -2..=3 {
            let times = seen.get(&(kind, class, whole, by)).copied().unwrap_or(0);
            assert!(times > 30, "kind {kind} class {class} whole {whole} by {by}: {times}");
        }
    }
}

#[test]
fn some_calls_of_every_sort() {
    let mut random = Random::new(0x0b11_1004);
    let mut seen = BTreeMap::new();
    for _ in 0..20_000 {
        *seen.entry(said(&some_gauge_call(&mut random)).map(|(within, _)| within)).or_insert(0) +=
            1;
    }
    assert_eq!(seen.len(), 9, "{seen:?}");
    assert!(seen.values().all(|&times| times > 500), "{seen:?}");
}
