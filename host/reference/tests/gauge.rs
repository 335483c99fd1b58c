//! Gauges under a test load, by hand: limits, the exact comparison and subtraction, what a reading
//! is, and the refusals in their order.

mod gauges;
mod records;

use gauges::{said, Said};
use records::*;
use reference::generate::*;
use reference::layout::*;
use reference::script::Script;
use std::collections::BTreeSet;

/// A vehicle of this class with one axle.
fn vehicle_of_class(class: u8) -> VehicleWords {
    VehicleWords { version: 1, class, track: 190, axles: vec![[1000, 0]] }
}

/// The readings of a gauge on the only member, by their bits.
fn on(record: Words, class: u8, readings: [u32; 3]) -> Said {
    let (survey, vehicle) = (Some(vec![record]), Some(vehicle_of_class(class)));
    said(&GaugeCall { survey, vehicle, gauge: Gauge { place: 1, readings } })
}

/// The same of readings in mm.
fn of_mm(record: Words, class: u8, readings: [f32; 3]) -> Said {
    on(record, class, readings.map(f32::to_bits))
}

/// A record of each kind and section over this span.
fn over_span(span: u16) -> [Words; 8] {
    ALL.map(|record| with(record, &[(SPAN, span), (FROM_SUPPORT, record[FROM_SUPPORT].min(99))]))
}

/// A span in cm, and the greatest deflection within the limit, in 64ths of a mm: for class 0 and 1
/// of kinds 1, 2 and 7, then of the others.
const LIMITS: [(u16, [u16; 4]); 7] = [
    // 4500 mm: 25 and 30 mm; 15 and 18 mm.
    (450, [1600, 1920, 960, 1152]),
    // 2250 mm: 12.5 and 15 mm; 7.5 and 9 mm.
    (225, [800, 960, 480, 576]),
    // 1000 mm: 355.6 and 426.7 64ths; 213.3, and 4 mm.
    (100, [355, 426, 213, 256]),
    // 50,000 mm: 17,777.8 and 21,333.3 64ths; 10,666.7, and 200 mm.
    (5000, [17_777, 21_333, 10_666, 12_800]),
    // 1080 mm: 6 mm, and 460.8 64ths; 230.4 and 276.5.
    (108, [384, 460, 230, 276]),
    // 6150 mm: 2186.7 64ths, and 41 mm; 20.5 mm, and 1574.4 64ths.
    (615, [2186, 2624, 1312, 1574]),
    // 49,990 mm: 17,774.2 and 21,329.1 64ths; 10,664.5 and 12,797.4.
    (4999, [17_774, 21_329, 10_664, 12_797]),
];

/// "span/180 for kinds 1, 2 and 7, span/300 for the rest, a fifth more for class 1"; "at the limit
/// it is within, and the comparison is exact"
#[test]
fn limits_by_hand() {
    for (span, [beam, heavy_beam, truss, heavy_truss]) in LIMITS {
        for record in over_span(span) {
            let most = match record[KIND] {
                1 | 2 | 7 => [beam, heavy_beam],
                _ => [truss, heavy_truss],
            };
            for (class, most) in (0..).zip(most) {
                assert_eq!(most, most_within(&record, class));
                for after in [0, 1, 63, 64, 1000, LAST_READING - most - 1] {
                    let turns = [(most - 1, true), (most, true), (most + 1, false)];
                    for (by, within) in turns {
                        let readings = [0, after + by, after].map(reading_bits);
                        let expected = Ok((within, reading_bits(by)));
                        assert_eq!(on(record, class, readings), expected, "{span} cm, {by}");
                    }
                }
            }
        }
    }
}

/// The span decides, and nothing else of the record: not the spacing, a truss's x or the dead load.
#[test]
fn the_span_alone_counts() {
    let readings = [1.0, 25.0, 0.0];
    for (word, value) in [(SPACING, 900), (DEAD_LOAD, 10_000), (S2, 60), (SPECIES, 8)] {
        let record = with(STRINGER, &[(SPAN, 450), (word, value)]);
        assert_eq!(of_mm(record, 0, readings), Ok((true, 25f32.to_bits())));
        let shorter = with(record, &[(SPAN, 449)]);
        assert_eq!(of_mm(shorter, 0, readings), Ok((false, 25f32.to_bits())));
    }
    // A cross beam's l is the truss spacing, 300 cm here: 16 2/3 mm.
    assert_eq!(of_mm(BEAM, 0, [0.0, 16.65625, 0.0]), Ok((true, 16.65625f32.to_bits())));
    assert_eq!(of_mm(BEAM, 0, [0.0, 16.671875, 0.0]), Ok((false, 16.671875f32.to_bits())));
}

/// "for such readings the subtraction loses nothing": every pair of readings, the deflection that
/// of the whole numbers of 64ths.
#[test]
fn the_subtraction_is_exact() {
    let values: Vec<f32> =
        (0..=LAST_READING).map(|count| f32::from_bits(reading_bits(count))).collect();
    let mut pairs = 0_u64;
    for (loaded, &of_loaded) in values.iter().enumerate() {
        let lossy = (0..=loaded).find(|&after| {
            let deflection = of_loaded - values[after];
            deflection.to_bits() != values[loaded - after].to_bits()
        });
        assert_eq!(lossy, None, "loaded {loaded} 64ths");
        pairs += loaded as u64 + 1;
    }
    assert_eq!(pairs, 32_768 * 32_769 / 2);
    // The values are those numbers of 64ths, in arithmetic that holds them.
    for (value, count) in values.iter().zip(0_i64..) {
        assert_eq!((f64::from(*value) * 64.0) as i64, count);
    }
}

/// The same through the call, against whole numbers.
#[test]
fn deflections_of_the_call() {
    let mut random = Random::new(0x0b11_0001);
    for _ in 0..20_000 {
        let by = random.between(0, LAST_READING);
        let readings = deflected(&mut random, by);
        let (_, bits) = on(STRINGER, 0, readings).expect("good readings");
        let [loaded, after] =
            [readings[1], readings[2]].map(|bits| (f64::from(f32::from_bits(bits)) * 64.0) as i64);
        assert_eq!((f64::from(f32::from_bits(bits)) * 64.0) as i64, loaded - after);
        assert_eq!(bits, reading_bits(by));
    }
    // No deflection is plus zero, whatever the readings.
    for count in edge_readings() {
        let bits = reading_bits(count);
        assert_eq!(on(STRINGER, 0, [0, bits, bits]), Ok((true, 0)));
    }
}

/// Exponents all, with mantissas of few bits set, of few clear, and any.
fn many_bits(random: &mut Random) -> Vec<u32> {
    let few = (0..23).flat_map(|i| (i..23).map(move |k| 1 << i | 1 << k)).chain([0]);
    let mut mantissas: Vec<u32> = few.flat_map(|few: u32| [few, few ^ 0x7f_ffff]).collect();
    mantissas.extend((0..40).map(|_| random.large(0, 0x7f_ffff)));
    (0..1 << 9).flat_map(|head: u32| mantissas.iter().map(move |low| head << 23 | low)).collect()
}

/// "multiples of 1/64 from 0 up to but not including 512, with the sign bit clear": the 32,768 of
/// them by enumeration, and no other bits; in each position.
#[test]
fn what_a_reading_is() {
    let good: BTreeSet<u32> = (0..=LAST_READING).map(reading_bits).collect();
    assert_eq!(good.len(), 32_768);
    let last = reading_bits(LAST_READING);
    let refused = |bits: u32| {
        [[bits, last, 0], [0, bits, 0], [0, last, bits]]
            .map(|readings| on(CHORD, 0, readings).err())
    };
    assert!(good.iter().all(|&bits| refused(bits) == [None; 3]));
    let (mut taken, mut random) = (0, Random::new(0x0b11_0002));
    for bits in many_bits(&mut random) {
        let expected = match good.contains(&bits) {
            true => [None; 3],
            false => [1, 2, 3].map(|place| Some((20, place))),
        };
        assert_eq!(refused(bits), expected, "{bits:#x}");
        taken += u32::from(good.contains(&bits));
    }
    assert!(taken > 500, "{taken} are readings");
}

/// Readings next to good ones, by name.
#[test]
fn readings_by_hand() {
    let place_2 = |loaded: f32| of_mm(CHORD, 0, [0.0, loaded, 0.0]).map(|(_, bits)| bits);
    for good in [0.0, 1.0 / 64.0, 1.0, 511.0, 511.0 + 63.0 / 64.0] {
        assert_eq!(place_2(good), Ok(good.to_bits()));
    }
    let [half, above_last] = [1.0 / 128.0, 511.0 + 127.0 / 128.0];
    let [least, denormal] = [f32::MIN_POSITIVE, f32::from_bits(1)];
    for bad in [-0.0, -1.0, half, above_last, 512.0, 513.0, least, denormal, -denormal, 0.1] {
        assert_eq!(place_2(bad), Err((20, 2)), "{bad}");
    }
    for bad in [f32::INFINITY, f32::NEG_INFINITY, f32::NAN, -f32::NAN, f32::MAX, f32::MIN] {
        assert_eq!(place_2(bad), Err((20, 2)), "{bad}");
    }
}

/// "place 1 to 3 of the first bad reading, 0 for the second cause, tested where no reading is bad"
#[test]
fn places_of_20() {
    let bad = [f32::NAN, -0.0, 512.0, 1.0 / 128.0, f32::INFINITY, -1.0];
    for (one, other) in bad.into_iter().flat_map(|one| bad.map(|other| (one, other))) {
        for (readings, place) in [
            ([one, 5.0, 4.0], 1),
            ([one, 4.0, 5.0], 1),
            ([one, other, 5.0], 1),
            ([one, 4.0, other], 1),
            ([one, other, one], 1),
            ([1.0, one, 4.0], 2),
            ([1.0, one, other], 2),
            ([1.0, 4.0, one], 3),
            ([5.0, 0.0, one], 3),
        ] {
            assert_eq!(of_mm(KEYS, 1, readings), Err((20, place)), "{readings:?}");
        }
    }
    let last = 511.0 + 63.0 / 64.0;
    for readings in [[0.0, 4.0, 5.0], [9.0, 0.0, 1.0 / 64.0], [4.0, 511.0, last], [0.0, 0.0, last]]
    {
        assert_eq!(of_mm(KEYS, 1, readings), Err((20, 0)), "{readings:?}");
        let [empty, loaded, after] = readings;
        let turned = of_mm(KEYS, 1, [empty, after, loaded]).map(|(_, bits)| bits);
        assert_eq!(turned, Ok((after - loaded).to_bits()), "{readings:?}");
    }
}

/// The first reading is tested, and that is all.
#[test]
fn the_empty_reading_does_not_count() {
    let record = with(STRINGER, &[(SPAN, 450)]);
    for empty in edge_readings() {
        for (loaded, within) in [(1700, true), (1701, false)] {
            let readings = [empty, loaded, 100].map(reading_bits);
            assert_eq!(on(record, 0, readings), Ok((within, reading_bits(loaded - 100))));
        }
    }
}

/// "after 11, 12 and 13", which have place 0.
#[test]
fn the_order_of_refusals() {
    let nan = f32::NAN.to_bits();
    for readings in [[0, reading_bits(9), 0], [nan; 3], [0, 0, nan], [0, 0, reading_bits(1)]] {
        let call = |survey: bool, vehicle: bool, place| {
            let survey = survey.then(|| vec![STRINGER, CHORD]);
            let vehicle = vehicle.then(|| vehicle_of_class(1));
            said(&GaugeCall { survey, vehicle, gauge: Gauge { place, readings } })
        };
        for place in [0, 1, 2, 3, 65_535] {
            assert_eq!(call(false, false, place), Err((11, 0)));
            assert_eq!(call(false, true, place), Err((11, 0)));
            assert_eq!(call(true, false, place), Err((12, 0)));
        }
        for place in [0, 3, 255, 256, 257, 258, 65_535] {
            assert_eq!(call(true, true, place), Err((13, 0)), "place {place}");
        }
        for place in [1, 2] {
            assert_eq!(call(true, true, place), on(STRINGER, 1, readings));
        }
    }
}

/// The step in a script: 17 bytes, and a line with the deflection's bits.
#[test]
fn the_step_of_a_script() {
    let mut script = Script::default();
    script.survey(&survey_bytes(&[with(STRINGER, &[(SPAN, 450)])]));
    script.vehicle(&vehicle_bytes(&vehicle_of_class(0)));
    let (before, text) = (script.bytes.len(), script.text.clone());
    // 26 mm, 26 1/64 mm and 1 mm: 25 mm is 0x41c80000.
    let one = 1f32.to_bits();
    script.gauge(1, [0, 26f32.to_bits(), one]);
    let step = b"G\x0e\0\x01\0\0\0\0\0\0\0\xd0\x41\0\0\x80\x3f";
    assert_eq!(&script.bytes[before..], step);
    script.gauge(1, [0, 26.015625f32.to_bits(), one]);
    script.gauge(2, [0, 0, 0]);
    script.gauge(1, [0, 0, one]);
    script.gauge_body(&[&step[3..], b"more"].concat());
    script.gauge_body(b"no gauge here");
    script.gauge_body(b"");
    let lines: Vec<&str> = script.text[text.len()..].split('\n').collect();
    let refused = ["gauge refused 13 at 0", "gauge refused 20 at 0"];
    let within = "gauge within 1103626240";
    let over = "gauge over 1103634432";
    let [nowhere, risen] = refused;
    assert_eq!(lines, [within, over, nowhere, risen, within, "no gauge here", "", ""]);
}
