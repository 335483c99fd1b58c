//! Gauges under a test load: each kind and class at its limit and next to it, readings at every
//! edge and next to good ones, every refusal and each pair of neighbours in their order, and what
//! the call leaves as it is.

use crate::records::*;
use reference::generate::{
    edge_readings, most_within, reading_bits, NoReading, Random, VehicleWords, LAST_READING,
};
use reference::layout::*;
use reference::script::Script;

/// Readings in 64ths of a mm.
fn gauge(script: &mut Script, place: usize, readings: [u16; 3]) {
    script.gauge(place, readings.map(reading_bits));
}

/// The vehicle of case L, of this class.
fn of_class(class: u8) -> Vec<u8> {
    vehicle_of(&VehicleWords { class, ..case_l() })
}

/// A record of each kind over this span; a truss has its x in the shortest.
fn over_span(span: u16) -> Vec<Words> {
    let first = |kind| usual(kind, sections(kind)[0]);
    let member = |kind| match in_truss(kind) {
        true => with(first(kind), &[(SPAN, span), (FROM_SUPPORT, 99)]),
        false => with(first(kind), &[(SPAN, span)]),
    };
    (1..=LAST_KIND).map(member).collect()
}

/// Every kind at the greatest deflection within its limit and one 64th above it: over 225 cm the
/// limit is a whole number of 64ths for all, over 100, 105 and 108 cm for some.
fn limits(script: &mut Script) {
    for (span, class) in
        [100, 105, 108, 225, 5000].into_iter().flat_map(|span| [(span, 0), (span, 1)])
    {
        script.title(&format!("gauges, span {span}, class {class}"));
        let members = over_span(span);
        if class == 0 {
            script.survey(&survey_of(&members));
        }
        script.vehicle(&of_class(class));
        for (record, place) in members.iter().zip(1..) {
            let most = most_within(record, class);
            gauge(script, place, [1, most, 0]);
            gauge(script, place, [0, most + 100, 99]);
        }
    }
}

/// One 64th below the limit, and the greatest and least readings with it.
fn at_both_ends(script: &mut Script) {
    script.title("gauges, deflections at the limit from every reading after");
    script.survey(&survey_of(&over_span(225)));
    for class in [0, 1] {
        script.vehicle(&of_class(class));
        for (record, place) in over_span(225).iter().zip(1..).skip(1).step_by(2) {
            let most = most_within(record, class);
            for by in [most - 1, most, most + 1] {
                gauge(script, place, [0, LAST_READING, LAST_READING - by]);
            }
        }
    }
    script.title("gauges, the greatest deflection and none");
    for place in [1, 3] {
        gauge(script, place, [0, LAST_READING, 0]);
        gauge(script, place, [LAST_READING, 0, 0]);
        gauge(script, place, [0, LAST_READING, LAST_READING]);
    }
}

/// Each section of each kind has the limit of its kind; nothing else of the record counts.
fn sections_and_words(script: &mut Script) {
    let members: Vec<Words> = kinds().map(|(kind, code)| usual(kind, code)).collect();
    script.title("gauges, every kind and section over 600 cm");
    script.survey(&survey_of(&members));
    for (record, place) in members.iter().zip(1..) {
        let most = most_within(record, 1);
        gauge(script, place, [5, most, 0]);
        gauge(script, place, [5, most + 1, 0]);
    }
}

/// Good readings at every edge, as each of the three.
fn edges(script: &mut Script) {
    script.title("gauges, readings at every edge");
    for count in edge_readings() {
        gauge(script, 1, [count, LAST_READING, count]);
        gauge(script, 3, [0, count, count / 2]);
    }
    script.title("gauges, the empty reading does not count");
    for empty in [0, 1, 1599, 1600, 1601, LAST_READING] {
        gauge(script, 3, [empty, 1601, 1]);
    }
}

/// Bits that are no readings, each alone as each of the three.
fn no_readings(script: &mut Script) {
    let mut bits = [f32::NAN, f32::INFINITY, f32::NEG_INFINITY, -0.0, 1.0 / 128.0, 512.0, 513.0]
        .map(f32::to_bits)
        .to_vec();
    bits.extend([-1.0 / 64.0, -511.0, 511.0 + 127.0 / 128.0, 0.1, f32::MAX].map(f32::to_bits));
    // Denormals, the least above them, and bits next to those of 1/64, 1 mm and 512 mm.
    bits.extend([1, 0x7f_ffff, 0x80_0000, 0x8000_0001, 0xffc0_0000, 0x7fc0_0001]);
    bits.extend([1, 64].into_iter().flat_map(|n| [reading_bits(n) - 1, reading_bits(n) + 1]));
    bits.extend([512f32.to_bits() - 1, 512f32.to_bits() + 1]);
    let mut random = Random::new(11);
    bits.extend(NoReading::ALL.map(|why| why.bits(&mut random)));
    script.title("gauges, no readings");
    let [low, high] = [0, 640].map(reading_bits);
    for bits in bits {
        for readings in [[bits, high, low], [low, bits, low], [low, high, bits]] {
            script.gauge(1, readings);
        }
    }
    script.title("gauges, good readings with one more bit set");
    for bit in 0..23 {
        script.gauge(1, [low, reading_bits(1) | 1 << bit, low]);
    }
    // Of these bits the last three are those of 1/64, of 1/32 and of 128 mm.
    for bit in [0, 7, 8, 9, 10, 22] {
        script.gauge(1, [low, reading_bits(LAST_READING) ^ 1 << bit, low]);
    }
}

/// "the first bad reading", and 0 where none is bad.
fn order_of_readings(script: &mut Script) {
    let [nan, minus, low, high] =
        [f32::NAN.to_bits(), (-0f32).to_bits(), reading_bits(64), reading_bits(640)];
    script.title("gauges, several bad readings");
    for readings in [[nan, minus, high], [minus, high, nan], [low, nan, minus], [nan; 3]] {
        script.gauge(1, readings);
    }
    script.title("gauges, a bad reading before the rise");
    for readings in [[nan, low, high], [low, minus, high], [low, low, 512f32.to_bits()]] {
        script.gauge(1, readings);
    }
    script.title("gauges, after above loaded");
    for readings in [[0, 0, 1], [0, 64, 65], [900, 64, 640], [0, 0, LAST_READING]] {
        gauge(script, 1, readings);
        gauge(script, 7, readings);
    }
    gauge(script, 1, [0, LAST_READING - 1, LAST_READING]);
}

/// 11, 12 and 13 before 20, in that order.
fn order(script: &mut Script) {
    let calls = |script: &mut Script| {
        for place in [0, 2, 3, 257] {
            gauge(script, place, [0, 640, 0]);
        }
        for readings in [[0, 0, 1].map(reading_bits), [f32::NAN.to_bits(); 3]] {
            [2, 3].into_iter().for_each(|place| script.gauge(place, readings));
        }
    };
    let survey = survey_of(&[stringer(0), chord()]);
    script.title("gauges, nothing loaded");
    script.start();
    calls(script);
    script.title("gauges, no survey");
    script.vehicle(&of_class(1));
    calls(script);
    script.title("gauges, no vehicle");
    script.start();
    script.survey(&survey);
    calls(script);
    script.title("gauges, two members");
    script.vehicle(&of_class(1));
    calls(script);
}

/// What is loaded is kept by every answer, and a later load counts.
fn session(script: &mut Script) {
    script.title("gauges between other calls");
    script.survey(&survey_of(&[stringer(0), chord()]));
    script.vehicle(&of_class(0));
    script.all(2);
    for (place, readings) in [(1, [0, 64, 0]), (2, [0, 9000, 0]), (1, [0, 0, 1]), (3, [0, 0, 0])] {
        gauge(script, place, readings);
        script.all(2);
    }
    script.gauge(1, [f32::NAN.to_bits(); 3]);
    script.all(2);
    script.title("gauges, each file replaced");
    // 500 cm: 27.8 mm, 33.3 mm of class 1; 300 cm: 16.7 and 20 mm.
    let readings = [0, 30 * 64, 0];
    gauge(script, 1, readings);
    script.vehicle(&of_class(1));
    gauge(script, 1, readings);
    script.survey(&survey_of(&[cross_beam()]));
    gauge(script, 1, readings);
    script.survey(&[]);
    script.vehicle(&[]);
    gauge(script, 1, [0, 20 * 64, 0]);
    gauge(script, 1, [0, 20 * 64 + 1, 0]);
    script.all(1);
}

/// Bytes of a step that are too few are printed; more than enough count as far as they are asked
/// for.
fn bodies(script: &mut Script) {
    script.title("gauges, steps of other lengths");
    for body in ["", "g", "13 bytes here"] {
        script.gauge_body(body.as_bytes());
    }
    for more in [1, 2, 14] {
        let body = [&[1, 0, 0, 0, 0, 0][..], &reading_bits(640).to_le_bytes(), &[0; 4]];
        script.gauge_body(&[&body.concat()[..], &vec![0xee; more]].concat());
    }
}

pub fn cases(script: &mut Script) {
    script.start();
    limits(script);
    at_both_ends(script);
    sections_and_words(script);
    edges(script);
    no_readings(script);
    order_of_readings(script);
    order(script);
    session(script);
    bodies(script);
}
