//! Gauges under a test load: readings at the limit and next to it on spans of every sort, such as
//! are no readings, and calls with something missing.

use super::readings::{deflected, good, risen, NoReading, LAST_READING};
use super::survey::member;
use super::{vehicle, Random, Spread, VehicleWords};
use crate::layout::*;

/// A place and the bits of the three readings there.
#[derive(Clone, Copy, Debug)]
pub struct Gauge {
    pub place: usize,
    pub readings: [u32; 3],
}

/// What is loaded, and the call on it.
#[derive(Clone)]
pub struct GaugeCall {
    pub survey: Option<Vec<Words>>,
    pub vehicle: Option<VehicleWords>,
    pub gauge: Gauge,
}

/// A call with the refusal that it must have.
pub struct DamagedGauge {
    pub call: GaugeCall,
    pub number: u64,
    pub place: u64,
}

/// The greatest elastic deflection within the limit, in 64ths of a mm rounded down.
pub fn most_within(record: &Words, class: u8) -> u16 {
    let part = if in_bending(record[KIND]) { 180 } else { 300 };
    let fifths = if class == 1 { 6 } else { 5 };
    let most = 64 * 10 * u32::from(record[SPAN]) * fifths / (part * 5);
    u16::try_from(most).expect("a limit below 512 mm")
}

/// Spans that are a multiple of one of these often have a whole number of 64ths as their limit:
/// that of 225 cm has one for every kind and class.
const WHOLE_LIMITS: [u16; 4] = [9, 15, 25, 225];

/// A member of this kind over a span of any sort.
pub fn tested_member(random: &mut Random, kind: u16) -> Words {
    let mut words = member(random, Spread::Wide, kind);
    let part = *random.pick(&WHOLE_LIMITS);
    words[SPAN] = match random.below(3) {
        0 => random.edgy(100, 5000),
        _ => part * random.edgy(100u16.div_ceil(part), 5000 / part),
    };
    if in_truss(kind) {
        words[FROM_SUPPORT] = words[FROM_SUPPORT].min(words[SPAN] - 1);
    }
    words
}

/// So many such members.
pub fn tested_survey(random: &mut Random, members: usize) -> Vec<Words> {
    let kinds: Vec<u16> = (0..members).map(|_| random.between(1, LAST_KIND)).collect();
    kinds.into_iter().map(|kind| tested_member(random, kind)).collect()
}

/// Good readings whose deflection is the limit of this member rounded down, next to it or any.
pub fn good_readings(random: &mut Random, record: &Words, class: u8) -> [u32; 3] {
    let most = most_within(record, class);
    let any = good(random, LAST_READING);
    let by = *random.pick(&[most - 1, most, most, most + 1, most + 1, most + 2, 0, any]);
    deflected(random, by)
}

/// Readings of which the one at this index is the first bad one; the later ones may be bad too.
fn bad_readings(random: &mut Random, mut readings: [u32; 3], i: usize, why: NoReading) -> [u32; 3] {
    readings[i] = why.bits(random);
    for later in &mut readings[i + 1..] {
        if random.once_in(3) {
            *later = random.pick(&NoReading::ALL).bits(random);
        }
    }
    readings
}

/// Three good readings with any deflection, or of which the last is above the second.
fn either_way(random: &mut Random, rises: bool) -> [u32; 3] {
    let by = good(random, LAST_READING);
    if rises {
        risen(random)
    } else {
        deflected(random, by)
    }
}

/// Bad readings of any sort, or a last one above the second.
fn refused_readings(random: &mut Random) -> [u32; 3] {
    if random.once_in(3) {
        return risen(random);
    }
    let (rises, i, why) = (random.once_in(2), random.below(3), *random.pick(&NoReading::ALL));
    let others = either_way(random, rises);
    bad_readings(random, others, i, why)
}

/// A place that a survey of so many members does not have.
fn no_place(random: &mut Random, members: usize) -> usize {
    *random.pick(&[0, 0, members + 1, members + 1, members + 2, 256, 257, 65_535])
}

/// A call on a loaded survey with a vehicle of this class: mostly good readings near the limit.
pub fn some_gauge(random: &mut Random, survey: &[Words], class: u8) -> Gauge {
    let i = random.below(survey.len());
    let place = if random.once_in(16) { no_place(random, survey.len()) } else { i + 1 };
    let readings = match random.below(3) {
        0 => refused_readings(random),
        _ => good_readings(random, &survey[i], class),
    };
    Gauge { place, readings }
}

/// A call on whatever is loaded: something is missing now and then.
pub fn some_gauge_call(random: &mut Random) -> GaugeCall {
    let members = 1 + random.below(4);
    let (survey, vehicle) = (tested_survey(random, members), vehicle(random, Spread::Usual, 1));
    let gauge = some_gauge(random, &survey, vehicle.class);
    let [no_survey, no_vehicle] = [random.once_in(16), random.once_in(16)];
    GaugeCall {
        survey: Some(survey).filter(|_| !no_survey),
        vehicle: Some(vehicle).filter(|_| !no_vehicle),
        gauge,
    }
}

/// A call whose readings are good, on a place that the survey has.
pub fn sound_gauge_call(random: &mut Random) -> GaugeCall {
    let members = 1 + random.below(4);
    let (survey, vehicle) = (tested_survey(random, members), vehicle(random, Spread::Usual, 1));
    let i = random.below(members);
    let readings = good_readings(random, &survey[i], vehicle.class);
    let gauge = Gauge { place: i + 1, readings };
    GaugeCall { survey: Some(survey), vehicle: Some(vehicle), gauge }
}

/// Calls that are refused with 11, 12 or 13, with readings of every sort.
fn missing(random: &mut Random) -> Vec<DamagedGauge> {
    let mut all = Vec::new();
    for turn in 0..24 {
        let mut call = sound_gauge_call(random);
        if turn % 2 == 0 {
            call.gauge.readings = refused_readings(random);
        }
        let members = call.survey.as_ref().map_or(0, Vec::len);
        let nowhere = Gauge { place: no_place(random, members), ..call.gauge };
        let empty = GaugeCall { survey: None, vehicle: None, gauge: nowhere };
        let no_survey = GaugeCall { survey: None, ..call.clone() };
        let no_vehicle = GaugeCall { vehicle: None, ..call.clone() };
        let neither = GaugeCall { gauge: nowhere, ..no_vehicle.clone() };
        let no_member = GaugeCall { gauge: nowhere, ..call };
        let calls =
            [(empty, 11), (no_survey, 11), (no_vehicle, 12), (neither, 12), (no_member, 13)];
        all.extend(calls.map(|(call, number)| DamagedGauge { call, number, place: 0 }));
    }
    all
}

/// Calls that are refused for every reason: bad readings of each sort in each position, where the
/// last is above the second and where it is not; and each thing that can be missing.
pub fn damaged_gauges(random: &mut Random) -> Vec<DamagedGauge> {
    let mut all = missing(random);
    let mut add = |random: &mut Random, readings, place| {
        let mut call = sound_gauge_call(random);
        call.gauge.readings = readings;
        all.push(DamagedGauge { call, number: 20, place });
    };
    for (why, turn) in NoReading::ALL.into_iter().flat_map(|why| (0..6).map(move |t| (why, t))) {
        for (i, place) in (0..3).zip(1..) {
            let others = either_way(random, turn % 2 == 0);
            let readings = bad_readings(random, others, i, why);
            add(random, readings, place);
        }
    }
    for _ in 0..40 {
        let readings = risen(random);
        add(random, readings, 0);
    }
    all
}
