//! A gauge's call, and what is said of it.

use reference::generate::{survey_bytes, vehicle_bytes, Gauge, GaugeCall};
use reference::{gauge, reader, Deflection, Readings};

/// Is it within, and the deflection's bits; or number and place of the refusal.
pub type Said = Result<(bool, u32), (u64, u64)>;

pub fn said(call: &GaugeCall) -> Said {
    let survey = call.survey.as_ref().map(|records| reader::survey(&survey_bytes(records)));
    let survey = survey.map(|read| read.expect("an accepted survey"));
    let vehicle = call.vehicle.as_ref().map(|words| reader::vehicle(&vehicle_bytes(words)));
    let vehicle = vehicle.map(|read| read.expect("an accepted vehicle"));
    let Gauge { place, readings } = call.gauge;
    let answer = gauge(survey.as_deref(), vehicle.as_ref(), place, &Readings::of_bits(readings))?;
    Ok(match answer {
        Deflection::Within(deflection) => (true, deflection.to_bits()),
        Deflection::Over(deflection) => (false, deflection.to_bits()),
    })
}
