//! Logs that rot from above: the ends of every row of appendix 3, tiers, and the refusals that the
//! ranges alone do not bring.

use crate::records::*;
use crate::survey_faults::Turn;
use reference::crescent::{last_depth, GREATEST, LEAST};
use reference::layout::*;
use reference::script::Script;

/// A stringer of the least span without dead load: its permitted load shows a tenth of a cm³.
fn stringer(diameter: u16, depth: u16, tiers: u16) -> Words {
    let light = with(usual(1, 5), &[(SPAN, 100), (SPACING, 140), (DEAD_LOAD, 0)]);
    with(light, &[(S1, diameter), (S2, depth), (S3, tiers)])
}

/// The same log as a cross beam.
fn cross_beam(diameter: u16, depth: u16, tiers: u16) -> Words {
    let light = with(usual(2, 5), &[(SPAN, 100), (FROM_SUPPORT, 10), (DEAD_LOAD, 0)]);
    with(light, &[(S1, diameter), (S2, depth), (S3, tiers)])
}

/// The same log without rot, by code 1.
fn sound(diameter: u16) -> Words {
    with(stringer(diameter, 0, 1), &[(SECTION, 1)])
}

/// Every diameter that has a row, with two members of each.
fn each(two: impl Fn(u16) -> [Words; 2]) -> Vec<Words> {
    (LEAST..=GREATEST).flat_map(two).collect()
}

/// Depths past the end of the shorter rows, of the longer rows, and of the range.
fn deepest() -> Vec<Words> {
    let of = |depth| [14, 32, 33, 34, 35, 36].map(|diameter| stringer(diameter, depth, 1));
    [16, 17, 18, 60].into_iter().flat_map(of).collect()
}

/// Each number of tiers: sound, decayed, and with nothing left of the top log.
fn tiers() -> Vec<Words> {
    let of = |count| [0, 1, 2, 7, 8].map(|depth| stringer(14, depth, count));
    (1..=3).flat_map(of).chain((1..=3).map(|count| cross_beam(36, 17, count))).collect()
}

fn figures(script: &mut Script) {
    script.start();
    script.vehicle(&vehicle_of(&case_l()));
    let surveys = [
        ("diameter 14 with depth 2: W = 185.9", vec![stringer(14, 2, 1), cross_beam(14, 2, 1)]),
        (
            "depth 0 beside a sound log",
            each(|diameter| [stringer(diameter, 0, 1), sound(diameter)]),
        ),
        (
            "the last depth of every row, and one past it",
            each(|diameter| [0, 1].map(|past| stringer(diameter, last_depth(diameter) + past, 1))),
        ),
        ("depths 16, 17, 18 and 60", deepest()),
        ("tiers", tiers()),
    ];
    for (title, members) in surveys {
        script.title(&format!("rot from above, {title}"));
        script.survey(&survey_of(&members));
        script.all(members.len());
    }
}

/// Diameters without a row, those of code 1 among them, and several faults in one record.
fn refusals(turn: &mut Turn) {
    let sound = stringer(20, 2, 1);
    for diameter in [0, 38, 39, 40] {
        let title = format!("rot from above, diameter {diameter}");
        turn.refuse(&title, with(sound, &[(S1, diameter)]));
    }
    turn.refuse("rot from above, 8 before 7", with(sound, &[(S1, 13), (S4, 1)]));
    turn.refuse("rot from above, 8 before 7", with(sound, &[(S2, 61), (S6, 1)]));
    for kind in 3..=6 {
        let record = with(usual(kind, sections(kind)[0]), &[(SECTION, 5), (S1, 13), (S6, 1)]);
        turn.refuse(&format!("rot from above, kind {kind}: 6 before 8 and 7"), record);
    }
}

pub fn cases(script: &mut Script) {
    figures(script);
    refusals(&mut Turn { script, place: 0 });
}
