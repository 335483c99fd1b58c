//! Margins below, at and above 0, from the least to the greatest; which member governs where the
//! figure is another's, and ties of like and unlike members; the same in a yard.

use crate::records::*;
use reference::generate::{joined, VehicleWords};
use reference::layout::*;
use reference::script::Script;

/// Single axles: on cases A, F and E they give 0.4, 0.5 and 0.2 of their weight.
fn axle(weight: u32) -> VehicleWords {
    lorry(&[[weight, 0]])
}

/// Case E with 280 cm² lost: 1455 kgf/m, the figure beside cases A and F.
fn worn_chord() -> Words {
    with(chord(), &[(S6, 280)])
}

/// A stringer of 10 m: 1106 kgf/m with a log of 39 cm, none where it is rotten.
fn long_stringer(rot: u16) -> Words {
    with(stringer(rot), &[(SPAN, 1000), (S1, 39)])
}

/// The bridge under one axle of each weight.
fn under(script: &mut Script, title: &str, members: &[Words], weights: &[u32]) {
    script.title(title);
    script.survey(&survey_of(members));
    for &weight in weights {
        script.vehicle(&vehicle_of(&axle(weight)));
        script.all(members.len());
    }
}

fn governing(script: &mut Script) {
    let [a, e, f, worn] = [stringer(0), chord(), cross_beam(), worn_chord()];
    script.start();
    under(script, "margins 1, 0 and -1", &[a], &[4297, 4300, 4301]);
    under(script, "margins above, at and below 0 on one bridge", &[e, a, f], &[4300]);
    under(script, "the least margin is 0", &[e, a], &[4300]);
    under(
        script,
        "a long span with a low figure, a short cross beam",
        &[long_stringer(0), f],
        &[5000],
    );
    under(script, "each member governs in turn", &[a, f, worn], &[1000, 2000, 3000]);
    under(script, "each governs at another place", &[worn, a, f], &[1000, 2000, 3000]);
    under(script, "all margins below 0", &[a, f, worn], &[20000]);
    under(script, "the figure is 0 and another governs", &[long_stringer(20), a], &[9000]);
    under(
        script,
        "nothing may be borne: the margins are the loads",
        &[long_stringer(20), stringer(8)],
        &[1, 9000],
    );
}

/// 844 for A and F under 2190 kgf, 1190 for A and the worn chord under 1325; 1 kgf/m aside with the
/// next weights.
fn ties(script: &mut Script) {
    let [a, f, worn] = [stringer(0), cross_beam(), worn_chord()];
    under(script, "a tie of unlike members", &[a, f], &[2180, 2190, 2200]);
    under(script, "the same, turned", &[f, a], &[2180, 2190, 2200]);
    under(script, "a tie behind another member", &[f, a, worn], &[1320, 1325, 1330]);
    under(script, "the same tie, turned", &[f, worn, a], &[1320, 1325, 1330]);
    under(script, "a tie of like members, below 0", &[a, f, f], &[9000]);
}

/// 63 alike, and the last with a margin that is less or the same.
fn full_surveys(script: &mut Script) {
    script.vehicle(&vehicle_of(&case_l()));
    for (title, last) in [("the last of 64 governs", cross_beam()), ("64 alike", stringer(0))] {
        let mut members = vec![stringer(0); 64];
        members[63] = last;
        script.title(title);
        script.survey(&survey_of(&members));
        [1, 63, 64].into_iter().for_each(|place| script.rate(place));
        script.judge(128);
    }
}

/// Steel plates with every number as the greatest permitted load has it; a rotten stringer of the
/// least span, and a rotten cross beam between the shortest panels, whose margin is the least: under
/// 1 kgf, and under 16 of the heaviest axles 1 cm apart.
fn far_apart(script: &mut Script) {
    let plates =
        with(usual(6, 4), &[(SPAN, 100), (FROM_SUPPORT, 1), (SPACING, 10), (DEAD_LOAD, 0)]);
    let plates = with(plates, &[(TRUSS_HEIGHT, 500), (PART_A, 1), (WHOLE_B, 1000)]);
    let plates = with(plates, &[(S1, 10000), (S2, 0)]);
    let rotten = with(stringer(20), &[(SPAN, 100)]);
    let beam = with(cross_beam(), &[(FROM_SUPPORT, 10), (S2, 20)]);
    let vehicles =
        [axle(1), lorry(&row(16, 60000, 1))].map(|words| VehicleWords { class: 1, ..words });
    script.title("the greatest and the least margin");
    for members in [&[plates][..], &[plates, rotten, beam]] {
        script.survey(&survey_of(members));
        for vehicle in &vehicles {
            script.vehicle(&vehicle_of(vehicle));
            script.all(members.len());
        }
        script.yard(&joined(&vehicles.each_ref().map(vehicle_of)), 3);
    }
}

fn yards(script: &mut Script) {
    let yard = |weights: &[u32]| {
        joined(&weights.iter().map(|&w| vehicle_of(&axle(w))).collect::<Vec<_>>())
    };
    let members = [stringer(0), cross_beam(), worn_chord()];
    let weights = [1000, 1325, 2000, 2190, 3000, 4300, 20000];
    for (title, order) in
        [("each vehicle has its own governing member", [0, 1, 2]), ("the same, turned", [2, 1, 0])]
    {
        script.title(title);
        script.survey(&survey_of(&order.map(|i: usize| members[i])));
        script.yard(&yard(&weights), 9);
        script.title("a yard that is refused keeps every margin of the list");
        script.yard(&yard(&weights), 6);
        script.yard(&[&yard(&weights)[..], &[0]].concat(), 7);
    }
    script.title("a yard at the limit of one member");
    script.survey(&survey_of(&[stringer(0)]));
    script.yard(&yard(&[4301, 4300, 4297]), 3);
}

pub fn cases(script: &mut Script) {
    governing(script);
    ties(script);
    full_surveys(script);
    far_apart(script);
    yards(script);
}
