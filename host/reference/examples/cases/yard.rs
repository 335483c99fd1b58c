//! Yards: every number of vehicles at an edge, lists of every length, every refusal and each pair
//! of neighbours in their order, and what the call keeps.

use crate::records::*;
use reference::generate::{joined, VehicleWords};
use reference::layout::*;
use reference::script::Script;

/// A lorry of two axles with this much on each.
fn of_weight(weight: u32) -> VehicleWords {
    lorry(&[[weight, 0], [weight, 370]])
}

fn sound() -> Vec<u8> {
    vehicle_of(&case_l())
}

/// So many vehicles: each heavier than the one before, of both classes, with tracks that differ.
pub fn rising(count: u16, step: u32) -> Vec<Vec<u8>> {
    let each = |i: u16| VehicleWords {
        class: (i % 2).to_le_bytes()[0],
        track: 100 + 60 * (i % 4),
        ..of_weight(1 + step * u32::from(i))
    };
    (0..count).map(|i| vehicle_of(&each(i))).collect()
}

/// 16 axles of this weight, so far apart.
fn long(weight: u32, apart: u32) -> Vec<u8> {
    vehicle_of(&lorry(&row(16, weight, apart)))
}

/// A stringer, whose permitted load rises with the track, and two cross beams alike, for which the
/// track is nothing: which of them governs is the vehicle's.
fn two_governors() -> Vec<Words> {
    let stringer = with(usual(1, 1), &[(SPACING, 300), (SPAN, 500)]);
    let beam = with(usual(2, 1), &[(SPAN, 450), (FROM_SUPPORT, 320)]);
    vec![stringer, beam, beam]
}

fn lengths(script: &mut Script) {
    script.title("yards of 1 and of 32 vehicles, lists of every length");
    script.start();
    script.survey(&survey_of(&three()));
    for entries in [0, 1, 2, 40] {
        script.yard(&joined(&[sound()]), entries);
    }
    let full = joined(&rising(32, 400));
    for entries in [0, 1, 31, 32, 33, 40] {
        script.yard(&full, entries);
    }
    script.title("all of 32 pass");
    script.yard(&joined(&rising(32, 20)), 32);
    script.title("32 vehicles of 16 axles");
    let weights = (1..=32).map(|i| long(400 * i, 150));
    let full = joined(&weights.collect::<Vec<_>>());
    for entries in [31, 32] {
        script.yard(&full, entries);
    }
    script.title("a yard of 1 behind one of 32, in the list's first entry");
    script.yard(&joined(&[long(60000, 150)]), 3);
}

fn passes(script: &mut Script) {
    let of_weights = |all: &[u32]| {
        joined(&all.iter().map(|&weight| vehicle_of(&of_weight(weight))).collect::<Vec<_>>())
    };
    let yards: [(&str, &[u32]); 5] = [
        ("none passes", &[60000, 59999, 50000]),
        ("all pass", &[1, 2, 3]),
        ("the first passes", &[1, 60000, 60000]),
        ("the last passes", &[60000, 60000, 1]),
        ("all but one pass", &[1, 60000, 1]),
    ];
    for (title, all) in yards {
        script.title(title);
        script.yard(&of_weights(all), 4);
    }
    script.title("a short vehicle behind a long one");
    script.yard(&joined(&[long(60000, 1), vehicle_of(&of_weight(1)), sound()]), 3);
    script.title("just within, at and over the limit");
    script.survey(&survey_of(&[usual(1, 1)]));
    let single = |weight| vehicle_of(&lorry(&[[weight, 0]]));
    script.yard(&joined(&[7757, 7758, 7759, 7758].map(single)), 4);
    script.title("which member governs is the vehicle's");
    script.survey(&survey_of(&two_governors()));
    script.yard(&joined(&rising(8, 700)), 9);
}

/// Every kind and section alone and all on one bridge, under light and heavy vehicles.
fn on_kinds(script: &mut Script) {
    let yard = joined(&[&rising(4, 900)[..], &[long(60000, 1), sound()]].concat());
    for (kind, code) in kinds() {
        script.title(&format!("a yard on kind {kind} section {code}"));
        let low = with(usual(kind, code), &[(TRUSS_HEIGHT, 50)]);
        script.survey(&survey_of(&[if in_truss(kind) { low } else { usual(kind, code) }]));
        script.yard(&yard, 7);
    }
    script.title("a yard on 64 members");
    script.survey(&survey_of(&in_turn(64)));
    script.yard(&yard, 7);
}

/// What is wrong with the count or with the length.
fn counts(script: &mut Script) {
    let two = joined(&[sound(), vehicle_of(&of_weight(2000))]);
    script.title("no count byte, and yards cut short");
    for length in 0..two.len() {
        script.yard(&two[..length], 2);
    }
    script.title("counts that no yard has");
    for count in [0, 33, 34, 128, 255] {
        script.yard(&[count], 1);
        script.yard(&with_byte(&two, 0, count), 3);
    }
    let files = vec![sound(); 33];
    script.yard(&joined(&files), 40);
    script.title("33 vehicles, one left over behind 32");
    script.yard(&with_byte(&joined(&files), 0, 32), 40);
    script.title("counts that the length does not have");
    for count in [1, 3, 32] {
        script.yard(&with_byte(&two, 0, count), 33);
    }
    script.title("bytes left over");
    for more in [&[0][..], &sound()[..8], &sound()[..9], &sound()] {
        script.yard(&[&two[..], more].concat(), 3);
    }
}

/// Axle counts that move where the next vehicle begins, in the first and in the last of two.
fn axle_counts(script: &mut Script) {
    let two = joined(&[sound(), sound()]);
    for axles in [0, 1, 3, 4, 6, 16, 17, 255] {
        script.title(&format!("a vehicle of two axles says {axles}"));
        for at in [9, 26] {
            script.yard(&with_byte(&two, at, axles), 2);
        }
    }
    // The first takes the second's header for axles, and what is left is no vehicle, or none is.
    script.yard(&with_byte(&two, 9, 3)[..22], 2);
    script.yard(&with_byte(&two, 9, 4)[..26], 2);
}

/// A vehicle file for each refusal that a vehicle has, without its length changed.
fn faulty() -> Vec<(&'static str, Vec<u8>)> {
    let axles = [[5000, 0], [5000, 200], [5000, 200]];
    let with_axle = |i: usize, axle| {
        let mut axles = axles;
        axles[i] = axle;
        vehicle_of(&lorry(&axles))
    };
    vec![
        ("mark", with_byte(&sound(), 2, b'R')),
        ("version", with_byte(&sound(), 3, 3)),
        ("class", with_byte(&sound(), 5, 2)),
        ("track", with_byte(&sound(), 7, 2)),
        ("the first axle's distance", with_axle(0, [5000, 1])),
        ("the second axle's weight", with_axle(1, [0, 200])),
        ("the third axle's distance", with_axle(2, [5000, 2001])),
        ("the last of 16 axles", with_byte(&long(9000, 150), 9 + 4 * 15 + 2, 0)),
    ]
}

fn vehicles(script: &mut Script) {
    for (title, file) in faulty() {
        script.title(&format!("a faulty vehicle among sound ones: {title}"));
        for place in 0..3 {
            let mut files = vec![sound(); 3];
            files[place] = file.clone();
            script.yard(&joined(&files), 4);
        }
    }
    script.title("the last of 32 is faulty: nothing is written");
    let mut files = rising(32, 100);
    files[31] = with_byte(&files[31], 11, 1);
    script.yard(&joined(&files), 33);
    script.title("the first faulty vehicle, whatever its number");
    let all: Vec<Vec<u8>> = faulty().into_iter().map(|(_, file)| file).collect();
    for from in 0..all.len() {
        script.yard(&joined(&all[from..]), 2);
    }
    for until in 1..=all.len() {
        let turned: Vec<Vec<u8>> = all[..until].iter().rev().cloned().collect();
        script.yard(&joined(&turned), 0);
    }
}

/// Two faults at once: 11, the missing count byte, 3, the vehicles, bytes left over, 14.
fn order(script: &mut Script) {
    let sound = joined(&[sound(), sound()]);
    let faulty = with_byte(&sound, 1 + 17 + 11, 1);
    let longer = [&sound[..], &[0]].concat();
    let both = [&faulty[..], &[0]].concat();
    script.title("the missing count byte before 14");
    script.yard(&[], 0);
    script.title("3 before a faulty vehicle, bytes left over and 14");
    for yard in [&sound, &faulty, &longer, &both] {
        for count in [0, 33] {
            script.yard(&with_byte(yard, 0, count), 2);
            script.yard(&with_byte(yard, 0, count), 0);
        }
    }
    script.title("a faulty vehicle before bytes left over and 14");
    script.yard(&both, 2);
    script.yard(&both, 1);
    script.yard(&faulty, 1);
    script.yard(&sound[..30], 1);
    script.title("bytes left over before 14");
    script.yard(&longer, 1);
    script.yard(&longer, 0);
    script.title("14 alone");
    script.yard(&sound, 1);
    script.yard(&sound, 0);
    script.title("11 before all");
    script.start();
    for yard in [&sound, &faulty, &longer, &with_byte(&sound, 0, 0), &vec![]] {
        script.yard(yard, 2);
        script.yard(yard, 0);
    }
}

/// The loaded vehicle and the survey are kept, whether a yard is taken or refused.
fn kept(script: &mut Script) {
    let yard = joined(&[vehicle_of(&of_weight(9000)), long(3000, 150), sound()]);
    let refused = [&yard[..yard.len() - 1], &with_byte(&yard, 0, 0), &[]].map(<[u8]>::to_vec);
    script.title("a vehicle alone is no survey");
    script.start();
    script.vehicle(&sound());
    script.yard(&yard, 3);
    script.judge(6);
    script.title("no vehicle need be loaded, and none is after a yard");
    script.start();
    script.survey(&survey_of(&three()));
    script.yard(&yard, 4);
    script.rate(1);
    script.judge(6);
    script.title("the loaded vehicle is kept");
    script.vehicle(&vehicle_of(&of_weight(700)));
    script.all(3);
    script.yard(&yard, 3);
    script.all(3);
    for refused in &refused {
        script.yard(refused, 3);
        script.all(3);
    }
    script.yard(&yard, 2);
    script.all(3);
    script.title("a yard of the loaded vehicle answers as judge does");
    script.yard(&joined(&[vehicle_of(&of_weight(700))]), 1);
    script.title("the survey is the loaded one");
    script.survey(&survey_of(&two_governors()));
    script.yard(&yard, 3);
    script.survey(&survey_of(&three())[..37]);
    script.yard(&yard, 3);
    script.title("a new session has none");
    script.start();
    script.yard(&yard, 3);
}

pub fn cases(script: &mut Script) {
    lengths(script);
    passes(script);
    on_kinds(script);
    counts(script);
    axle_counts(script);
    vehicles(script);
    order(script);
    kept(script);
}
