//! Every kind and section at the edges of its ranges, every species, the whole table of logs, each
//! term of the dowels, and bridges at the limit, under light and heavy vehicles.

use crate::records::*;
use reference::generate::{at_the_limit, Random, VehicleWords};
use reference::layout::*;
use reference::script::Script;

/// A record whose x is inside the span, where it is a distance from the support.
fn sound(mut words: Words) -> Words {
    if in_truss(words[KIND]) {
        words[FROM_SUPPORT] = words[FROM_SUPPORT].min(words[SPAN] - 1);
    }
    words
}

/// Each number alone at its least and greatest, then all of them.
fn edges_of(kind: u16, code: u16) -> Vec<Words> {
    let usual = usual(kind, code);
    let (mut least, mut greatest) = (usual, usual);
    let mut all = Vec::new();
    for &(word, low, high) in used(kind, code) {
        let partner = match word {
            PART_A if is_joint(kind) => (WHOLE_B, 1000),
            WHOLE_B if is_joint(kind) => (PART_A, 1),
            _ => (word, low),
        };
        all.push(sound(with(usual, &[partner, (word, low)])));
        all.push(sound(with(usual, &[partner, (word, high)])));
        least[word] = low;
        greatest[word] = high;
    }
    all.extend([sound(least), sound(greatest)]);
    all
}

fn species_of(kind: u16, code: u16) -> Vec<Words> {
    let each = |species| with(usual(kind, code), &[(SPECIES, species)]);
    if has_species(kind) {
        (1..=8).map(each).collect()
    } else {
        Vec::new()
    }
}

/// Every diameter of the table, and rot that goes through it in each number of tiers.
fn logs() -> Vec<Words> {
    let log = |diameter, rot, tiers| {
        with(usual(1, 1), &[(SPAN, 400), (S1, diameter), (S2, rot), (S3, tiers)])
    };
    let sound = (13..=39).map(|diameter| log(diameter, 0, 1));
    let rotten = (1..=3).flat_map(|tiers| [1, 8, 13, 14, 20].map(|rot| log(39, rot, tiers)));
    sound.chain(rotten).collect()
}

/// Each term of the dowels' table least in turn, for each type.
fn dowels() -> Vec<Words> {
    let sizes = [(20, 2, 30), (20, 30, 2), (20, 60, 9), (10, 60, 60), (60, 5, 60), (16, 10, 6)];
    let each =
        |kind, (diameter, c, a)| with(usual(4, 3), &[(S1, kind), (S2, diameter), (S3, c), (S4, a)]);
    (1..=3).flat_map(|kind| sizes.map(|size| each(kind, size))).collect()
}

/// Light and heavy, near and far apart, of both classes and with both ends of the track's range.
fn vehicles() -> Vec<VehicleWords> {
    vec![
        case_l(),
        VehicleWords { class: 0, track: 100, axles: row(1, 1, 0), ..case_l() },
        VehicleWords { class: 1, track: 300, axles: row(16, 60000, 1), ..case_l() },
        VehicleWords { class: 1, track: 150, axles: row(16, 60000, 2000), ..case_l() },
    ]
}

fn limits(script: &mut Script) {
    let mut random = Random::new(0xca5e5);
    script.title("bridges at the limit");
    script.start();
    let mut left = 40;
    while left > 0 {
        if let Some((survey, vehicle)) = at_the_limit(&mut random) {
            script.survey(&survey);
            script.vehicle(&vehicle_of(&vehicle));
            script.all(1);
            left -= 1;
        }
    }
}

pub fn cases(script: &mut Script) {
    let mut all: Vec<Words> = kinds().flat_map(|(kind, code)| edges_of(kind, code)).collect();
    all.extend(kinds().flat_map(|(kind, code)| species_of(kind, code)));
    all.extend(logs());
    all.extend(dowels());
    for (members, number) in all.chunks(64).zip(1..) {
        script.title(&format!("edges, survey {number}"));
        script.start();
        script.survey(&survey_of(members));
        for vehicle in vehicles() {
            script.vehicle(&vehicle_of(&vehicle));
            script.all(members.len());
        }
    }
    limits(script);
}
