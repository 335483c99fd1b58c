//! Every refusal of a vehicle: header, class and track, and each axle.

use crate::records::*;
use reference::generate::{AxleWords, VehicleWords};
use reference::script::Script;

fn headers(script: &mut Script) {
    let sound = vehicle_of(&case_l());
    script.title("vehicles cut short, and one byte too long");
    for length in 0..sound.len() {
        script.vehicle(&sound[..length]);
    }
    script.vehicle(&[&sound[..], &[0]].concat());
    script.title("mark or version, before count and length");
    for at in 0..5 {
        script.vehicle(&with_byte(&sound, at, sound[at] ^ 1));
        script.vehicle(&with_byte(&with_byte(&sound, at, 0xff), 8, 0)[..9]);
    }
    script.title("a survey is no vehicle");
    script.vehicle(&survey_of(&three()));
    script.title("count, before length");
    for count in [0, 17, 255] {
        script.vehicle(&with_byte(&sound, 8, count));
    }
    script.title("counts that the length does not have");
    for count in [1, 3, 16] {
        script.vehicle(&with_byte(&sound, 8, count));
    }
    script.title("length before class");
    script.vehicle(&with_byte(&with_byte(&sound, 5, 2), 8, 3));
}

fn fronts(script: &mut Script) {
    let loads = |script: &mut Script, class, track| {
        script.title(&format!("class {class} track {track}"));
        script.vehicle(&vehicle_of(&VehicleWords { class, track, ..case_l() }));
    };
    for (class, track) in [(0, 100), (1, 300), (2, 190), (255, 190), (0, 99), (1, 301), (0, 65535)]
    {
        loads(script, class, track);
    }
    script.title("class and track come before the axles");
    let axles = vec![[0, 1], [0, 0]];
    script.vehicle(&vehicle_of(&VehicleWords { class: 2, track: 99, ..lorry(&axles) }));
    script.vehicle(&vehicle_of(&lorry(&axles)));
}

/// Each axle's weight and distance just inside and outside its range.
fn axles(script: &mut Script, count: usize) {
    let sound = row(count, 5000, 200);
    let mut places = vec![0, count / 2, count - 1];
    places.dedup();
    for place in places {
        let distances: &[u32] = if place == 0 { &[0, 1, 2000] } else { &[0, 1, 2000, 2001, 65535] };
        let weights = [0, 1, 60000, 60001, 65535].map(|weight| (0, weight));
        for (word, value) in weights.into_iter().chain(distances.iter().map(|&d| (1, d))) {
            let name = ["weight", "distance"][word];
            script.title(&format!("{count} axles, axle {} {name} {value}", place + 1));
            let mut axles = sound.clone();
            axles[place][word] = value;
            script.vehicle(&vehicle_of(&lorry(&axles)));
        }
    }
    script.title(&format!("{count} axles, the first faulty axle"));
    let all: Vec<AxleWords> = sound.iter().map(|_| [0, 0]).collect();
    script.vehicle(&vehicle_of(&lorry(&[&sound[..count / 2], &all[count / 2..]].concat())));
}

pub fn cases(script: &mut Script) {
    script.start();
    headers(script);
    fronts(script);
    for count in [1, 3, 16] {
        axles(script, count);
    }
}
