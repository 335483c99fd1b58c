//! Heavier axles: version 2 of a vehicle and every refusal of its reader, what is rated under it,
//! yards of both versions, and the converter: both ways, every refusal, outputs of every length.

use crate::records::*;
use reference::generate::{
    joined, length, with_version, AxleWords, VehicleWords, HEAVY_EDGES, LONGEST_OUTPUT, NO_WEIGHTS,
};
use reference::layout::*;
use reference::script::Script;

const TO_HEAVY: u8 = 2;
const TO_LIGHT: u8 = 1;

/// The vehicle in version 2.
pub fn heavy(words: VehicleWords) -> VehicleWords {
    VehicleWords { version: HEAVY_AXLES, ..words }
}

/// A file of version 2 with these axles.
fn trailer(axles: &[AxleWords]) -> Vec<u8> {
    vehicle_of(&heavy(lorry(axles)))
}

/// The vehicle of case L in both versions: 1500 and 3000 kgf.
fn light_l() -> Vec<u8> {
    vehicle_of(&case_l())
}

fn heavy_l() -> Vec<u8> {
    vehicle_of(&heavy(case_l()))
}

/// A file with these bytes from this one on.
fn with_bytes(bytes: &[u8], at: usize, changed: &[u8]) -> Vec<u8> {
    [&bytes[..at], changed, &bytes[at + changed.len()..]].concat()
}

/// Length, mark, version and count of version 2, each before what comes later.
fn headers(script: &mut Script) {
    let sound = heavy_l();
    script.title("version 2 cut short, and too long by one byte and by an axle");
    for length in 0..sound.len() {
        script.vehicle(&sound[..length]);
    }
    script.vehicle(&[&sound[..], &[0]].concat());
    script.vehicle(&[&sound[..], &[1, 0, 0, 0, 1, 0]].concat());
    script.title("the length of the other version's axles");
    script.vehicle(&with_version(&light_l(), 2));
    script.vehicle(&with_version(&sound, 1));
    // Three axles of four bytes are as long as two of six.
    script.vehicle(&with_version(&vehicle_of(&lorry(&row(3, 1, 1))), 2));
    script.vehicle(&with_byte(&with_version(&sound, 1), 8, 3));
    script.title("versions of a vehicle, before count and length");
    for version in [0, 3, 4, 256, 257, 258, 512, 65535] {
        script.vehicle(&with_version(&sound, version));
        script.vehicle(&with_byte(&with_version(&sound, version), 8, 0)[..9]);
    }
    script.title("the mark of version 2");
    script.vehicle(&with_byte(&sound, 2, b'R'));
    script.title("count of version 2, before length, and counts that it does not have");
    for count in [0, 17, 255, 1, 3, 16] {
        script.vehicle(&with_byte(&sound, 8, count));
    }
}

/// Class and track before the axles; each axle's weight and distance at both ends of its range.
fn axles(script: &mut Script) {
    script.title("class and track of version 2 before the axles");
    let faulty = heavy(lorry(&[[0, 1], [200_001, 0]]));
    for (class, track) in [(2, 190), (0, 99), (1, 301), (0, 190)] {
        script.vehicle(&vehicle_of(&VehicleWords { class, track, ..faulty.clone() }));
    }
    let with = |count, place: usize, word: usize, value| {
        let mut axles = row(count, 70_000, 150);
        axles[place][word] = value;
        trailer(&axles)
    };
    for place in [0, 1] {
        script.title(&format!("version 2, axle {} of 2", place + 1));
        let weights = HEAVY_EDGES.iter().chain(&NO_WEIGHTS);
        weights.for_each(|&weight| script.vehicle(&with(2, place, 0, weight)));
        let distances = [0, 1, 2000, 2001, 65535].iter();
        distances.for_each(|&apart| script.vehicle(&with(2, place, 1, apart)));
    }
    script.title("version 2, the last of 16 axles");
    for (word, value) in [(0, 200_000), (0, 200_001), (1, 2000), (1, 2001)] {
        script.vehicle(&with(16, 15, word, value));
    }
    script.title("60001 in version 1");
    script.vehicle(&vehicle_of(&lorry(&[[60_000, 0], [60_001, 370]])));
    script.title("bytes of a weight exchanged");
    // 1500 is dc 05 00 00: the halves exchanged, the bytes of each exchanged, all turned round.
    for bytes in [[0, 0, 0xdc, 5], [5, 0xdc, 0, 0], [0, 0, 5, 0xdc]] {
        script.vehicle(&with_bytes(&heavy_l(), 9, &bytes));
    }
    // 1 and 65536 are within the range with their halves either way.
    for bytes in [[1, 0, 0, 0], [0, 0, 1, 0]] {
        script.vehicle(&with_bytes(&heavy_l(), 9, &bytes));
        script.judge(2);
    }
}

/// Alike in both versions; heavier axles on every kind; as much as 16 axles bring.
fn rated(script: &mut Script) {
    script.title("case L in both versions");
    for vehicle in [light_l(), heavy_l()] {
        script.vehicle(&vehicle);
        script.all(1);
    }
    script.title("weights on both sides of 60000 and of two bytes, one axle");
    for weight in HEAVY_EDGES {
        script.vehicle(&trailer(&[[weight, 0]]));
        script.rate(1);
    }
    script.title("all kinds under 60000 in both versions, then under heavier axles");
    let members: Vec<Words> = kinds().map(|(kind, code)| usual(kind, code)).collect();
    script.survey(&survey_of(&members));
    let heaviest = vehicle_of(&lorry(&row(16, 60_000, 150)));
    let tractor = VehicleWords { class: 1, track: 300, ..heavy(lorry(&row(16, 200_000, 1))) };
    for vehicle in [heaviest, trailer(&row(16, 60_000, 150)), trailer(&row(16, 200_000, 150))] {
        script.vehicle(&vehicle);
        script.all(members.len());
    }
    script.vehicle(&vehicle_of(&tractor));
    script.all(members.len());
    script.title("a weight that only four bytes hold decides");
    // Over the apex of this chord, 200 cm from the support of 600, an axle gives a third of its
    // weight.
    script.survey(&survey_of(&[with(usual(3, 2), &[(TRUSS_HEIGHT, 50)])]));
    for weight in [60_000, 65_536, 89_934, 89_935, 131_072] {
        script.vehicle(&trailer(&[[weight, 0]]));
        script.all(1);
    }
}

/// What a refused load of version 2 keeps, and what a taken one replaces.
fn kept(script: &mut Script) {
    script.title("a refused vehicle of version 2 leaves none, then the one before");
    script.start();
    script.survey(&survey_of(&[stringer(0)]));
    let refused = trailer(&[[1500, 0], [200_001, 370]]);
    script.vehicle(&refused);
    script.judge(2);
    for vehicle in [heavy_l(), refused.clone(), trailer(&[[70_000, 0]]), refused, light_l()] {
        script.vehicle(&vehicle);
        script.all(1);
    }
}

/// Versions mixed: each vehicle is as long as its own version says.
fn yards(script: &mut Script) {
    let two = trailer(&[[70_000, 0], [3000, 370]]);
    let single = |i: u32| [light_l(), trailer(&[[60_000 + i, 0]])][i as usize % 2].clone();
    let full: Vec<Vec<u8>> = (0..32).map(single).collect();
    script.title("yards of both versions");
    for files in [vec![light_l(), heavy_l()], vec![heavy_l(), light_l()], vec![two.clone(); 3]] {
        script.yard(&joined(&files), 4);
    }
    script.yard(&joined(&full), 33);
    script.yard(&joined(&full[..3]), 2);
    script.yard(&joined(&[trailer(&row(16, 200_000, 150)), light_l()]), 2);
    script.title("a vehicle of version 2 cut short by 1 byte, and a byte left over behind it");
    let yard = joined(&[light_l(), two.clone()]);
    script.yard(&yard[..yard.len() - 1], 2);
    script.yard(&[&yard[..], &[0]].concat(), 2);
    script.title("a vehicle of version 2 with the bytes of two axles of version 1");
    let short = with_version(&light_l(), 2);
    script.yard(&joined(&[light_l(), short.clone()]), 2);
    // It takes the first four bytes of the next, and what is left is no vehicle.
    script.yard(&joined(&[short, light_l()]), 2);
    script.title("a vehicle of version 1 with the bytes of version 2");
    let long = with_version(&heavy_l(), 1);
    script.yard(&joined(std::slice::from_ref(&long)), 1);
    script.yard(&joined(&[long, light_l()]), 2);
    script.title("a wrong version among sound vehicles");
    for version in [0, 3, 257, 258] {
        script.yard(&joined(&[heavy_l(), with_version(&two, version), light_l()]), 3);
    }
    script.title("a faulty axle of version 2, and the first of two faulty vehicles");
    let faulty = trailer(&[[1500, 0], [0, 370]]);
    script.yard(&joined(&[light_l(), faulty.clone(), heavy_l()]), 3);
    script.yard(&joined(&[faulty, with_byte(&light_l(), 5, 2)]), 0);
}

/// Two surveys under a vehicle of version 2.
fn between(script: &mut Script) {
    script.title("two readings under a vehicle of version 2");
    for vehicle in [heavy_l(), trailer(&[[4299, 0]]), trailer(&[[4301, 0]])] {
        script.vehicle(&vehicle);
        script.between(&survey_of(&[stringer(0)]), &survey_of(&[stringer(1)]), 2);
    }
}

/// There and back, with an output of just that length, then longer ones.
fn there_and_back(script: &mut Script) {
    script.title("there and back");
    let edges: Vec<AxleWords> = [1, 59_999, 60_000, 255, 256, 65].map(|weight| [weight, 1]).into();
    let first = |axles: &[AxleWords]| {
        let mut axles = axles.to_vec();
        axles[0][1] = 0;
        axles
    };
    let all = [vec![[1, 0]], vec![[60_000, 0]], case_l().axles, first(&edges)];
    for axles in all.into_iter().chain([row(16, 60_000, 2000)]) {
        for (class, track) in [(0, 100), (1, 300)] {
            let words = VehicleWords { class, track, ..lorry(&axles) };
            let (light, heavy) = (vehicle_of(&words), vehicle_of(&heavy(words)));
            script.convert(TO_HEAVY, &light, heavy.len());
            script.convert(TO_LIGHT, &heavy, light.len());
        }
    }
    script.title("outputs longer than any vehicle");
    script.convert(TO_HEAVY, &light_l(), LONGEST_OUTPUT);
    script.convert(TO_LIGHT, &heavy_l(), LONGEST_OUTPUT);
}

/// 2 where the version is the wrong one for the way asked, before 3 and 1, behind 1 for a short
/// header.
fn wrong_ways(script: &mut Script) {
    for (wanted, own) in [(TO_HEAVY, heavy_l()), (TO_LIGHT, light_l())] {
        script.title(&format!("a file that has version {wanted} already"));
        script.convert(wanted, &own, own.len() + 4);
        script.title("2 before 3, 1, 7 and 14, behind 1 for a short header");
        script.convert(wanted, &with_byte(&own, 8, 0), 60);
        script.convert(wanted, &own[..9], 60);
        script.convert(wanted, &with_byte(&own, 5, 2), 60);
        script.convert(wanted, &own, 0);
        for length in [0, 5, 8] {
            script.convert(wanted, &own[..length], 60);
        }
        script.title(&format!("other versions, going to {wanted}"));
        for version in [0, 3, 256, 257, 258, 65535] {
            script.convert(wanted, &with_version(&own, version), 60);
        }
        script.convert(wanted, &survey_of(&[stringer(0)]), 60);
    }
}

/// The file's own refusals in both ways: mark, 3, 1, 7, each before what comes later.
fn files(script: &mut Script) {
    for (wanted, sound) in [(TO_HEAVY, light_l()), (TO_LIGHT, heavy_l())] {
        script.title(&format!("faulty files, going to {wanted}"));
        script.convert(wanted, &with_byte(&sound, 0, b't'), 60);
        for count in [0, 17, 255] {
            script.convert(wanted, &with_byte(&with_byte(&sound, 5, 2), 8, count), 0);
        }
        for count in [1, 3, 16] {
            script.convert(wanted, &with_byte(&sound, 8, count), 60);
        }
        for length in 9..sound.len() {
            script.convert(wanted, &sound[..length], 60);
        }
        script.convert(wanted, &[&sound[..], &[0]].concat(), 0);
        script.convert(wanted, &with_byte(&with_byte(&sound, 5, 2), 9, 0), 60);
        script.convert(wanted, &with_byte(&sound, 6, 99), 0);
        script.convert(wanted, &with_byte(&sound, sound.len() - 1, 0xff), 0);
    }
    script.title("7 of an axle in each version");
    for axles in [[[0, 0], [1, 1]], [[1, 1], [1, 1]], [[1, 0], [0, 1]], [[1, 0], [1, 0]]] {
        script.convert(TO_HEAVY, &vehicle_of(&lorry(&axles)), 21);
        script.convert(TO_LIGHT, &trailer(&axles), 17);
    }
    script.convert(TO_HEAVY, &vehicle_of(&lorry(&[[1, 0], [60_001, 1]])), 21);
    script.convert(TO_LIGHT, &trailer(&[[1, 0], [200_001, 1]]), 17);
    script.title("7 of a later axle before 17");
    script.convert(TO_LIGHT, &trailer(&[[60_001, 0], [1, 1], [1, 2001]]), 21);
}

/// 17 at the first axle that is too heavy to go back.
fn too_heavy(script: &mut Script) {
    script.title("one axle going back: 60000 fits, 60001 does not");
    for weight in HEAVY_EDGES {
        script.convert(TO_LIGHT, &trailer(&[[weight, 0]]), 13);
    }
    script.title("17 at each axle of three, then others behind it too");
    for place in 0..3 {
        let mut axles = row(3, 60_000, 150);
        axles[place][0] = 60_001;
        script.convert(TO_LIGHT, &trailer(&axles), 21);
        axles[place..].iter_mut().for_each(|axle| axle[0] = 200_000);
        script.convert(TO_LIGHT, &trailer(&axles), 21);
    }
    script.title("17 at the last of 16 axles");
    let mut axles = row(16, 60_000, 150);
    axles[15][0] = 60_001;
    script.convert(TO_LIGHT, &trailer(&axles), 73);
    script.title("17 before 14");
    script.convert(TO_LIGHT, &trailer(&[[1, 0], [65_537, 1]]), 16);
    script.convert(TO_LIGHT, &trailer(&[[1, 0], [65_537, 1]]), 0);
}

/// Outputs that are empty, a byte too short, or as long as the header and not as the output.
fn outputs(script: &mut Script) {
    for (wanted, version) in [(TO_HEAVY, LIGHT_AXLES), (TO_LIGHT, HEAVY_AXLES)] {
        for count in [1, 2, 16] {
            script.title(&format!("outputs of {count} axles going to {wanted}"));
            let words = lorry(&row(count, 9000, 200));
            let file = vehicle_of(&VehicleWords { version, ..words });
            let least = length(wanted.into(), count);
            for room in [0, 9, least - 1, least, least + 1] {
                script.convert(wanted, &file, room);
            }
        }
    }
}

/// The converter needs no session and leaves one as it is.
fn session(script: &mut Script) {
    script.title("a conversion leaves the session as it is");
    script.survey(&survey_of(&[stringer(0)]));
    script.vehicle(&heavy_l());
    script.all(1);
    script.convert(TO_HEAVY, &vehicle_of(&lorry(&[[60_000, 0]])), 20);
    script.all(1);
    script.convert(TO_LIGHT, &trailer(&[[60_001, 0]]), 20);
    script.all(1);
    script.title("a new session has nothing, and converts");
    script.start();
    script.convert(TO_LIGHT, &heavy_l(), 17);
    script.judge(2);
}

pub fn cases(script: &mut Script) {
    script.start();
    script.survey(&survey_of(&[stringer(0)]));
    headers(script);
    axles(script);
    rated(script);
    kept(script);
    yards(script);
    between(script);
    there_and_back(script);
    wrong_ways(script);
    files(script);
    too_heavy(script);
    outputs(script);
    session(script);
}
