//! Lorry and trailer coupled: gaps at both ends of their range and beyond, classes and tracks,
//! versions, numbers of axles, each refusal of either file, and all of them in their order; what is
//! loaded then on members of every kind, beside the two vehicles alone; and what the call leaves as
//! it is.

use crate::heavier::heavy;
use crate::records::*;
use reference::generate::{
    in_one_vehicle, joined, reading_bits, with_version, AxleWords, VehicleWords, VERSIONS,
};
use reference::layout::*;
use reference::script::Script;

/// Behind the vehicle of case L: axles unlike its own, and unlike one another.
fn trailer() -> VehicleWords {
    lorry(&[[2000, 0], [5000, 130], [700, 410]])
}

/// Every place of this survey is rated: beams, a truss, and a span that holds a gap of 20 m.
fn bridge() -> Vec<Words> {
    let long = with(chord(), &[(SPAN, 5000), (FROM_SUPPORT, 1500), (DEAD_LOAD, 0)]);
    vec![stringer(0), cross_beam(), chord(), long]
}

fn rated(script: &mut Script) {
    (1..=bridge().len()).for_each(|place| script.rate(place));
}

/// The call, and then what is loaded: the coupled vehicle or, where it is refused, what was there.
fn couple(script: &mut Script, first: &VehicleWords, second: &VehicleWords, gap: u16) {
    script.couple(&vehicle_of(first), &vehicle_of(second), gap);
    rated(script);
}

/// The two with each of these gaps.
fn at_gaps(script: &mut Script, [first, second]: [VehicleWords; 2], gaps: &[u16]) {
    gaps.iter().for_each(|&gap| couple(script, &first, &second, gap));
}

fn gaps(script: &mut Script) {
    script.title("coupled, gaps of 1 to 2000 cm");
    at_gaps(script, [case_l(), trailer()], &[1, 2, 150, 255, 256, 257, 1999, 2000]);
    script.title("coupled, gaps outside it, also by their low byte");
    at_gaps(script, [case_l(), trailer()], &[0, 2001, 2256, 32_769, 65_535]);
    script.title("coupled, the other vehicle in front");
    at_gaps(script, [trailer(), case_l()], &[1, 150, 2000]);
    script.title("coupled, one axle and one, every metre");
    let [first, second] = [3000, 4000].map(|weight| vehicle_of(&lorry(&[[weight, 0]])));
    for gap in (100..=2000).step_by(100) {
        script.couple(&first, &second, gap);
        [1, 4].into_iter().for_each(|place| script.rate(place));
    }
}

/// The two halves, each of its own class and track.
fn of_fronts([first, second]: [(u8, u16); 2]) -> [VehicleWords; 2] {
    let of = |(class, track), words| VehicleWords { class, track, ..words };
    [of(first, case_l()), of(second, trailer())]
}

fn equal_fronts(script: &mut Script) {
    script.title("coupled, equal classes and tracks");
    for front in [(0, 100), (0, 300), (1, 100), (1, 190), (1, 300)] {
        at_gaps(script, of_fronts([front; 2]), &[150]);
    }
}

/// 7 where the class or the track differs, whichever file has the greater, and with a bad gap too.
fn fronts_that_differ(script: &mut Script) {
    for (title, one, other) in [
        ("classes differ", (0, 190), (1, 190)),
        ("tracks differ", (0, 190), (0, 191)),
        ("tracks differ, at both ends", (1, 100), (1, 300)),
        ("classes and tracks differ", (0, 189), (1, 190)),
    ] {
        script.title(&format!("coupled, {title}"));
        at_gaps(script, of_fronts([one, other]), &[150, 0]);
        at_gaps(script, of_fronts([other, one]), &[150, 2001]);
    }
}

/// Each pair of versions, alike; then weights that only the second version holds.
fn versions(script: &mut Script) {
    let of = |version, axles: &[AxleWords]| VehicleWords { version, ..lorry(axles) };
    for [one, other] in VERSIONS.into_iter().flat_map(|one| VERSIONS.map(|other| [one, other])) {
        script.title(&format!("coupled, versions {one} and {other}"));
        couple(script, &of(one, &case_l().axles), &of(other, &trailer().axles), 150);
        let greatest = |version| [[1, 0], [heaviest(version), 200]];
        couple(script, &of(one, &greatest(one)), &of(other, &greatest(other)), 150);
    }
    script.title("coupled, weights of more than two bytes in either");
    for weight in [60_001, 65_536, 65_537, 131_073] {
        couple(script, &case_l(), &of(2, &[[weight, 0]]), 150);
        couple(script, &of(2, &[[weight, 0]]), &trailer(), 150);
    }
}

/// So many axles each, the two unlike.
fn halves(version: u16, axles: [usize; 2]) -> [VehicleWords; 2] {
    let [first, second] = [row(axles[0], 900, 210), row(axles[1], 1300, 140)];
    [first, second].map(|axles| VehicleWords { version, ..lorry(&axles) })
}

/// Numbers of axles that a coupled vehicle has room for, and such that it has not.
const WITHIN: [[usize; 2]; 7] = [[1, 1], [2, 1], [1, 2], [1, 15], [15, 1], [8, 8], [9, 7]];
const BEYOND: [[usize; 2]; 6] = [[16, 1], [1, 16], [9, 8], [8, 9], [2, 15], [16, 16]];

/// Up to 16 axles in all; 3 for more.
fn counts(script: &mut Script) {
    let calls = |script: &mut Script, version, counts: &[[usize; 2]]| {
        counts.iter().for_each(|&axles| at_gaps(script, halves(version, axles), &[150]));
    };
    for version in VERSIONS {
        script.title(&format!("coupled, up to 16 axles in version {version}"));
        calls(script, version, &WITHIN);
        script.title(&format!("coupled, more than 16 axles in version {version}"));
        calls(script, version, &BEYOND);
    }
}

fn seven_before_three(script: &mut Script) {
    script.title("coupled, 7 before 3");
    for axles in [[16, 1], [1, 16]] {
        at_gaps(script, halves(1, axles), &[0, 2001, 65_535]);
    }
    for (class, track) in [(1, 190), (0, 191), (1, 300)] {
        let [first, second] = halves(2, [9, 8]);
        couple(script, &first, &VehicleWords { class, track, ..second }, 150);
    }
}

/// The trailer in this version, with one axle changed.
fn with_axle(version: u16, i: usize, axle: AxleWords) -> Vec<u8> {
    let mut words = VehicleWords { version, ..trailer() };
    words.axles[i] = axle;
    vehicle_of(&words)
}

/// A file of each refusal of a vehicle.
fn refused_files() -> Vec<(&'static str, Vec<u8>)> {
    let sound = vehicle_of(&trailer());
    vec![
        ("no bytes", vec![]),
        ("a header cut short", sound[..8].to_vec()),
        ("a mark", with_byte(&sound, 2, b'R')),
        ("version 3", with_version(&sound, 3)),
        ("no axles", with_byte(&sound, 8, 0)),
        ("17 axles by its count", with_byte(&sound, 8, 17)),
        ("cut short", sound[..sound.len() - 1].to_vec()),
        ("a byte left over", [&sound[..], &[0]].concat()),
        ("the other version's length", with_version(&sound, 2)),
        ("class 2", with_byte(&sound, 5, 2)),
        ("track 99", with_byte(&sound, 6, 99)),
        ("a first axle's distance", with_axle(1, 0, [2000, 1])),
        ("no weight", with_axle(1, 1, [0, 130])),
        ("a weight of 60001 in version 1", with_axle(1, 2, [60_001, 410])),
        ("a weight of 200001 in version 2", with_axle(2, 2, [200_001, 410])),
        ("no distance", with_axle(2, 1, [5000, 0])),
        ("a distance of 2001", with_axle(1, 2, [700, 2001])),
    ]
}

/// Each of them as the first and as the second: its own number and place.
fn own_refusals(script: &mut Script) {
    let sound = vehicle_of(&case_l());
    for (title, file) in refused_files() {
        script.title(&format!("coupled, first then second refused: {title}"));
        script.couple(&file, &sound, 150);
        script.couple(&sound, &file, 150);
        script.rate(1);
    }
    script.title("coupled, the last of 16 axles, as the first and as the second");
    let mut words = heavy(lorry(&row(16, 70_000, 150)));
    words.axles[15][0] = 200_001;
    script.couple(&vehicle_of(&words), &sound, 150);
    script.couple(&sound, &vehicle_of(&words), 150);
}

/// A file of each number and sort of place.
fn some_refused() -> Vec<Vec<u8>> {
    let all = refused_files();
    [0, 2, 4, 9, 11, 14].map(|i| all[i].1.clone()).to_vec()
}

/// The first's own refusals before the second's: any two at once.
fn both_refused(script: &mut Script) {
    let files = some_refused();
    script.title("coupled, both refused: the first's number and place");
    for (first, second) in files.iter().flat_map(|one| files.iter().map(move |two| (one, two))) {
        script.couple(first, second, 150);
    }
}

/// Either's own refusals before 7 and 3.
fn refused_before_the_rest(script: &mut Script) {
    let tractor = vehicle_of(&VehicleWords { class: 1, track: 300, ..case_l() });
    let longest = vehicle_of(&lorry(&row(16, 900, 150)));
    script.title("coupled, refused files before a class, a track, a gap and more than 16 axles");
    for file in some_refused() {
        script.couple(&file, &tractor, 0);
        script.couple(&tractor, &file, 2001);
        script.couple(&file, &longest, 150);
        script.couple(&longest, &file, 0);
    }
    script.couple(&vehicle_of(&VehicleWords { track: 99, ..lorry(&row(16, 1, 1)) }), &longest, 150);
    rated(script);
}

/// A coupled vehicle beside both alone, on every kind and section.
fn beside_each(script: &mut Script, pair: &[VehicleWords; 2], gaps: &[u16]) {
    let members = kinds().count();
    let [first, second] = pair.each_ref().map(vehicle_of);
    for alone in [&first, &second] {
        script.vehicle(alone);
        script.all(members);
    }
    for &gap in gaps {
        script.couple(&first, &second, gap);
        script.all(members);
    }
}

/// "at most the sum of the two loads, and at least each of them"
fn loads(script: &mut Script) {
    let members: Vec<Words> = kinds().map(|(kind, code)| usual(kind, code)).collect();
    script.survey(&survey_of(&members));
    script.title("coupled, beside the first and the second alone");
    beside_each(script, &[case_l(), trailer()], &[1, 120, 600, 2000]);
    script.title("coupled, one half that counts for nothing beside the other");
    beside_each(script, &[lorry(&[[1, 0]]), lorry(&[[60_000, 0]])], &[1, 2000]);
    script.title("coupled, 16 axles of 200000, as close as may be and as far apart");
    let heaviest = |apart| heavy(lorry(&row(8, 200_000, apart)));
    beside_each(script, &[heaviest(1), heaviest(1)], &[1]);
    beside_each(script, &[heaviest(2000), heaviest(2000)], &[2000]);
    script.title("coupled, 16 axles of 200000 over spans of 100 and 5000 cm");
    let spans = [100, 5000].map(|span| with(stringer(0), &[(SPAN, span)]));
    script.survey(&survey_of(&spans));
    script.couple(&vehicle_of(&heaviest(1)), &vehicle_of(&heaviest(1)), 1);
    script.all(2);
}

fn in_one_file(script: &mut Script) {
    script.title("coupled, and the same axles in one file");
    let pair = [case_l(), trailer()];
    for gap in [1, 370, 2000] {
        couple(script, &pair[0], &pair[1], gap);
        script.vehicle(&vehicle_of(&in_one_vehicle(&pair, gap)));
        rated(script);
    }
}

/// No survey is needed; a refused call leaves all as it is, a taken one replaces the vehicle alone.
fn session(script: &mut Script) {
    let [first, second] = [case_l(), trailer()].map(|words| vehicle_of(&words));
    let survey = survey_of(&bridge());
    script.title("a new session, nothing coupled");
    script.start();
    script.couple(&first, &second, 0);
    script.rate(1);
    script.survey(&survey);
    script.couple(&first, &[], 150);
    script.all(4);
    script.title("a new session couples without a survey, which is loaded afterwards");
    script.start();
    script.couple(&first, &second, 150);
    script.all(1);
    script.survey(&survey);
    script.all(4);
    script.title("a refused call keeps the survey and the coupled vehicle, then a file");
    for vehicle in [None, Some(&second)] {
        vehicle.into_iter().for_each(|file| script.vehicle(file));
        script.couple(&first, &second, 2001);
        script.all(4);
        script.couple(&second[..9], &first, 150);
        script.all(4);
        script.couple(&first, &vehicle_of(&VehicleWords { class: 1, ..trailer() }), 150);
        script.couple(&vehicle_of(&lorry(&row(14, 1, 1))), &second, 150);
        script.all(4);
    }
    script.title("a taken call keeps the survey; each later load replaces the vehicle");
    script.couple(&second, &first, 150);
    script.all(4);
    script.couple(&first, &first, 150);
    script.all(4);
    script.vehicle(&first);
    script.all(4);
    script.couple(&first, &second, 150);
    script.survey(&survey_of(&[cross_beam()]));
    script.all(1);
}

/// The coupled vehicle in every call that looks at the vehicle.
fn calls(script: &mut Script) {
    let of = |class, words| vehicle_of(&VehicleWords { class, ..words });
    script.title("coupled, then a yard, two surveys and gauges");
    script.survey(&survey_of(&bridge()));
    for class in [0, 1] {
        script.couple(&of(class, case_l()), &of(class, trailer()), 150);
        script.yard(&joined(&[of(0, case_l()), of(1, trailer())]), 3);
        script.all(4);
        let [sound, worn] = [0, 2].map(|rot| survey_of(&[stringer(rot), chord()]));
        script.between(&sound, &worn, 4);
        // 30 mm: over span/180 of 5 m, and within a fifth more.
        script.gauge(1, [0, 30 * 64, 0].map(reading_bits));
        script.convert(2, &of(class, trailer()), 30);
        script.join(&sound, &sound, 70);
        script.all(4);
    }
}

/// A step that ends before its first file does is printed.
fn bodies(script: &mut Script) {
    script.title("coupled, steps of other lengths");
    for body in ["", "gap", "two numbers and a first file that is cut"] {
        script.couple_body(body.as_bytes());
    }
    let first = vehicle_of(&case_l());
    let length = first.len().to_le_bytes();
    script.couple_body(&[&[150, 0, 0, 0], &first[..]].concat());
    script.couple_body(&[&[150, 0], &length[..2], &first].concat());
    script.couple_body(&[150, 0, 0, 0]);
    rated(script);
}

pub fn cases(script: &mut Script) {
    script.start();
    script.survey(&survey_of(&bridge()));
    script.vehicle(&vehicle_of(&lorry(&[[1000, 0]])));
    gaps(script);
    equal_fronts(script);
    fronts_that_differ(script);
    versions(script);
    counts(script);
    seven_before_three(script);
    own_refusals(script);
    both_refused(script);
    refused_before_the_rest(script);
    in_one_file(script);
    loads(script);
    session(script);
    calls(script);
    bodies(script);
}
