//! Heavier axles, by hand: both versions of a vehicle, their limits and lengths, yards of both, and
//! the converter with its refusals in their order.

use reference::generate::*;
use reference::layout::*;
use reference::{convert, judge, reader, yard, Axle, Refused, Vehicle};

/// Version 2: class 0, track 190, 70,000 kgf and 370 cm behind it 3000 kgf.
const TRAILER: [u8; 21] =
    [b'T', b'B', b'V', 2, 0, 0, 190, 0, 2, 0x70, 0x11, 1, 0, 0, 0, 0xb8, 0x0b, 0, 0, 0x72, 1];
/// The vehicle of case L in each version: 1500 kgf, 370 cm behind it 3000 kgf.
const LIGHT: [u8; 17] = [b'T', b'B', b'V', 1, 0, 0, 190, 0, 2, 0xdc, 5, 0, 0, 0xb8, 0x0b, 0x72, 1];
const HEAVY: [u8; 21] =
    [b'T', b'B', b'V', 2, 0, 0, 190, 0, 2, 0xdc, 5, 0, 0, 0, 0, 0xb8, 0x0b, 0, 0, 0x72, 1];

fn words(version: u16, axles: &[AxleWords]) -> VehicleWords {
    VehicleWords { version, class: 0, track: 190, axles: axles.to_vec() }
}

fn file(version: u16, axles: &[AxleWords]) -> Vec<u8> {
    vehicle_bytes(&words(version, axles))
}

/// So many axles of 5000 kgf, 200 cm apart.
fn row(count: usize) -> Vec<AxleWords> {
    (0..count).map(|i| [5000, if i == 0 { 0 } else { 200 }]).collect()
}

fn with(bytes: &[u8], at: usize, byte: u8) -> Vec<u8> {
    let mut bytes = bytes.to_vec();
    bytes[at] = byte;
    bytes
}

fn number_and_place(fault: Refused) -> (u64, u64) {
    (fault.number, fault.place)
}

/// Number and place of the refusal of a vehicle.
fn refusal(bytes: &[u8]) -> Option<(u64, u64)> {
    reader::vehicle(bytes).err().map(number_and_place)
}

fn converted(wanted: u16, bytes: &[u8], room: usize) -> Result<Vec<u8>, (u64, u64)> {
    convert(bytes, wanted, room).map_err(number_and_place)
}

/// Case A: 1720 kgf/m, and an axle at mid-span gives 0.4 of its weight.
fn stringer() -> Vec<u8> {
    let mut words: Words = [0; 16];
    words[..11].copy_from_slice(&[1, 1, 500, 140, 0, 0, 100, 1, 28, 0, 1]);
    survey_bytes(&[words])
}

#[test]
fn a_weight_is_of_four_bytes() {
    let axles = vec![Axle { weight: 70_000, distance: 0 }, Axle { weight: 3000, distance: 370 }];
    assert_eq!(reader::vehicle(&TRAILER), Ok(Vehicle { class: 0, track: 190, axles }));
    assert_eq!(file(2, &[[70_000, 0], [3000, 370]]), TRAILER);
    assert_eq!(file(1, &[[1500, 0], [3000, 370]]), LIGHT);
    assert_eq!(file(2, &[[1500, 0], [3000, 370]]), HEAVY);
}

/// One axle of each weight on case A: 0.4 of it, rounded up.
#[test]
fn heavier_axles_are_rated() {
    for (weight, load) in [
        (60_000, 24_000),
        (60_001, 24_001),
        (65_535, 26_214),
        (65_536, 26_215),
        (131_072, 52_429),
        (200_000, 80_000),
    ] {
        let judged = judge(&stringer(), &file(2, &[[weight, 0]])).expect("a sound pair");
        assert_eq!(judged.members[0].vehicle, load, "{weight} kgf");
        assert!(!judged.passes && judged.margin == 1720 - load.cast_signed(), "{weight} kgf");
    }
}

/// Each version's weights at each place of every number of axles.
#[test]
fn limits_of_a_weight() {
    let light = [(0, false), (1, true), (59_999, true), (60_000, true), (60_001, false)];
    let light = [&light[..], &[(65_535, false)]].concat();
    let within = HEAVY_EDGES.iter().map(|&weight| (weight, true));
    let heavy: Vec<(u32, bool)> = within.chain(NO_WEIGHTS.map(|weight| (weight, false))).collect();
    for (version, weights) in [(1, light), (2, heavy)] {
        for (count, i) in (1..=16).flat_map(|count| (0..count).map(move |i| (count, i))) {
            for &(weight, sound) in &weights {
                let mut axles = row(count);
                axles[i][0] = weight;
                let fault = (!sound).then_some((7, i as u64 + 1));
                assert_eq!(refusal(&file(version, &axles)), fault, "version {version}, {weight}");
            }
        }
    }
}

/// Distances are of two bytes in both versions.
#[test]
fn limits_of_a_distance() {
    for (version, i) in VERSIONS.into_iter().flat_map(|version| (0..16).map(move |i| (version, i)))
    {
        for distance in [0, 1, 2000, 2001, 65_535] {
            let mut axles = row(16);
            axles[i][1] = distance;
            let sound = if i == 0 { distance == 0 } else { (1..=2000).contains(&distance) };
            let fault = (!sound).then_some((7, i as u64 + 1));
            assert_eq!(refusal(&file(version, &axles)), fault, "version {version}, {distance}");
        }
    }
}

/// Every version word: a file of version 1 that says 2 has another length, and the other way round.
#[test]
fn versions() {
    for version in 0..=u16::MAX {
        let said = |own: u16| match version {
            1 | 2 => (version != own).then_some((1, 0)),
            _ => Some((2, 0)),
        };
        assert_eq!(refusal(&with_version(&LIGHT, version)), said(1), "version {version}");
        assert_eq!(refusal(&with_version(&HEAVY, version)), said(2), "version {version}");
    }
}

/// Every length of every number of axles: one is right, by the version.
#[test]
fn lengths() {
    for (version, count) in VERSIONS.into_iter().flat_map(|v| (1..=16).map(move |n| (v, n))) {
        let sound = file(version, &row(count));
        assert_eq!(sound.len(), 9 + [4, 6][usize::from(version - 1)] * count);
        for length in 0..=120 {
            let mut bytes = [&sound[..], &[1; 120]].concat();
            bytes.truncate(length);
            let fault = (length != sound.len()).then_some((1, 0));
            assert_eq!(refusal(&bytes), fault, "version {version}, {count} axles, {length} bytes");
        }
    }
}

/// Two faults at once: a short header, mark or version, count, length, class or track, the axles.
#[test]
fn the_header_comes_first() {
    for sound in [&LIGHT[..], &HEAVY] {
        let version = sound[3];
        for at in 0..5 {
            let marked = with(&with(sound, at, 0x7f), 8, 0);
            assert_eq!(refusal(&marked), Some((2, 0)), "version {version}, byte {at}");
            assert_eq!(refusal(&marked[..9]), Some((2, 0)), "version {version}, byte {at}");
            assert_eq!(refusal(&marked[..8]), Some((1, 0)), "version {version}, byte {at}");
        }
        for count in [0, 17, 255] {
            assert_eq!(refusal(&with(sound, 8, count)), Some((3, 0)), "version {version}");
        }
        for count in [1, 3, 16] {
            let classed = with(&with(sound, 5, 2), 8, count);
            assert_eq!(refusal(&classed), Some((1, 0)), "version {version}, {count} axles");
        }
        let light = with(&with(sound, 9, 0), 10, 0);
        assert_eq!(refusal(&light), Some((7, 1)), "version {version}");
        for front in [with(&light, 5, 2), with(&light, 6, 99), with(&light, 7, 2)] {
            assert_eq!(refusal(&front), Some((7, 0)), "version {version}");
        }
    }
}

/// "A vehicle rates alike in both versions."
#[test]
fn both_versions_rate_alike() {
    let mut random = Random::new(0x09ea_0001);
    for round in 0..400 {
        let spread = if round % 2 == 0 { Spread::Wide } else { Spread::Usual };
        let (members, axles) = (1 + random.below(4), 1 + random.below(16));
        let survey = survey_file(&mut random, spread, members);
        let light = vehicle_of(&mut random, 1, spread, axles);
        let heavy = vehicle_bytes(&VehicleWords { version: 2, ..light.clone() });
        let light = vehicle_bytes(&light);
        assert_eq!(reader::vehicle(&light), reader::vehicle(&heavy), "round {round}");
        let alike = judge(&survey, &light).expect("a sound pair");
        assert_eq!(judge(&survey, &heavy), Ok(alike), "round {round}");
    }
}

/// Each vehicle of a yard is as long as its own version says.
#[test]
fn yards_of_both_versions() {
    let members = reader::survey(&stringer()).expect("a sound survey");
    let said = |yard_bytes: &[u8]| match yard(Some(&members), yard_bytes, 40) {
        Ok(answer) => Ok(answer.answers.iter().map(|answer| answer.margin).collect()),
        Err(fault) => Err(number_and_place(fault)),
    };
    let [light, heavy, trailer] = [LIGHT.to_vec(), HEAVY.to_vec(), TRAILER.to_vec()];
    let (pass, refuse) = (520, 1720 - 28_000);
    let mixed = [light.clone(), trailer.clone(), heavy.clone(), light.clone(), trailer.clone()];
    assert_eq!(said(&joined(&mixed)), Ok(vec![pass, refuse, pass, pass, refuse]));
    assert_eq!(said(&joined(&vec![trailer.clone(); 32])), Ok(vec![refuse; 32]));
    let two = joined(&[light.clone(), trailer.clone()]);
    for length in 1..two.len() {
        assert_eq!(said(&two[..length]), Err((1, 0)), "cut to {length}");
    }
    assert_eq!(said(&[&two[..], &[0]].concat()), Err((1, 0)), "a byte left over");
    // Of version 2 with the bytes of version 1: where it stands last it is too short; else it takes
    // four bytes of the next, and the second weight stands where the first distance should.
    let short = with_version(&light, 2);
    assert_eq!(said(&joined(&[light.clone(), short.clone()])), Err((1, 0)));
    assert_eq!(said(&joined(&[short, light.clone()])), Err((7, 1)));
    // Of version 1 with the bytes of version 2: the upper half of the first weight is a distance of
    // 0, and the second axle's weight is 0.
    let long = with_version(&heavy, 1);
    assert_eq!(said(&joined(&[long, light])), Err((7, 2)));
}

/// "with every number kept, and back where each weight fits; there and back gives the same bytes"
#[test]
fn there_and_back() {
    assert_eq!(converted(2, &LIGHT, 21), Ok(HEAVY.to_vec()));
    assert_eq!(converted(1, &HEAVY, 17), Ok(LIGHT.to_vec()));
    let mut random = Random::new(0x09ea_0002);
    for round in 0..4000 {
        let axles = 1 + round % 16;
        let light = vehicle_bytes(&vehicle_of(&mut random, 1, Spread::Wide, axles));
        let heavy = converted(2, &light, 9 + 6 * axles).expect("it goes to version 2");
        assert_eq!(reader::vehicle(&heavy), reader::vehicle(&light), "round {round}");
        assert_eq!(converted(1, &heavy, 9 + 4 * axles), Ok(light), "round {round}");
        let heavy = vehicle_bytes(&fitting_vehicle(&mut random, Spread::Wide, axles));
        let light = converted(1, &heavy, 9 + 4 * axles).expect("each weight fits");
        assert_eq!(reader::vehicle(&heavy), reader::vehicle(&light), "round {round}");
        assert_eq!(converted(2, &light, 9 + 6 * axles), Ok(heavy), "round {round}");
    }
}

/// "17: a weight above 60,000 going back; place of the first such axle"
#[test]
fn too_heavy_to_go_back() {
    for weight in HEAVY_EDGES {
        let fault = (weight > 60_000).then_some((17, 1));
        assert_eq!(converted(1, &file(2, &[[weight, 0]]), 13).err(), fault, "{weight} kgf");
    }
    for (count, i) in (1..=16).flat_map(|count| (0..count).map(move |i| (count, i))) {
        let mut axles = row(count);
        axles[i][0] = 60_001;
        let place = i as u64 + 1;
        assert_eq!(converted(1, &file(2, &axles), 73).err(), Some((17, place)));
        axles[i..].iter_mut().for_each(|axle| axle[0] = 200_000);
        assert_eq!(converted(1, &file(2, &axles), 73).err(), Some((17, place)));
        assert_eq!(converted(1, &file(2, &axles), 0).err(), Some((17, place)), "17 before 14");
    }
}

/// "after the file is accepted": every fault of it comes before 17, at whatever axle.
#[test]
fn the_file_comes_before_17() {
    for (heavy, i) in (0..16).flat_map(|heavy| (0..16).map(move |i| (heavy, i))) {
        let mut axles = row(16);
        axles[heavy][0] = 60_001;
        assert_eq!(converted(1, &file(2, &axles), 73).err(), Some((17, heavy as u64 + 1)));
        let sound = file(2, &axles);
        axles[i][1] = 2001;
        assert_eq!(converted(1, &file(2, &axles), 73).err(), Some((7, i as u64 + 1)));
        assert_eq!(converted(1, &with(&sound, 5, 2), 73).err(), Some((7, 0)));
        assert_eq!(converted(1, &with(&sound, 8, 15), 73).err(), Some((1, 0)));
    }
}

/// "The wrong version for the way asked gives 2, at that refusal's usual place": behind 1 for a
/// short header, before 3, 1, 7, 17 and 14.
#[test]
fn the_wrong_version() {
    for (wanted, own) in [(1, &LIGHT[..]), (2, &HEAVY), (2, &TRAILER)] {
        assert_eq!(converted(wanted, own, 60), Err((2, 0)), "to {wanted}");
        assert_eq!(converted(wanted, own, 0), Err((2, 0)), "to {wanted}, before 14");
        assert_eq!(converted(wanted, &own[..9], 60), Err((2, 0)), "to {wanted}, before 1");
        assert_eq!(converted(wanted, &with(own, 8, 0), 60), Err((2, 0)), "to {wanted}, before 3");
        assert_eq!(converted(wanted, &with(own, 5, 2), 60), Err((2, 0)), "to {wanted}, before 7");
        for length in 0..9 {
            assert_eq!(converted(wanted, &own[..length], 60), Err((1, 0)), "{length} bytes");
        }
    }
    for version in 0..=u16::MAX {
        let light = (version != 1).then_some((2, 0));
        let heavy = (version != 2).then_some((2, 0));
        assert_eq!(converted(2, &with_version(&LIGHT, version), 60).err(), light, "{version}");
        assert_eq!(converted(1, &with_version(&HEAVY, version), 60).err(), heavy, "{version}");
    }
}

/// "an output too short gives 14, last": the bytes of the output count, not those of the file.
#[test]
fn outputs_of_every_length() {
    for (wanted, count) in VERSIONS.into_iter().flat_map(|v| (1..=16).map(move |n| (v, n))) {
        let sound = file(other_version(wanted), &row(count));
        let least = length(wanted, count);
        for room in 0..=LONGEST_OUTPUT {
            let answer = converted(wanted, &sound, room);
            let expected = if room < least { Err((14, 0)) } else { Ok(file(wanted, &row(count))) };
            assert_eq!(answer, expected, "to {wanted}, {count} axles, {room} bytes");
        }
        for (faulty, number) in [(with(&sound, 8, 0), 3), (with(&sound, 5, 2), 7)] {
            assert_eq!(converted(wanted, &faulty, 0).map_err(|fault| fault.0), Err(number));
        }
        assert_eq!(converted(wanted, &[&sound[..], &[0]].concat(), 0), Err((1, 0)));
    }
}

/// There are two ways and no third.
#[test]
#[should_panic(expected = "there is no way to version 3")]
fn no_third_way() {
    let _ = converted(3, &LIGHT, 60);
}
