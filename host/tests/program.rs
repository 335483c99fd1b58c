//! The program `bridge` against the reference: every line equal.

mod common;

use common::{programs, seed};
use reference::generate::*;
use reference::layout::MOST_MEMBERS;
use reference::lines;

/// What the program prints for this standard input.
fn printed(input: &[u8]) -> String {
    programs::printed("bridge", input)
}

fn agree(input: &[u8], what: &str) {
    assert_eq!(printed(input), lines::printed(input), "{what}");
}

/// "For case A with the vehicle of case L it prints" these two lines.
#[test]
fn the_documents_own_lines() {
    let (survey, vehicle) =
        (include_bytes!("../../samples/case-a.tbr"), include_bytes!("../../samples/case-l.tbv"));
    let input = [&survey[..], &vehicle[..]].concat();
    assert_eq!(printed(&input), "1 1720 1200 pass\nbridge 1720 1 pass\n");
}

/// Case A and the cross beam of case F under an axle of 4300 kgf: the last line has the first one's
/// permitted load and the second one's place, and no line has a margin.
#[test]
fn the_last_line_names_the_member_with_the_least_margin() {
    let [mut stringer, mut beam] = [[0; 16]; 2];
    stringer[..11].copy_from_slice(&[1, 1, 500, 140, 0, 0, 100, 1, 28, 0, 1]);
    beam[..11].copy_from_slice(&[2, 1, 300, 0, 200, 0, 100, 1, 24, 0, 1]);
    let vehicle = VehicleWords { version: 1, class: 0, track: 190, axles: vec![[4300, 0]] };
    let input = [survey_bytes(&[stringer, beam]), vehicle_bytes(&vehicle)].concat();
    let lines = "1 1720 1720 pass\n2 1939 2150 refuse\nbridge 1720 2 refuse\n";
    assert_eq!((printed(&input).as_str(), lines::printed(&input).as_str()), (lines, lines));
}

#[test]
fn hundreds_of_bridges() {
    let seed = seed(0xb41_0001);
    let mut random = Random::new(seed);
    for i in 0..300 {
        let spread = if i % 2 == 0 { Spread::Wide } else { Spread::Usual };
        let most = if i % 5 == 0 { MOST_MEMBERS } else { 16 };
        let (members, axles) = (1 + random.below(most), 1 + random.below(16));
        let survey = survey_file(&mut random, spread, members);
        let vehicle = vehicle_of(&mut random, VERSIONS[i / 2 % 2], spread, axles);
        let vehicle = vehicle_bytes(&vehicle);
        agree(&[survey, vehicle].concat(), &format!("TBR_SEED={seed}, input {i}"));
    }
}

#[test]
fn refused_files() {
    let seed = seed(0xb41_0002);
    let mut random = Random::new(seed);
    for i in 0..300 {
        let (survey, vehicle) = some_damage(&mut random);
        agree(&[survey, vehicle].concat(), &format!("TBR_SEED={seed}, input {i}"));
    }
}

/// Records out of order in each way, versions that no file has, and of a vehicle every axle
/// damaged, lengths that its version does not have and weights that version 2 does not.
#[test]
fn refused_orders_versions_and_vehicles() {
    let seed = seed(0xb41_0005);
    let mut random = Random::new(seed);
    let of_order = [misplaced_surveys(&mut random), wrong_versions(&mut random)];
    let of_vehicles = [damaged_vehicles(&mut random), wrong_lengths(&mut random)];
    let of_weight = [wrong_weights(&mut random)];
    let all = of_order.into_iter().chain(of_vehicles).chain(of_weight);
    for (i, damaged) in all.flatten().enumerate() {
        let input = [damaged.survey, damaged.vehicle].concat();
        agree(&input, &format!("TBR_SEED={seed}, input {i}"));
    }
}

/// Every beginning of a sound input, the empty one too, and the input with something behind it.
#[test]
fn cut_and_lengthened_inputs() {
    let mut random = Random::new(seed(0xb41_0003));
    let survey = survey_bytes(&survey(&mut random, Spread::Usual, 2));
    for version in VERSIONS {
        let vehicle = vehicle_bytes(&vehicle_of(&mut random, version, Spread::Usual, 3));
        let input = [&survey[..], &vehicle].concat();
        for length in 0..=input.len() {
            agree(&input[..length], &format!("version {version}, the first {length} bytes"));
        }
        for more in [1, 2, 100, 65_536, 3_000_000] {
            let longer = [&input[..], &vec![7; more]].concat();
            agree(&longer, &format!("version {version}, {more} bytes more"));
        }
    }
}

#[test]
fn megabytes_of_anything() {
    let mut random = Random::new(seed(0xb41_0004));
    for length in [5, 6, 4096, 65_535, 65_536, 65_537, 1_000_000, 8_000_000] {
        let mut bytes = random.bytes(length);
        agree(&bytes, &format!("{length} random bytes"));
        for mark in [b"TBR\x01\x00", b"TBR\x02\x00"] {
            bytes[..5].copy_from_slice(mark);
            agree(&bytes, &format!("{length} random bytes behind a mark"));
        }
    }
}
