//! The samples: text form and file agree, and the judgements are known.

use std::path::PathBuf;
use tbr::file::{self, Contents, Survey};
use tbr::{form, judge};

fn sample(name: &str) -> Vec<u8> {
    let path = PathBuf::from(env!("CARGO_MANIFEST_DIR")).join("../samples").join(name);
    std::fs::read(&path).unwrap_or_else(|error| panic!("{}: {error}", path.display()))
}

/// The survey file with something else in it.
fn changed(survey: &[u8], change: impl FnOnce(&mut Survey)) -> Vec<u8> {
    let mut survey = file::survey(survey).unwrap();
    change(&mut survey);
    Contents::Survey(survey).bytes().unwrap()
}

#[test]
fn text_forms_and_files_agree() {
    let surveys =
        ["case-a.tbr", "close-stringers.tbr", "crescent.tbr", "forest-road.tbr", "ordered.tbr"];
    let vehicles = ["case-l.tbv", "lorry.tbv", "transformer-trailer.tbv"];
    for name in surveys.into_iter().chain(vehicles) {
        let stem = name.split('.').next().unwrap();
        let made = form::read(&sample(&format!("{stem}.txt")));
        let made = made.unwrap_or_else(|faults| panic!("{stem}.txt: {faults:?}"));
        assert_eq!(made.bytes(), Some(sample(name)), "{name}: made anew by 'tbr make'");
    }
}

/// The yard is made of the two vehicles, in this order; the bridge of case A bears the first only.
#[test]
fn the_yard_is_of_these_vehicles() {
    let vehicles = [sample("case-l.tbv"), sample("lorry.tbv")];
    let made = file::join_yard(&vehicles);
    assert_eq!(made, Some(sample("yard.tby")), "made anew by 'tbr make --yard'");
    let judged = tbr::judge_yard(&sample("case-a.tbr"), &sample("yard.tby")).unwrap();
    let verdicts: Vec<bool> = judged.judgements.iter().map(|judgement| judgement.passes).collect();
    assert_eq!((verdicts, judged.passes), (vec![true, false], 1));
}

#[test]
fn case_a_with_the_vehicle_of_case_l_passes() {
    let judgement = judge(&sample("case-a.tbr"), &sample("case-l.tbv")).unwrap();
    assert_eq!((judgement.figure, judgement.governing, judgement.passes), (1720, 1, true));
}

/// Logs that rot from above bear the lorry; the same rot counted all round condemns them.
#[test]
fn the_bank_span_bears_the_lorry() {
    let (survey, vehicle) = (sample("crescent.tbr"), sample("lorry.tbv"));
    let judgement = judge(&survey, &vehicle).unwrap();
    assert_eq!((judgement.figure, judgement.governing, judgement.passes), (2857, 1, true));
    let all_round = changed(&survey, |survey| {
        survey.members.iter_mut().for_each(|words| words[7] = 1);
    });
    let judgement = judge(&all_round, &vehicle).unwrap();
    assert_eq!((judgement.figure, judgement.governing, judgement.passes), (1720, 1, false));
}

/// Close stringers under a sound deck bear the lorry; where three centimetres more of the boards
/// are rotten, the deck spreads the wheels less and the bridge is refused.
#[test]
fn the_forest_bridge_bears_the_lorry() {
    let (survey, vehicle) = (sample("close-stringers.tbr"), sample("lorry.tbv"));
    let judgement = judge(&survey, &vehicle).unwrap();
    assert_eq!((judgement.figure, judgement.governing, judgement.passes), (3394, 3, true));
    let rotten = changed(&survey, |survey| {
        survey.members.iter_mut().for_each(|words| words[15] = 4);
    });
    let judgement = judge(&rotten, &vehicle).unwrap();
    assert_eq!((judgement.figure, judgement.governing, judgement.passes), (2531, 3, false));
}

/// Two equals, the members 3 and 4, stand as they come in version 2; members that differ do not
/// change places. In version 1 they do, and the loads stay those of the members.
#[test]
fn the_ordered_bridge_bears_the_lorry() {
    let (survey, vehicle) = (sample("ordered.tbr"), sample("lorry.tbv"));
    let judgement = judge(&survey, &vehicle).unwrap();
    assert_eq!((judgement.figure, judgement.governing, judgement.passes), (3062, 2, true));
    let loads_of = |survey: &[u8]| -> Vec<[u64; 2]> {
        let members = tbr::member_loads(survey, &vehicle).unwrap();
        members.iter().map(|member| [member.permitted, member.vehicle]).collect()
    };
    let loads = loads_of(&survey);
    let first_version = |survey: &mut Survey| survey.version = 1;
    assert_eq!(judge(&changed(&survey, first_version), &vehicle), Ok(judgement));
    let [equal, next] = [2, 3];
    let swapped = |(one, other)| changed(&survey, |survey| survey.members.swap(one, other));
    assert_eq!(judge(&swapped((equal, next)), &vehicle), Ok(judgement));
    for (place, one) in (2..).zip(0..7).filter(|(_, one)| *one != equal) {
        let swapped = swapped((one, one + 1));
        let refusal = judge(&swapped, &vehicle).unwrap_err();
        assert_eq!((refusal.number, refusal.place), (16, place), "{refusal}");
        let free = changed(&swapped, first_version);
        let mut expected = loads.clone();
        expected.swap(one, one + 1);
        assert_eq!(loads_of(&free), expected, "{one}");
    }
}

/// Version 2: every group of axles weighs more than version 1 holds. The bridge of the forest road
/// is far from bearing it, and the plates have the figure of class 1 and of the wider track; with a
/// twentieth of the weight in the same file it is borne.
#[test]
fn the_forest_road_bridge_does_not_bear_the_trailer() {
    let (survey, trailer) = (sample("forest-road.tbr"), sample("transformer-trailer.tbv"));
    let mut vehicle = file::vehicle(&trailer).unwrap();
    assert_eq!((vehicle.version, vehicle.axles.len()), (2, 6));
    assert!(vehicle.axles.iter().all(|[weight, _]| *weight > 60_000));
    let judgement = judge(&survey, &trailer).unwrap();
    assert_eq!((judgement.figure, judgement.governing, judgement.passes), (4304, 1, false));
    let loads = tbr::member_loads(&survey, &trailer).unwrap();
    let vehicle_loads: Vec<u64> = loads.iter().map(|member| member.vehicle).collect();
    assert_eq!(vehicle_loads, [49952, 48667, 46800, 29867, 29442, 29442, 29867]);
    vehicle.axles.iter_mut().for_each(|[weight, _]| *weight /= 20);
    for version in [1, 2] {
        vehicle.version = version;
        let light = Contents::Vehicle(vehicle.clone()).bytes().unwrap();
        let judgement = judge(&survey, &light).unwrap();
        assert_eq!((judgement.figure, judgement.passes), (4304, true), "version {version}");
    }
}

/// The kinds 1 to 6; the steel plates have the figure, and the stringers of the bank span govern:
/// their margin is 3636 − 2780 kgf/m, that of the plates 2916 − 1316.
#[test]
fn the_forest_road_bridge_bears_the_lorry() {
    let survey = sample("forest-road.tbr");
    let mut kinds: Vec<u16> = file::members(&survey).iter().map(|words| words[0]).collect();
    kinds.dedup();
    assert_eq!(kinds, [1, 2, 3, 4, 5, 6]);
    let judgement = judge(&survey, &sample("lorry.tbv")).unwrap();
    assert_eq!((judgement.figure, judgement.governing, judgement.passes), (2916, 1, true));
    let loads = tbr::member_loads(&survey, &sample("lorry.tbv")).unwrap();
    let margins: Vec<i64> = loads.iter().map(tbr::MemberLoads::margin).collect();
    assert_eq!(margins, [856, 1075, 2983, 1746, 2686, 3380, 1600]);
}
