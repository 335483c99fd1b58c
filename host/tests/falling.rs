//! Demand 3 by trial: with deeper rot, more lost area, more dead load, heavier axles, members and
//! axles added, no vehicle load falls; and where every closely spaced stringer has the same rot in
//! both surveys, that of its deck included, no permitted load rises, the figure does not rise, and
//! what is refused, a member or the bridge, does not pass. The shared members are in the same
//! places, or matched wherever they stand. Both surveys and both vehicles may be of either version.

mod common;

use common::seed;
use reference::between::is_worn;
use reference::generate::*;
use reference::layout::*;
use std::collections::BTreeMap;
use tbr::{Judgement, MemberLoads};

const PAIRS: u64 = 20_000;

/// The judgement, and the members' loads.
struct Bridge {
    judgement: Judgement,
    members: Vec<MemberLoads>,
}

fn judged(members: &[Words], vehicle: &VehicleWords, seed: u64) -> Bridge {
    judged_file(&survey_bytes(members), vehicle, seed)
}

fn judged_file(survey: &[u8], vehicle: &VehicleWords, seed: u64) -> Bridge {
    let vehicle = vehicle_bytes(vehicle);
    let judgement = tbr::judge(survey, &vehicle);
    match judgement.and_then(|judgement| Ok((judgement, tbr::member_loads(survey, &vehicle)?))) {
        Ok((judgement, members)) => Bridge { judgement, members },
        Err(refusal) => panic!("TBR_SEED={seed}: {refusal}"),
    }
}

/// Shared members that stand in the same places.
fn same_places(first: &Bridge) -> Vec<usize> {
    (0..first.members.len()).collect()
}

/// Each member of the first bridge with its partner; `partners` has their places in the second, from
/// 0.
fn shared<'a>(
    first: &'a Bridge,
    second: &'a Bridge,
    partners: &'a [usize],
) -> impl Iterator<Item = (&'a MemberLoads, &'a MemberLoads)> {
    assert_eq!(first.members.len(), partners.len());
    first.members.iter().zip(partners.iter().map(|&partner| &second.members[partner]))
}

/// Whatever wears: the vehicle load of a shared member.
fn no_lighter(one: &MemberLoads, other: &MemberLoads, seed: u64) {
    assert!(other.vehicle >= one.vehicle, "TBR_SEED={seed}: {one:?} then {other:?}");
}

/// Whatever wears: closely spaced stringers may bear more, no other member does. Does this one?
fn only_close_stringers_rise(
    words: &Words,
    one: &MemberLoads,
    other: &MemberLoads,
    seed: u64,
) -> bool {
    let rises = other.permitted > one.permitted;
    assert!(!rises || words[KIND] == CLOSE_STRINGER, "TBR_SEED={seed}: {words:?}");
    rises
}

/// A shared member of which the second is the first, worn.
fn no_better(one: &MemberLoads, other: &MemberLoads, seed: u64) {
    no_lighter(one, other, seed);
    assert!(other.permitted <= one.permitted, "TBR_SEED={seed}: {one:?} then {other:?}");
    assert!(one.passes || !other.passes, "TBR_SEED={seed}: {one:?} then {other:?}");
}

/// The first bridge and its worse second, compared with its shared members.
fn never_better(first: &Bridge, second: &Bridge, partners: &[usize], seed: u64) {
    let (one, other) = (&first.judgement, &second.judgement);
    assert!(other.figure <= one.figure, "TBR_SEED={seed}: {one:?} then {other:?}");
    assert!(one.passes || !other.passes, "TBR_SEED={seed}: {one:?} then {other:?}");
    shared(first, second, partners).for_each(|(one, other)| no_better(one, other, seed));
}

/// Vehicles and heavier ones, whose pairs of versions take turns by a number. Where both are of
/// version 2, every other first vehicle has an axle that version 1 does not hold.
#[derive(Default)]
struct TwoVersions {
    met: BTreeMap<[u16; 2], u64>,
    /// So many first vehicles have such an axle.
    heavy: u64,
}

impl TwoVersions {
    fn vehicles(
        &mut self,
        (random, turn): (&mut Random, u64),
        spread: Spread,
        axles: usize,
        more: usize,
    ) -> [VehicleWords; 2] {
        let versions = [VERSIONS[(turn % 2) as usize], VERSIONS[(turn / 2 % 2) as usize]];
        *self.met.entry(versions).or_default() += 1;
        let vehicles = match (versions, turn / 4 % 2) {
            ([HEAVY_AXLES, HEAVY_AXLES], 0) => two_heavy_vehicles(random, spread, axles, more),
            _ => two_vehicles(random, versions, spread, axles, more),
        };
        let beyond = |[weight, _]: &AxleWords| *weight > heaviest(LIGHT_AXLES);
        self.heavy += u64::from(vehicles[0].axles.iter().any(beyond));
        vehicles
    }

    /// Each pair of versions is met in a quarter of the pairs, and an eighth of them, but for a few
    /// at the ends, has a heavy first vehicle.
    fn hold(&self, pairs: u64) {
        let quarter = self.met.values().all(|&times| times == pairs / 4);
        assert!(self.met.len() == 4 && quarter, "{:?}", self.met);
        assert!(self.heavy >= pairs / 10, "{} first vehicles are heavy", self.heavy);
    }
}

#[test]
fn worse_files_never_rate_better() {
    let start = seed(0xfa11_0001);
    let (mut lower, mut turned, mut versions) = (0, 0, TwoVersions::default());
    for seed in start..start + PAIRS {
        let mut random = Random::new(seed);
        let spread = if random.once_in(4) { Spread::Wide } else { Spread::Usual };
        let (members, axles) = (1 + random.below(4), 1 + random.below(6));
        let members = survey(&mut random, spread, members);
        let [vehicle, heavier] = versions.vehicles((&mut random, seed), spread, axles, 3);
        let worse = worse_survey(&mut random, &members, Wear::SameSpread, 3);
        let first = judged(&members, &vehicle, seed);
        let second = judged(&worse, &heavier, seed);
        never_better(&first, &second, &same_places(&first), seed);
        lower += u32::from(second.judgement.figure < first.judgement.figure);
        turned += u32::from(first.judgement.passes && !second.judgement.passes);
    }
    versions.hold(PAIRS);
    assert!(lower > 1000 && turned > 100, "{lower} figures fell, {turned} verdicts turned");
}

/// The largest files: 255 members, axles up to 16.
#[test]
fn worse_full_files_never_rate_better() {
    const FULL: u64 = 300;
    let start = seed(0xfa11_0002);
    let mut versions = TwoVersions::default();
    for seed in start..start + FULL {
        let mut random = Random::new(seed);
        let members = full_survey(&mut random, Spread::Usual);
        let [vehicle, heavier] = versions.vehicles((&mut random, seed), Spread::Usual, 12, 4);
        let worse = worse_survey(&mut random, &members, Wear::SameSpread, 0);
        let first = judged(&members, &vehicle, seed);
        let second = judged(&worse, &heavier, seed);
        never_better(&first, &second, &same_places(&first), seed);
    }
    versions.hold(FULL);
}

/// Two surveys of any versions: the records of the second stand in any places or in those of the
/// order, and the partner of each record of the first is known.
struct TwoSurveys {
    versions: [u16; 2],
    first: Vec<Words>,
    second: Matched,
}

impl TwoSurveys {
    /// The pairs of versions take turns by the seed.
    fn new(
        (random, seed): (&mut Random, u64),
        members: &[Words],
        wear: Wear,
        more: usize,
    ) -> TwoSurveys {
        let all = [FREE_ORDER, IN_ORDER];
        let versions = [all[(seed % 2) as usize], all[(seed / 2 % 2) as usize]];
        let first = if versions[0] == IN_ORDER { in_order(members) } else { members.to_vec() };
        let second = matched_survey(random, &first, wear, more, versions[1]);
        TwoSurveys { versions, first, second }
    }

    /// Both judged, the second under the second vehicle.
    fn judged(&self, vehicles: [&VehicleWords; 2], seed: u64) -> [Bridge; 2] {
        let records = [&self.first, &self.second.records];
        [0, 1].map(|end| {
            let file = survey_bytes_of(self.versions[end], records[end]);
            judged_file(&file, vehicles[end], seed)
        })
    }

    /// How many partners stand in another place.
    fn moved(&self) -> usize {
        self.second.partners.iter().enumerate().filter(|(i, partner)| i != *partner).count()
    }

    /// Every other match there is: two records of which the second is the first, worn, and which
    /// are no partners.
    fn other_matches(&self) -> Vec<[usize; 2]> {
        let mut all = Vec::new();
        for (i, one) in self.first.iter().enumerate() {
            for (j, other) in self.second.records.iter().enumerate() {
                if j != self.second.partners[i] && is_worn(one, other) {
                    all.push([i, j]);
                }
            }
        }
        all
    }
}

/// The members of a survey, often some of them twice, so that there is more than one matching.
fn some_members(random: &mut Random, most: usize) -> Vec<Words> {
    let spread = if random.once_in(4) { Spread::Wide } else { Spread::Usual };
    let count = 1 + random.below(most);
    let mut members = any_survey(random, spread, count);
    if random.once_in(2) {
        let twice = *random.pick(&members);
        members.push(twice);
    }
    members
}

/// What the pairs of surveys were.
#[derive(Default)]
struct Seen {
    /// By the versions: the pairs, and the partners in another place.
    versions: BTreeMap<[u16; 2], (u64, usize)>,
    vehicles: TwoVersions,
    other_matches: usize,
    lower: u32,
    turned: u32,
}

impl Seen {
    fn add(&mut self, surveys: &TwoSurveys, first: &Bridge, second: &Bridge) {
        let (pairs, moved) = self.versions.entry(surveys.versions).or_default();
        *pairs += 1;
        *moved += surveys.moved();
        self.lower += u32::from(second.judgement.figure < first.judgement.figure);
        self.turned += u32::from(first.judgement.passes && !second.judgement.passes);
    }

    /// The pairs are worth something only if records move, in all four pairs of versions.
    fn hold(&self, pairs: u64) {
        let Seen { versions, vehicles, lower, .. } = self;
        vehicles.hold(pairs);
        let often = |&(met, moved): &(u64, usize)| met == pairs / 4 && moved as u64 > met;
        assert!(versions.len() == 4 && versions.values().all(often), "{versions:?}");
        assert!(u64::from(*lower) > pairs / 20, "{lower} figures fell");
    }
}

/// One pair of worse files, whatever the places. The four pairs of the surveys' versions take turns
/// by the seed, and with each of them those of the vehicles.
fn matched_pair(seen: &mut Seen, random: &mut Random, members: &[Words], more: usize, seed: u64) {
    let axles = 1 + random.below(6);
    let turn = (&mut *random, seed / 4);
    let [vehicle, heavier] = seen.vehicles.vehicles(turn, Spread::Usual, axles, 3);
    let surveys = TwoSurveys::new((random, seed), members, Wear::SameSpread, more);
    let [first, second] = surveys.judged([&vehicle, &heavier], seed);
    never_better(&first, &second, &surveys.second.partners, seed);
    for [i, j] in surveys.other_matches() {
        no_better(&first.members[i], &second.members[j], seed);
        seen.other_matches += 1;
    }
    seen.add(&surveys, &first, &second);
}

/// "for every way of matching each record of the first with one of the second, no two with the
/// same, whatever their places and versions"
#[test]
fn worse_matched_files_never_rate_better() {
    let start = seed(0xfa11_0004);
    let mut seen = Seen::default();
    for seed in start..start + PAIRS {
        let mut random = Random::new(seed);
        let members = some_members(&mut random, 6);
        matched_pair(&mut seen, &mut random, &members, 4, seed);
    }
    seen.hold(PAIRS);
    assert!(seen.turned > 100, "{} verdicts turned", seen.turned);
    assert!(seen.other_matches > 2000, "{} matches beside the partners", seen.other_matches);
}

/// Large surveys and the largest: members that bear something, some of them added.
#[test]
fn worse_matched_full_files_never_rate_better() {
    const FULL: u64 = 400;
    let start = seed(0xfa11_0005);
    let mut seen = Seen::default();
    for seed in start..start + FULL {
        let mut random = Random::new(seed);
        let count = *random.pick(&[40, 64, 180, 254, MOST_MEMBERS]);
        let members = bearing_survey(&mut random, count);
        matched_pair(&mut seen, &mut random, &members, 24, seed);
    }
    seen.hold(FULL);
}

/// Any wear of matched records: no vehicle load falls, and only closely spaced stringers may bear
/// more.
#[test]
fn vehicle_loads_of_matched_records_never_fall() {
    let start = seed(0xfa11_0006);
    let (mut moved, mut heavier, mut versions) = (0, 0, TwoVersions::default());
    for seed in start..start + PAIRS {
        let mut random = Random::new(seed);
        let (members, axles) = (some_members(&mut random, 4), 1 + random.below(4));
        let turn = (&mut random, seed / 4);
        let [vehicle, heavier_vehicle] = versions.vehicles(turn, Spread::Usual, axles, 3);
        let surveys = TwoSurveys::new((&mut random, seed), &members, Wear::Any, 3);
        let [first, second] = surveys.judged([&vehicle, &heavier_vehicle], seed);
        let pairs = shared(&first, &second, &surveys.second.partners);
        for (words, (one, other)) in surveys.first.iter().zip(pairs) {
            no_lighter(one, other, seed);
            only_close_stringers_rise(words, one, other, seed);
            heavier += u32::from(other.vehicle > one.vehicle);
        }
        moved += surveys.moved();
    }
    versions.hold(PAIRS);
    assert!(moved > 20_000 && heavier > 10_000, "{moved} moved, {heavier} vehicle loads rose");
}

/// By hand: case A and the cross beam of case F, then worse with a stringer added between them.
#[test]
fn a_member_added_in_the_middle() {
    let [mut stringer, mut beam] = [[0; 16]; 2];
    stringer[..11].copy_from_slice(&[1, 1, 500, 140, 0, 0, 100, 1, 28, 0, 1]);
    beam[..11].copy_from_slice(&[2, 1, 300, 0, 200, 0, 100, 1, 24, 0, 1]);
    let (mut worn, mut added) = (stringer, stringer);
    (worn[S2], added[SPAN]) = (1, 501);
    let vehicle =
        VehicleWords { version: 1, class: 0, track: 190, axles: vec![[1500, 0], [3000, 370]] };
    let permitted = |version, records: &[Words]| {
        let bridge = judged_file(&survey_bytes_of(version, records), &vehicle, 0);
        bridge.members.iter().map(|member| member.permitted).collect::<Vec<_>>()
    };
    let first = permitted(FREE_ORDER, &[beam, stringer]);
    let second = permitted(IN_ORDER, &[worn, added, beam]);
    assert_eq!(first, [1939, 1720]);
    assert_eq!([second[0], second[2]], [1343, 1939]);
}

/// Any wear, the rot of closely spaced stringers and of their decks too. Permitted loads of these
/// rise now and then, which is why the premise is there; no others do.
#[test]
fn vehicle_loads_never_fall_whatever_wears() {
    let start = seed(0xfa11_0003);
    let (mut rose, mut heavier, mut versions) = (0, 0, TwoVersions::default());
    for seed in start..start + PAIRS {
        let mut random = Random::new(seed);
        let (members, axles) = (1 + random.below(4), 1 + random.below(6));
        let members = survey(&mut random, Spread::Usual, members);
        let turn = (&mut random, seed);
        let [vehicle, heavier_vehicle] = versions.vehicles(turn, Spread::Usual, axles, 3);
        let worse = worse_survey(&mut random, &members, Wear::Any, 3);
        let first = judged(&members, &vehicle, seed);
        let second = judged(&worse, &heavier_vehicle, seed);
        let places = same_places(&first);
        for (words, (one, other)) in members.iter().zip(shared(&first, &second, &places)) {
            no_lighter(one, other, seed);
            rose += u32::from(only_close_stringers_rise(words, one, other, seed));
            heavier += u32::from(words[KIND] == CLOSE_STRINGER && other.vehicle > one.vehicle);
        }
    }
    versions.hold(PAIRS);
    assert!(rose > 10 && heavier > 1000, "{rose} permitted loads rose, {heavier} vehicle loads");
}

/// The premise is needed: a deck with rot 9 and the same with rot 10, and the second bears more.
#[test]
fn deeper_deck_rot_may_bear_more() {
    let mut words: Words = [0; 16];
    [words[KIND], words[SPECIES], words[SPAN], words[SPACING]] = [CLOSE_STRINGER, 8, 1009, 89];
    [words[DEAD_LOAD], words[SECTION], words[S1], words[S2], words[S3]] = [100, 1, 31, 7, 3];
    [words[BOARDS], words[BOARD_THICKNESS], words[BOARD_WIDTH]] = [3, 15, 44];
    let vehicle =
        VehicleWords { version: 1, class: 0, track: 190, axles: vec![[1500, 0], [3000, 370]] };
    let figures = [9, 10].map(|rot| {
        words[DECK_ROT] = rot;
        judged(&[words], &vehicle, 0).judgement.figure
    });
    assert_eq!(figures, [2653, 2678]);
}
