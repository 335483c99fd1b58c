//! Couplings of two vehicle files: such as are taken, and such as are refused for every reason.

use super::damage::{of_other_version, spoil};
use super::heavier::{with_count, wrong_lengths, wrong_weights};
use super::order::wrong_versions;
use super::places::damaged_vehicles;
use super::vehicle::{vehicle_bytes, vehicle_of, VehicleWords, VERSIONS};
use super::yard::damaged_vehicle;
use super::{vehicle, Damaged, Random, Spread};
use crate::layout::{HEAVY_AXLES, MOST_AXLES};
use crate::reader::{File, VEHICLE_HEADER};

/// Two vehicle files, and the gap between them in cm.
#[derive(Clone)]
pub struct Coupling {
    pub first: Vec<u8>,
    pub second: Vec<u8>,
    pub gap: u16,
}

/// A coupling with the refusal that it must have.
pub struct DamagedCoupling {
    pub coupling: Coupling,
    pub number: u64,
    pub place: u64,
}

/// Gaps that none has: next to the ends of their range, such whose low byte or lower bits would be
/// within it, and the greatest.
pub const NO_GAPS: [u16; 7] = [0, 2001, 2002, 4095, 32_769, 65_281, u16::MAX];

fn some_gap(random: &mut Random) -> u16 {
    random.edgy(1, 2000)
}

/// How many axles each of two vehicles has that have so many together.
fn split_axles(random: &mut Random, all: usize) -> [usize; 2] {
    let least = all.saturating_sub(MOST_AXLES).max(1);
    let most = MOST_AXLES.min(all - 1);
    let first = least + random.below(most - least + 1);
    [first, all - first]
}

/// Numbers of axles that a coupled vehicle has room for, all of it often.
fn axles_within(random: &mut Random) -> [usize; 2] {
    let any = 2 + random.below(MOST_AXLES - 1);
    let all = *random.pick(&[2, 3, any, any, MOST_AXLES - 1, MOST_AXLES]);
    split_axles(random, all)
}

/// Numbers of axles that it has no room for, often by one.
fn axles_beyond(random: &mut Random) -> [usize; 2] {
    let any = MOST_AXLES + 1 + random.below(MOST_AXLES);
    let all = *random.pick(&[MOST_AXLES + 1, MOST_AXLES + 1, MOST_AXLES + 2, any, 2 * MOST_AXLES]);
    split_axles(random, all)
}

/// Two vehicles of equal class and track with so many axles each; the pairs of versions take turns
/// by the number.
pub fn two_halves(
    random: &mut Random,
    turn: usize,
    spread: Spread,
    axles: [usize; 2],
) -> [VehicleWords; 2] {
    let versions = [VERSIONS[turn % 2], VERSIONS[turn / 2 % 2]];
    let first = vehicle_of(random, versions[0], spread, axles[0]);
    let second = vehicle_of(random, versions[1], spread, axles[1]);
    let second = VehicleWords { class: first.class, track: first.track, ..second };
    [first, second]
}

/// All axles of both as one vehicle, where the gap is the distance of an axle as any other. Version
/// 2 holds every weight.
pub fn in_one_vehicle([first, second]: &[VehicleWords; 2], gap: u16) -> VehicleWords {
    let mut axles = [&first.axles[..], &second.axles].concat();
    axles[first.axles.len()][1] = gap.into();
    VehicleWords { version: HEAVY_AXLES, axles, ..*first }
}

/// The files of both with this gap.
fn coupling(halves: &[VehicleWords; 2], gap: u16) -> Coupling {
    let [first, second] = halves.each_ref().map(vehicle_bytes);
    Coupling { first, second, gap }
}

/// A coupling that is taken; the pairs of versions take turns by the number.
pub fn sound_coupling(random: &mut Random, turn: usize, spread: Spread) -> Coupling {
    let axles = axles_within(random);
    let halves = two_halves(random, turn, spread, axles);
    coupling(&halves, some_gap(random))
}

/// What keeps two sound vehicles from being coupled.
#[derive(Clone, Copy, Debug, PartialEq, Eq, PartialOrd, Ord)]
pub enum Unfit {
    Class,
    Track,
    Gap,
    Axles,
}

impl Unfit {
    pub const ALL: [Unfit; 4] = [Unfit::Class, Unfit::Track, Unfit::Gap, Unfit::Axles];

    /// Every set of them, the empty one first.
    pub fn sets() -> impl Iterator<Item = Vec<Unfit>> {
        let has = |set: usize, i: &usize| set >> i & 1 == 1;
        (0..16).map(move |set| (0..4).filter(|i| has(set, i)).map(|i| Unfit::ALL[i]).collect())
    }

    /// The document's refusal number.
    pub fn number(self) -> u64 {
        match self {
            Unfit::Axles => 3,
            _ => 7,
        }
    }
}

/// Another track than this one, next to it or any.
fn other_track(random: &mut Random, track: u16) -> u16 {
    let next = if track == 300 { track - 1 } else { track + 1 };
    let any = random.edgy(100, 300);
    if any == track || random.once_in(2) {
        next
    } else {
        any
    }
}

/// Two sound vehicles that cannot be coupled for just these reasons; for none of them they can.
pub fn unfit_coupling(random: &mut Random, turn: usize, why: &[Unfit]) -> Coupling {
    let has = |one: Unfit| why.contains(&one);
    let axles = if has(Unfit::Axles) { axles_beyond(random) } else { axles_within(random) };
    let mut halves = two_halves(random, turn, Spread::Wide, axles);
    let end = &mut halves[random.below(2)];
    if has(Unfit::Class) {
        end.class = 1 - end.class;
    }
    if has(Unfit::Track) {
        end.track = other_track(random, end.track);
    }
    let gap = if has(Unfit::Gap) { *random.pick(&NO_GAPS) } else { some_gap(random) };
    coupling(&halves, gap)
}

/// Sound vehicles that cannot be coupled, for every set of reasons: 7 where 3 is not the only one.
fn unfit(random: &mut Random) -> Vec<DamagedCoupling> {
    let mut all = Vec::new();
    for (why, turn) in Unfit::sets().skip(1).flat_map(|why| (0..4).map(move |t| (why.clone(), t))) {
        let coupling = unfit_coupling(random, turn, &why);
        let number = why.iter().map(|why| why.number()).max().unwrap_or(0);
        all.push(DamagedCoupling { coupling, number, place: 0 });
    }
    all
}

/// Counts of axles that no vehicle has.
const NO_COUNTS: [u8; 5] = [0, 17, 19, 128, 255];

/// Files whose header is cut, or whose count of axles is none that a vehicle has.
fn headers(random: &mut Random) -> Vec<(Vec<u8>, u64)> {
    let sound =
        VERSIONS.map(|version| vehicle_bytes(&vehicle_of(random, version, Spread::Wide, 3)));
    let mut all = Vec::new();
    for file in sound {
        all.extend((0..VEHICLE_HEADER).map(|length| (file[..length].to_vec(), 1)));
        all.extend(NO_COUNTS.map(|count| (with_count(&file, count), 3)));
    }
    all
}

/// Files that are no vehicles, with number and place.
fn no_vehicles(random: &mut Random) -> Vec<(Vec<u8>, u64, u64)> {
    let damaged = [damaged_vehicles(random), wrong_lengths(random), wrong_weights(random)];
    let damaged = damaged.into_iter().chain([wrong_versions(random)]).flatten();
    let of_vehicle = |Damaged { vehicle, refusal, .. }| {
        (refusal.file == File::Vehicle).then_some((vehicle, refusal.number, refusal.place))
    };
    let headers = headers(random).into_iter().map(|(file, number)| (file, number, 0));
    headers.chain(damaged.filter_map(of_vehicle)).collect()
}

/// Couplings that are refused: each file that is no vehicle as the first, whatever the second and
/// the gap, and as the second of a sound first one; and sound vehicles for every set of reasons.
pub fn damaged_couplings(random: &mut Random) -> Vec<DamagedCoupling> {
    let files = no_vehicles(random);
    let mut all = unfit(random);
    for (file, number, place) in &files {
        let axles = 1 + random.below(MOST_AXLES);
        let sound = vehicle_bytes(&vehicle(random, Spread::Wide, axles));
        let other = [&sound, &random.pick(&files).0][random.below(2)].clone();
        let gap = [some_gap(random), *random.pick(&NO_GAPS)][random.below(2)];
        let refused = |first: Vec<u8>, second: Vec<u8>| {
            let coupling = Coupling { first, second, gap };
            DamagedCoupling { coupling, number: *number, place: *place }
        };
        all.extend([refused(file.clone(), other), refused(sound, file.clone())]);
    }
    all
}

/// A coupling of sound vehicles, of which about half are unfit; then either file may be damaged.
/// Some of them are taken still.
pub fn some_coupling(random: &mut Random) -> Coupling {
    let mut why = Unfit::ALL.to_vec();
    why.retain(|_| random.once_in(7));
    let turn = random.below(4);
    let mut call = unfit_coupling(random, turn, &why);
    for file in [&mut call.first, &mut call.second] {
        match random.below(24) {
            0 | 1 => spoil(random, file),
            2 => *file = of_other_version(file),
            3 => *file = with_count(file, *random.pick(&NO_COUNTS)),
            4 | 5 => {
                let axles = 1 + random.below(4);
                let words = vehicle(random, Spread::Wide, axles);
                *file = damaged_vehicle(random, &words).0;
            }
            _ => {}
        }
    }
    call
}
