//! What is wrong with a vehicle by its version alone, and conversions from one version to the
//! other: sound ones, and such as are refused for every reason.

use super::damage::{damage_vehicle, of_other_version, spoil, VehicleDamage};
use super::order::{with_version, NO_VERSIONS};
use super::vehicle::{
    fitting_vehicle, vehicle_bytes, vehicle_of, VehicleWords, NO_WEIGHTS, VERSIONS,
};
use super::{full_survey, survey, survey_bytes, Damaged, Random, Spread};
use crate::layout::{axle_bytes, heaviest, HEAVY_AXLES, LIGHT_AXLES};
use crate::reader::{File, Refused, VEHICLE_HEADER};

/// The other of the two versions.
pub fn other_version(version: u16) -> u16 {
    LIGHT_AXLES + HEAVY_AXLES - version
}

/// Vehicles of each version and every number of axles whose length is a byte or a word off, or that
/// of the other version; the survey is sound.
pub fn wrong_lengths(random: &mut Random) -> Vec<Damaged> {
    let survey = survey_bytes(&full_survey(random, Spread::Wide));
    let refusal = Refused { file: File::Vehicle, number: 1, place: 0 };
    let mut all = Vec::new();
    for (version, axles) in VERSIONS.into_iter().flat_map(|v| (1..=16).map(move |axles| (v, axles)))
    {
        let sound = vehicle_bytes(&vehicle_of(random, version, Spread::Wide, axles));
        let longer = |more: usize| [&sound[..], &[0, 0, 0, 0, 0, 0][..more]].concat();
        let cut = |less: usize| sound[..sound.len() - less].to_vec();
        let lengths = [longer(1), longer(2), longer(axle_bytes(version)), cut(1), cut(2)];
        for vehicle in lengths.into_iter().chain([of_other_version(&sound)]) {
            all.push(Damaged { survey: survey.clone(), vehicle, refusal });
        }
    }
    all
}

/// Vehicles of 16 axles of version 2 with each weight that it does not have, at each axle; the
/// survey is sound.
pub fn wrong_weights(random: &mut Random) -> Vec<Damaged> {
    let survey = survey_bytes(&survey(random, Spread::Wide, 1));
    let sound = vehicle_of(random, HEAVY_AXLES, Spread::Wide, 16);
    let mut all = Vec::new();
    for (weight, i) in NO_WEIGHTS.into_iter().flat_map(|weight| (0..16).map(move |i| (weight, i))) {
        let mut words = sound.clone();
        words.axles[i][0] = weight;
        let refusal = Refused { file: File::Vehicle, number: 7, place: i as u64 + 1 };
        all.push(Damaged { survey: survey.clone(), vehicle: vehicle_bytes(&words), refusal });
    }
    all
}

/// A file, the version that is wanted of it, and the bytes of the output.
#[derive(Clone)]
pub struct Conversion {
    pub wanted: u8,
    pub file: Vec<u8>,
    pub room: usize,
}

/// What the version wanted is called in a step.
fn byte(version: u16) -> u8 {
    version.to_le_bytes()[0]
}

/// The bytes of a file of so many axles in this version.
pub fn length(version: u16, axles: usize) -> usize {
    VEHICLE_HEADER + axle_bytes(version) * axles
}

/// A vehicle file with this count in its header.
pub(super) fn with_count(file: &[u8], count: u8) -> Vec<u8> {
    [&file[..VEHICLE_HEADER - 1], &[count], &file[VEHICLE_HEADER..]].concat()
}

/// The longest output that is asked for: no vehicle is so long.
pub const LONGEST_OUTPUT: usize = 160;

/// A vehicle that goes to the version that is wanted, so many axles.
fn convertible(random: &mut Random, wanted: u16, axles: usize) -> VehicleWords {
    match wanted {
        HEAVY_AXLES => vehicle_of(random, LIGHT_AXLES, Spread::Wide, axles),
        _ => fitting_vehicle(random, Spread::Wide, axles),
    }
}

/// The output is as long as it has to be, or longer.
fn enough(random: &mut Random, least: usize) -> usize {
    let any = least + random.below(LONGEST_OUTPUT + 1 - least);
    *random.pick(&[least, least, least + 1, least + 2, LONGEST_OUTPUT, any])
}

/// A conversion that is taken; the versions take turns by the number.
pub fn sound_conversion(random: &mut Random, turn: usize) -> Conversion {
    let (wanted, axles) = (VERSIONS[turn % 2], 1 + random.below(16));
    let file = vehicle_bytes(&convertible(random, wanted, axles));
    let room = enough(random, length(wanted, axles));
    Conversion { wanted: byte(wanted), file, room }
}

/// A conversion with the refusal that it must have.
pub struct DamagedConversion {
    pub conversion: Conversion,
    pub number: u64,
    pub place: u64,
}

/// An output of any length, often too short: what comes before 14 comes whatever the output.
fn any_room(random: &mut Random) -> usize {
    let any = random.below(LONGEST_OUTPUT + 1);
    *random.pick(&[0, 0, VEHICLE_HEADER, any, LONGEST_OUTPUT])
}

/// A weight that version 1 has no room for.
pub(super) fn too_heavy(random: &mut Random) -> u32 {
    let (least, greatest) = (heaviest(LIGHT_AXLES) + 1, heaviest(HEAVY_AXLES));
    let any = random.large(least, greatest);
    *random.pick(&[least, 65_535, 65_536, 65_537, 131_072, greatest, any])
}

/// 16 axles going back with a weight above 60,000 at this index, those before it light; often
/// others behind it are too heavy too.
fn heavy_at(random: &mut Random, i: usize) -> VehicleWords {
    let mut words = fitting_vehicle(random, Spread::Wide, 16);
    words.axles[i][0] = too_heavy(random);
    for axle in &mut words.axles[i + 1..] {
        if random.once_in(3) {
            axle[0] = too_heavy(random);
        }
    }
    words
}

/// A damage of class, track or an axle, in a file that may be too heavy to go back as well.
fn faulty(random: &mut Random, wanted: u16, damage: VehicleDamage) -> (Vec<u8>, u64) {
    let heavy = random.below(16);
    let mut words = match wanted {
        HEAVY_AXLES => vehicle_of(random, LIGHT_AXLES, Spread::Wide, 16),
        _ => heavy_at(random, heavy),
    };
    let place = damage_vehicle(random, &mut words, damage);
    (vehicle_bytes(&words), place)
}

/// A wrong version for the way asked, the one wanted among them; the count and the length may be
/// wrong too.
fn of_wrong_version(random: &mut Random, wanted: u16) -> Vec<Vec<u8>> {
    let axles = 1 + random.below(16);
    let own = vehicle_bytes(&vehicle_of(random, wanted, Spread::Wide, axles));
    let sound = vehicle_bytes(&convertible(random, wanted, axles));
    let mut all = vec![own.clone(), own[..VEHICLE_HEADER].to_vec(), with_version(&sound, wanted)];
    all.extend(NO_VERSIONS.map(|version| with_version(&sound, version)));
    all.push(with_count(&own, *random.pick(&[0, 17, 255])));
    all
}

/// Every refusal of the converter in this way: 1 for a short header, 2, 3, 1, 7 at each place, 17
/// at each place and 14, each with what comes later wrong as well.
fn damaged(random: &mut Random, wanted: u16) -> Vec<DamagedConversion> {
    let mut all = Vec::new();
    let mut add = |random: &mut Random, file: Vec<u8>, number, place| {
        let conversion = Conversion { wanted: byte(wanted), file, room: any_room(random) };
        all.push(DamagedConversion { conversion, number, place });
    };
    let sound = vehicle_bytes(&convertible(random, wanted, 3));
    let short = vehicle_bytes(&vehicle_of(random, wanted, Spread::Wide, 3));
    for length in 0..VEHICLE_HEADER {
        add(random, short[..length].to_vec(), 1, 0);
    }
    of_wrong_version(random, wanted).into_iter().for_each(|file| add(random, file, 2, 0));
    for count in [0, 17, 128, 255] {
        add(random, with_count(&sound, count), 3, 0);
    }
    for length in VEHICLE_HEADER..sound.len() {
        add(random, sound[..length].to_vec(), 1, 0);
    }
    add(random, [&sound[..], &[0]].concat(), 1, 0);
    let axles = (0..16).flat_map(|i| [VehicleDamage::Weight(i), VehicleDamage::Distance(i)]);
    for damage in axles.chain([VehicleDamage::Class, VehicleDamage::Track]) {
        let (file, place) = faulty(random, wanted, damage);
        add(random, file, 7, place);
    }
    for (i, place) in (0..16).zip(1..).filter(|_| wanted == LIGHT_AXLES) {
        let file = vehicle_bytes(&heavy_at(random, i));
        add(random, file, 17, place);
    }
    all
}

/// Sound files of every number of axles with an output that is a byte too short, or empty.
fn too_short(random: &mut Random, wanted: u16) -> Vec<DamagedConversion> {
    let mut all = Vec::new();
    for axles in 1..=16 {
        let file = vehicle_bytes(&convertible(random, wanted, axles));
        let least = length(wanted, axles);
        for room in [0, VEHICLE_HEADER, least - 1, random.below(least)] {
            let conversion = Conversion { wanted: byte(wanted), file: file.clone(), room };
            all.push(DamagedConversion { conversion, number: 14, place: 0 });
        }
    }
    all
}

/// Conversions that are refused, in both ways, for every reason and at every place.
pub fn damaged_conversions(random: &mut Random) -> Vec<DamagedConversion> {
    let ways = VERSIONS.map(|wanted| [damaged(random, wanted), too_short(random, wanted)]);
    ways.into_iter().flatten().flatten().collect()
}

/// A conversion of any file in either way, spoilt up to three times; some are taken still.
pub fn some_conversion(random: &mut Random) -> Conversion {
    let (wanted, axles) = (*random.pick(&VERSIONS), 1 + random.below(4));
    let words = match random.below(3) {
        0 => super::vehicle(random, Spread::Wide, axles),
        _ => convertible(random, wanted, axles),
    };
    let mut file = vehicle_bytes(&words);
    for _ in 0..random.below(4) {
        match random.below(4) {
            0 => spoil(random, &mut file),
            1 => file = of_other_version(&file),
            _ => {}
        }
    }
    let room = [any_room(random), enough(random, length(wanted, axles))][random.below(2)];
    Conversion { wanted: byte(wanted), file, room }
}
