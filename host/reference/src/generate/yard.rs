//! Yards: vehicle files joined behind their count, sound ones and damaged in every way that has a
//! number.

use super::damage::{damage_vehicle, of_other_version, spoil, VehicleDamage};
use super::{vehicle, vehicle_bytes, Random, Spread, VehicleWords};

/// The most vehicles of a yard.
const MOST: usize = 32;

/// Files joined behind this count.
fn counted(count: usize, files: &[Vec<u8>]) -> Vec<u8> {
    let count = u8::try_from(count).expect("a count of one byte");
    [&[count], &files.concat()[..]].concat()
}

/// Files joined behind their count.
pub fn joined(files: &[Vec<u8>]) -> Vec<u8> {
    counted(files.len(), files)
}

/// The yard of these vehicles.
pub fn yard_bytes(vehicles: &[VehicleWords]) -> Vec<u8> {
    joined(&files(vehicles))
}

fn files(vehicles: &[VehicleWords]) -> Vec<Vec<u8>> {
    vehicles.iter().map(vehicle_bytes).collect()
}

/// So many vehicles of up to so many axles, of either version each.
pub fn yard(random: &mut Random, spread: Spread, count: usize, axles: usize) -> Vec<VehicleWords> {
    let mut vehicles = Vec::with_capacity(count);
    for _ in 0..count {
        let axles = 1 + random.below(axles);
        vehicles.push(vehicle(random, spread, axles));
    }
    vehicles
}

/// A yard with one damage, and the number and place that it must be refused with.
pub struct DamagedYard {
    pub yard: Vec<u8>,
    pub number: u64,
    pub place: u64,
}

/// A damage of one vehicle whose length stays, with its number and place.
pub(super) fn damaged_vehicle(random: &mut Random, sound: &VehicleWords) -> (Vec<u8>, u64, u64) {
    let axle = random.below(sound.axles.len());
    use VehicleDamage::{Class, Distance, Track, Weight};
    let damage = *random.pick(&[Class, Track, Weight(axle), Distance(axle)]);
    let mut words = sound.clone();
    let place = damage_vehicle(random, &mut words, damage);
    let mut bytes = vehicle_bytes(&words);
    if random.once_in(3) {
        // Mark or version, which come before what was damaged.
        bytes[random.below(5)] ^= 1 << random.below(8);
        return (bytes, 2, 0);
    }
    (bytes, 7, place)
}

/// A yard of 32 vehicles: one damaged, at each place in turn, often with all behind it damaged
/// too; cut within each file, also within its header; an axle count that no file has; a count of
/// vehicles outside its range, or that the files do not have; bytes left over; no bytes.
pub fn damaged_yards(random: &mut Random) -> Vec<DamagedYard> {
    let vehicles = yard(random, Spread::Wide, MOST, 16);
    let sound = files(&vehicles);
    let mut all = Vec::new();
    let mut add = |yard, number, place| all.push(DamagedYard { yard, number, place });
    for i in 0..MOST {
        let (bytes, number, place) = damaged_vehicle(random, &vehicles[i]);
        let mut files = sound.clone();
        files[i] = bytes;
        for behind in i + 1..MOST {
            if random.once_in(2) {
                files[behind] = damaged_vehicle(random, &vehicles[behind]).0;
            }
        }
        add(joined(&files), number, place);
        for most in [9, sound[i].len()] {
            let mut cut = sound[..=i].to_vec();
            cut[i].truncate(random.below(most));
            add(counted(MOST, &cut), 1, 0);
        }
        let mut files = sound.clone();
        files[i][8] = *random.pick(&[0, 17, 18, 128, 255]);
        add(joined(&files), 3, 0);
        add(counted(i, &sound), if i == 0 { 3 } else { 1 }, 0);
        add(counted(i + 1, &sound[..i]), 1, 0);
    }
    for count in [0, MOST + 1, MOST + 2, 128, 255] {
        add(counted(count, &sound), 3, 0);
    }
    for more in [1, 8, 9, 13, 300] {
        add([joined(&sound), random.bytes(more)].concat(), 1, 0);
    }
    add(Vec::new(), 1, 0);
    all
}

/// One damage of a yard, whatever was done to it before.
fn damage(random: &mut Random, count: &mut usize, files: &mut [Vec<u8>]) {
    let i = random.below(files.len());
    match random.below(9) {
        0 => *count = *random.pick(&[0, MOST, MOST + 1, 255]),
        1 => *count += 1,
        2 => *count = count.saturating_sub(1),
        3 => spoil(random, &mut files[i]),
        4 => files[i].truncate(8),
        5 if files[i].len() > 8 => files[i][8] = random.bits().to_le_bytes()[0] & 31,
        6 => files[i] = of_other_version(&files[i]),
        _ => {
            let any = vehicle(random, Spread::Wide, 2);
            files[i] = damaged_vehicle(random, &any).0;
        }
    }
    *count = (*count).min(255);
}

/// A sound yard of up to `most` vehicles, then damaged up to three times in count, vehicles and
/// bytes. Some of them are sound still.
pub fn some_yard_damage(random: &mut Random, most: usize) -> Vec<u8> {
    let mut count = 1 + random.below(most);
    let mut files = files(&yard(random, Spread::Wide, count, 4));
    for _ in 0..random.below(4) {
        damage(random, &mut count, &mut files);
    }
    let mut yard = counted(count, &files);
    if random.once_in(4) {
        spoil(random, &mut yard);
    }
    yard
}
