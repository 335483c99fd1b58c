//! Files that are refused: damaged in every way that has a number, at any place, and any bytes.

use super::order::{some_order, with_version, NO_VERSIONS};
use super::vehicle::{vehicle, vehicle_bytes, VehicleWords, NO_WEIGHTS};
use super::{Random, Spread};
use crate::layout::*;

/// What is wrong with a survey, by the document's numbers.
#[derive(Clone, Copy, Debug, PartialEq, Eq)]
pub enum SurveyDamage {
    Kind,
    Species,
    Section,
    Unused,
    Range,
}

impl SurveyDamage {
    pub const ALL: [SurveyDamage; 5] = [
        SurveyDamage::Kind,
        SurveyDamage::Species,
        SurveyDamage::Section,
        SurveyDamage::Unused,
        SurveyDamage::Range,
    ];

    /// The document's refusal number.
    pub fn number(self) -> u64 {
        match self {
            SurveyDamage::Kind => 4,
            SurveyDamage::Species => 5,
            SurveyDamage::Section => 6,
            SurveyDamage::Unused => 8,
            SurveyDamage::Range => 7,
        }
    }
}

/// What is wrong with a vehicle; all of it has number 7.
#[derive(Clone, Copy, Debug, PartialEq, Eq)]
pub enum VehicleDamage {
    Class,
    Track,
    Weight(usize),
    Distance(usize),
}

/// A number outside `least` to `greatest`: next to an edge or anywhere. `least` may be 0.
fn outside(random: &mut Random, least: u16, greatest: u16) -> u16 {
    let above = random.edgy(greatest + 1, u16::MAX);
    let below = least.checked_sub(1).map(|top| random.edgy(0, top));
    match below {
        Some(below) if random.once_in(2) => below,
        _ => above,
    }
}

/// A record with one used number outside its range, x at l or beyond, or A above B. A record
/// damaged before may have no used number, and is left as it is.
fn break_range(random: &mut Random, words: &mut Words) {
    let kind = words[KIND];
    let limits: Vec<Limit> = used(kind, words[SECTION]).copied().collect();
    if limits.is_empty() {
        return;
    }
    let &(word, least, greatest) = random.pick(&limits);
    words[word] = match word {
        FROM_SUPPORT if in_truss(kind) => outside(random, 1, words[SPAN].saturating_sub(1)),
        PART_A if is_joint(kind) && random.once_in(2) => words[WHOLE_B].saturating_add(1),
        _ => outside(random, least, greatest),
    };
}

/// A record with one unused field that is not 0, where it has any.
fn fill_unused(random: &mut Random, words: &mut Words) -> bool {
    let used = used_words(words[KIND], words[SECTION]);
    let unused: Vec<usize> = (0..16).filter(|word| used >> word & 1 == 0).collect();
    if unused.is_empty() {
        return false;
    }
    words[*random.pick(&unused)] = random.edgy(1, u16::MAX);
    true
}

fn unsuited_section(random: &mut Random, kind: u16) -> u16 {
    loop {
        let code = if random.once_in(2) { random.between(0, 6) } else { random.edgy(0, u16::MAX) };
        if !sections(kind).contains(&code) {
            return code;
        }
    }
}

/// Damages a sound record; false where its kind cannot be damaged so.
pub fn damage_survey(random: &mut Random, words: &mut Words, damage: SurveyDamage) -> bool {
    let kind = words[KIND];
    match damage {
        SurveyDamage::Kind => words[KIND] = outside(random, 1, LAST_KIND),
        SurveyDamage::Species if !has_species(kind) => return false,
        SurveyDamage::Species => words[SPECIES] = outside(random, 1, 8),
        SurveyDamage::Section => words[SECTION] = unsuited_section(random, kind),
        SurveyDamage::Unused => return fill_unused(random, words),
        SurveyDamage::Range => break_range(random, words),
    }
    true
}

/// A weight outside the range of this version. Many of version 2 have a lower half that would be
/// within it, or bytes in another order.
pub(super) fn no_weight(random: &mut Random, version: u16) -> u32 {
    if version != HEAVY_AXLES {
        return outside(random, 1, HEAVIEST_LIGHT).into();
    }
    let least = heaviest(version) + 1;
    let lower_half = random.large(1, HEAVIEST_LIGHT.into());
    let exchanged = random.large(1, least - 1);
    match random.below(6) {
        0 | 1 => *random.pick(&NO_WEIGHTS),
        2 => random.large(4, 0xffff) << 16 | lower_half,
        3 => exchanged.rotate_left(16).max(least),
        4 => exchanged.swap_bytes().max(least),
        _ => random.large(least, u32::MAX),
    }
}

/// Damages a sound vehicle; the place of the fault comes back.
pub fn damage_vehicle(random: &mut Random, words: &mut VehicleWords, damage: VehicleDamage) -> u64 {
    match damage {
        VehicleDamage::Class => words.class = random.edgy(2, 255).to_le_bytes()[0],
        VehicleDamage::Track => words.track = outside(random, 100, 300),
        VehicleDamage::Weight(i) => words.axles[i][0] = no_weight(random, words.version),
        VehicleDamage::Distance(0) => words.axles[0][1] = outside(random, 0, 0).into(),
        VehicleDamage::Distance(i) => words.axles[i][1] = outside(random, 1, 2000).into(),
    }
    match damage {
        VehicleDamage::Class | VehicleDamage::Track => 0,
        VehicleDamage::Weight(i) | VehicleDamage::Distance(i) => i as u64 + 1,
    }
}

/// Cut short, lengthened, or with one byte changed: often within the header, and often to 0, the
/// only count that no survey has.
pub(super) fn spoil(random: &mut Random, bytes: &mut Vec<u8>) {
    match random.below(5) {
        0 => bytes.truncate(random.below(bytes.len() + 1)),
        1 => {
            let length = random.below(40);
            bytes.extend(random.bytes(length));
        }
        way => {
            let end = if way == 2 { bytes.len().min(10) } else { bytes.len() };
            let any = random.bits().to_le_bytes()[0];
            if end > 0 {
                bytes[random.below(end)] = *random.pick(&[0, any, any]);
            }
        }
    }
}

/// A sound pair of files but for the order of the records, then damaged up to four times in either
/// file, fields and bytes alike.
pub fn some_damage(random: &mut Random) -> (Vec<u8>, Vec<u8>) {
    let (members, axles) = (1 + random.below(4), 1 + random.below(4));
    let (version, mut records) = some_order(random, Spread::Wide, members);
    let mut words = vehicle(random, Spread::Wide, axles);
    for _ in 0..random.below(3) {
        let (place, damage) = (random.below(members), *random.pick(&SurveyDamage::ALL));
        damage_survey(random, &mut records[place], damage);
    }
    if random.once_in(2) {
        let axle = random.below(axles);
        use VehicleDamage::{Class, Distance, Track, Weight};
        let all = [Class, Track, Weight(axle), Distance(axle)];
        let damage = *random.pick(&all);
        damage_vehicle(random, &mut words, damage);
    }
    let (mut survey, mut vehicle) = (survey_bytes_of(version, &records), vehicle_bytes(&words));
    match random.below(16) {
        0..=3 => spoil(random, &mut survey),
        4..=7 => spoil(random, &mut vehicle),
        8 => survey = with_version(&survey, *random.pick(&NO_VERSIONS)),
        9 => vehicle = with_version(&vehicle, *random.pick(&NO_VERSIONS)),
        10 => vehicle = of_other_version(&vehicle),
        _ => {}
    }
    (survey, vehicle)
}

/// A vehicle file with the other version in its header, where it has one: the length is still that
/// of its own.
pub(super) fn of_other_version(bytes: &[u8]) -> Vec<u8> {
    match bytes.get(3..5) {
        Some(&[version @ (1 | 2), 0]) => with_version(bytes, u16::from(3 - version)),
        _ => bytes.to_vec(),
    }
}

/// Any bytes up to this length; some of them with a mark and a version in front.
pub fn any_bytes(random: &mut Random, mark: &[u8; 3], longest: usize) -> Vec<u8> {
    let length = random.below(longest + 1);
    let mut bytes = random.bytes(length);
    let version = *random.pick(&[1, 1, 2]);
    let header = [mark[0], mark[1], mark[2], version, 0];
    let known = random.below(2) * header.len().min(length);
    bytes[..known].copy_from_slice(&header[..known]);
    bytes
}
