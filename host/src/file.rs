//! The files' layout: words of records to bytes and back, and vehicles joined to a yard. Nothing is
//! checked here; the proved library says which files are taken.

use crate::form::AxleLayout;
use crate::refusal::Which;

/// The sixteen words of a member: kind, species, l, d, x, h, q, section code, s1 to s6, A, B.
pub type Member = [u16; 16];

/// Weight and distance of an axle.
pub type Axle = [u32; 2];

/// A survey's numbers.
#[derive(Clone, Debug, PartialEq, Eq)]
pub struct Survey {
    /// 1, or 2 where the members stand in one order.
    pub version: u16,
    /// The members of a bridge, by place.
    pub members: Vec<Member>,
}

/// A vehicle's numbers.
#[derive(Clone, Debug, PartialEq, Eq)]
pub struct Vehicle {
    /// 1, or 2 where a weight has four bytes.
    pub version: u16,
    /// Class and track.
    pub heading: [u16; 2],
    /// Front axle first.
    pub axles: Vec<Axle>,
}

/// What a file holds.
#[derive(Clone, Debug, PartialEq, Eq)]
pub enum Contents {
    /// A survey.
    Survey(Survey),
    /// A vehicle.
    Vehicle(Vehicle),
}

const SURVEY_HEADER: usize = 6;
const VEHICLE_HEADER: usize = 9;

/// A yard holds at most so many vehicles.
pub const MOST_VEHICLES: u8 = 32;

/// The whole records of `N` words behind a header.
fn records<const N: usize>(bytes: &[u8], header: usize) -> Vec<[u16; N]> {
    let word = |record: &[u8], i: usize| u16::from_le_bytes([record[2 * i], record[2 * i + 1]]);
    let record = |record: &[u8]| std::array::from_fn(|i| word(record, i));
    bytes.get(header..).unwrap_or_default().chunks_exact(2 * N).map(record).collect()
}

/// The members that stand in the bytes of a survey file, whatever its header says; none where it
/// is shorter than its header.
pub fn members(survey: &[u8]) -> Vec<Member> {
    records(survey, SURVEY_HEADER)
}

/// The survey that stands in the bytes of a survey file, whatever its version and count say; None
/// where it is shorter than its header.
pub fn survey(bytes: &[u8]) -> Option<Survey> {
    let [_, _, _, version @ .., _] = bytes.first_chunk::<SURVEY_HEADER>()?;
    Some(Survey { version: u16::from_le_bytes(*version), members: members(bytes) })
}

/// A number from its bytes, the lowest first.
fn number(bytes: &[u8]) -> u32 {
    bytes.iter().rev().fold(0, |number, byte| number << 8 | u32::from(*byte))
}

/// The whole axles behind a header, as this version has them.
fn axles(bytes: &[u8], version: u16) -> Vec<Axle> {
    let layout = AxleLayout::of(version);
    let axle = |axle: &[u8]| {
        let (weight, distance) = axle.split_at(layout.weight_bytes);
        [number(weight), number(distance)]
    };
    let behind = bytes.get(VEHICLE_HEADER..).unwrap_or_default();
    behind.chunks_exact(layout.bytes()).map(axle).collect()
}

/// The vehicle that stands in the bytes of a vehicle file, whatever its count says; None where it
/// is shorter than its header. A version that no vehicle has is read as the first.
pub fn vehicle(bytes: &[u8]) -> Option<Vehicle> {
    let [_, _, _, low, high, class, track @ .., _] = bytes.first_chunk::<VEHICLE_HEADER>()?;
    let version = u16::from_le_bytes([*low, *high]);
    let heading = [u16::from(*class), u16::from_le_bytes(*track)];
    Some(Vehicle { version, heading, axles: axles(bytes, version) })
}

/// Vehicle files joined to a yard, behind their number; None where that is above what a byte holds.
pub fn join_yard<T: AsRef<[u8]>>(vehicles: &[T]) -> Option<Vec<u8>> {
    let mut yard = vec![u8::try_from(vehicles.len()).ok()?];
    vehicles.iter().for_each(|file| yard.extend(file.as_ref()));
    Some(yard)
}

/// How long a vehicle file is by its own version and count; None where it is shorter than its
/// header.
fn vehicle_length(bytes: &[u8]) -> Option<usize> {
    let [_, _, _, low, high, .., axles] = bytes.first_chunk::<VEHICLE_HEADER>()?;
    let axle = AxleLayout::of(u16::from_le_bytes([*low, *high])).bytes();
    Some(VEHICLE_HEADER + axle * usize::from(*axles))
}

/// The vehicle files of a yard: as many as its first byte says, each as long as its own version and
/// count say, or all that is left where that is fewer. None where there is no such byte, or it says
/// that there are none or more than a yard holds.
pub fn split_yard(yard: &[u8]) -> Option<Vec<&[u8]>> {
    let (count, mut left) = yard.split_first()?;
    let mut files = Vec::new();
    for _ in 0..*count {
        let length = vehicle_length(left).unwrap_or(left.len());
        let (file, behind) = left.split_at(length.min(left.len()));
        files.push(file);
        left = behind;
    }
    (1..=MOST_VEHICLES).contains(count).then_some(files)
}

fn push_words<'a>(bytes: &mut Vec<u8>, words: impl IntoIterator<Item = &'a u16>) {
    bytes.extend(words.into_iter().flat_map(|word| word.to_le_bytes()));
}

/// The lowest so many bytes of a number, the lowest first; None where the others are not 0.
fn push_number(bytes: &mut Vec<u8>, number: u32, count: usize) -> Option<()> {
    let all = number.to_le_bytes();
    let (kept, beyond) = all.split_at(count);
    bytes.extend(kept);
    beyond.iter().all(|byte| *byte == 0).then_some(())
}

impl Contents {
    /// Which of the two files.
    pub fn which(&self) -> Which {
        match self {
            Contents::Survey(_) => Which::Survey,
            Contents::Vehicle(_) => Which::Vehicle,
        }
    }

    /// The version that is written.
    pub fn version(&self) -> u16 {
        match self {
            Contents::Survey(survey) => survey.version,
            Contents::Vehicle(vehicle) => vehicle.version,
        }
    }

    /// The number of members or axles.
    pub fn count(&self) -> usize {
        match self {
            Contents::Survey(survey) => survey.members.len(),
            Contents::Vehicle(vehicle) => vehicle.axles.len(),
        }
    }

    /// The file's bytes; None where its count or class is above what a byte holds, or a number of
    /// an axle above what its bytes do.
    pub fn bytes(&self) -> Option<Vec<u8>> {
        let count = u8::try_from(self.count()).ok()?;
        let mut bytes = self.which().layout().mark.to_vec();
        push_words(&mut bytes, &[self.version()]);
        match self {
            Contents::Survey(Survey { members, .. }) => {
                bytes.push(count);
                push_words(&mut bytes, members.iter().flatten());
            }
            Contents::Vehicle(Vehicle { version, heading: [class, track], axles }) => {
                bytes.push(u8::try_from(*class).ok()?);
                push_words(&mut bytes, &[*track]);
                bytes.push(count);
                let layout = AxleLayout::of(*version);
                for [weight, distance] in axles {
                    push_number(&mut bytes, *weight, layout.weight_bytes)?;
                    push_number(&mut bytes, *distance, layout.bytes() - layout.weight_bytes)?;
                }
            }
        }
        Some(bytes)
    }
}
