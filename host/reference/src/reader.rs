//! Bytes to members and axles, or the first fault in the document's order of tests.

use crate::layout::*;

/// Which file: a yard is vehicle files joined.
#[derive(Clone, Copy, Debug, PartialEq, Eq)]
pub enum File {
    Survey,
    Vehicle,
    Yard,
}

/// A refused file: the number of the document's list and the place.
#[derive(Clone, Copy, Debug, PartialEq, Eq)]
pub struct Refused {
    pub file: File,
    pub number: u64,
    pub place: u64,
}

/// A member of the bridge by the document's letters. A closely spaced stringer has its deck in x
/// (boards), h (their thickness), a (their width) and b (deck rot).
#[derive(Clone, Copy, Debug)]
pub struct Member {
    pub kind: u16,
    pub species: u16,
    pub l: u16,
    pub d: u16,
    pub x: u16,
    pub h: u16,
    pub q: u16,
    pub code: u16,
    pub s: [u16; 6],
    pub a: u16,
    pub b: u16,
}

/// An axle: weight in kgf and distance in cm from the axle in front.
#[derive(Clone, Copy, Debug, PartialEq, Eq)]
pub struct Axle {
    pub weight: u32,
    pub distance: u16,
}

/// A vehicle, front axle first. It does not keep the version of its file: "A vehicle rates alike in
/// both versions."
#[derive(Clone, Debug, PartialEq, Eq)]
pub struct Vehicle {
    pub class: u8,
    pub track: u16,
    pub axles: Vec<Axle>,
}

/// How a file begins: its mark, the bytes before the records, the most records, and the bytes of
/// each in a version.
struct Form {
    mark: &'static [u8; 3],
    header: usize,
    most: usize,
    each: fn(u16) -> usize,
}

const SURVEY: Form =
    Form { mark: b"TBR", header: SURVEY_HEADER, most: MOST_MEMBERS, each: |_| RECORD };
const VEHICLE: Form =
    Form { mark: b"TBV", header: VEHICLE_HEADER, most: MOST_AXLES, each: axle_bytes };

/// The bytes of a survey before its records; the last of them is their count.
pub const SURVEY_HEADER: usize = 6;

/// The bytes of a survey's record.
const RECORD: usize = size_of::<Words>();

/// The bytes of a vehicle before its axles; the last of them is their count.
pub const VEHICLE_HEADER: usize = 9;

/// The versions of a survey and of a vehicle.
const SURVEY_VERSIONS: [u16; 2] = [FREE_ORDER, IN_ORDER];
const VEHICLE_VERSIONS: [u16; 2] = [LIGHT_AXLES, HEAVY_AXLES];

fn word(bytes: &[u8], at: usize) -> u16 {
    u16::from_le_bytes([bytes[at], bytes[at + 1]])
}

fn within(value: u16, least: u16, greatest: u16) -> bool {
    least <= value && value <= greatest
}

/// Tests 1 (too short for the header), 2 (another mark, or a version that is none of these), 3, 1
/// in that order; the version and the count where all are passed.
fn header(bytes: &[u8], form: &Form, versions: &[u16]) -> Result<(u16, usize), u64> {
    if bytes.len() < form.header {
        return Err(1);
    }
    let version = word(bytes, 3);
    if bytes[..3] != form.mark[..] || !versions.contains(&version) {
        return Err(2);
    }
    let count = usize::from(bytes[form.header - 1]);
    if count < 1 || count > form.most {
        return Err(3);
    }
    if bytes.len() != form.header + (form.each)(version) * count {
        return Err(1);
    }
    Ok((version, count))
}

/// The first fault of a record: 4, 5, 6, 8, 7.
fn record_fault(w: &Words) -> Option<u64> {
    let (kind, code) = (w[KIND], w[SECTION]);
    if !within(kind, 1, LAST_KIND) {
        return Some(4);
    }
    if has_species(kind) && !within(w[SPECIES], 1, 8) {
        return Some(5);
    }
    if !sections(kind).contains(&code) {
        return Some(6);
    }
    let may_differ = used_words(kind, code);
    if (0..w.len()).any(|i| may_differ >> i & 1 == 0 && w[i] != 0) {
        return Some(8);
    }
    let outside = used(kind, code).any(|&(i, least, greatest)| !within(w[i], least, greatest));
    let beyond_span = in_truss(kind) && w[FROM_SUPPORT] >= w[SPAN];
    let above_whole = is_joint(kind) && w[PART_A] > w[WHOLE_B];
    if outside || beyond_span || above_whole {
        return Some(7);
    }
    None
}

/// A record by the document's letters.
pub fn member(w: &Words) -> Member {
    Member {
        kind: w[KIND],
        species: w[SPECIES],
        l: w[SPAN],
        d: w[SPACING],
        x: w[FROM_SUPPORT],
        h: w[TRUSS_HEIGHT],
        q: w[DEAD_LOAD],
        code: w[SECTION],
        s: [w[S1], w[S2], w[S3], w[S4], w[S5], w[S6]],
        a: w[PART_A],
        b: w[WHOLE_B],
    }
}

/// The place of the first record that stands before its predecessor; "equals stand as they come".
fn misplaced(records: &[Words]) -> Option<u64> {
    let mut pairs = records.windows(2).zip(2..);
    pairs.find(|(pair, _)| standing(&pair[1]) < standing(&pair[0])).map(|(_, later)| later)
}

/// A survey file's records as they stand. "16: a record before its predecessor; place of the later
/// one; after all records are otherwise good." "Version 1 keeps free order."
pub fn records(bytes: &[u8]) -> Result<Vec<Words>, Refused> {
    let refused = |number, place| Refused { file: File::Survey, number, place };
    let (version, count) =
        header(bytes, &SURVEY, &SURVEY_VERSIONS).map_err(|number| refused(number, 0))?;
    let mut records = Vec::with_capacity(count);
    for (record, place) in bytes[SURVEY.header..].chunks_exact((SURVEY.each)(version)).zip(1..) {
        let words: Words = std::array::from_fn(|i| word(record, 2 * i));
        if let Some(number) = record_fault(&words) {
            return Err(refused(number, place));
        }
        records.push(words);
    }
    if version >= IN_ORDER {
        if let Some(place) = misplaced(&records) {
            return Err(refused(16, place));
        }
    }
    Ok(records)
}

/// A survey file's members.
pub fn survey(bytes: &[u8]) -> Result<Vec<Member>, Refused> {
    Ok(records(bytes)?.iter().map(member).collect())
}

/// An axle as it stands in this version: a weight of two or four bytes, then the distance.
fn axle(record: &[u8], version: u16) -> Axle {
    let (weight, distance) = record.split_at(record.len() - 2);
    let weight = match version {
        HEAVY_AXLES => u32::from_le_bytes([weight[0], weight[1], weight[2], weight[3]]),
        _ => word(weight, 0).into(),
    };
    Axle { weight, distance: word(distance, 0) }
}

/// A vehicle file's class, track and axles, where only these versions are allowed: any other is
/// refusal 2.
fn vehicle_of(bytes: &[u8], versions: &[u16]) -> Result<Vehicle, Refused> {
    let refused = |number, place| Refused { file: File::Vehicle, number, place };
    let (version, count) =
        header(bytes, &VEHICLE, versions).map_err(|number| refused(number, 0))?;
    let (class, track) = (bytes[5], word(bytes, 6));
    if class > 1 || !within(track, 100, 300) {
        return Err(refused(7, 0));
    }
    let mut axles = Vec::with_capacity(count);
    for (record, place) in bytes[VEHICLE.header..].chunks_exact((VEHICLE.each)(version)).zip(1..) {
        let axle = axle(record, version);
        let (least, greatest) = if place == 1 { (0, 0) } else { (1, 2000) };
        let bearable = (1..=heaviest(version)).contains(&axle.weight);
        if !bearable || !within(axle.distance, least, greatest) {
            return Err(refused(7, place));
        }
        axles.push(axle);
    }
    Ok(Vehicle { class, track, axles })
}

/// "Both versions are read."
pub fn vehicle(bytes: &[u8]) -> Result<Vehicle, Refused> {
    vehicle_of(bytes, &VEHICLE_VERSIONS)
}

/// Only this version is read, the one that a converter goes from.
pub fn vehicle_of_version(bytes: &[u8], version: u16) -> Result<Vehicle, Refused> {
    vehicle_of(bytes, &[version])
}
