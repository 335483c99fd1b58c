//! Heavier axles: what the request could be taken for. The right reading is worked a second time
//! here, and the generated files, yards and conversions must show each wrong one.

mod readings;
#[macro_use]
mod wrong;

use readings::hold;
use reference::generate::*;
use reference::{convert, reader, yard::vehicles, Refused, Vehicle};

readings! {
    OF_VEHICLES:
        LowerHalf ThreeBytes HalvesExchanged BytesTurned
        HeavyTo60000 HeavyTo65535 HeavyWithoutLimit LightTo65535
        SecondVersionRefused ThirdVersionTaken LowByteOfVersion
        FourBytesAnAxle WidthByTheLength;
    OF_YARDS:
        CutByFour CutBySix;
    OF_CONVERSIONS:
        OwnVersionTaken VersionBehindCount VersionBehindLength VersionBeforeShortHeader
        BackTo65535 BackUnlimited
        SeventeenAtTheLast SeventeenAtNoPlace SeventeenBeforeTheAxles
        FourteenBeforeSeventeen FourteenFirst RoomOfTheFile RoomForMore;
}

use Wrong::*;

/// Class, track, and the weight and distance of each axle.
type Read = (u8, u16, Vec<(u32, u16)>);
type Fault = (u64, u64);

fn read_of(vehicle: &Vehicle) -> Read {
    let axles = vehicle.axles.iter().map(|axle| (axle.weight, axle.distance));
    (vehicle.class, vehicle.track, axles.collect())
}

fn word(bytes: &[u8], at: usize) -> u16 {
    u16::from(bytes[at]) + 256 * u16::from(bytes[at + 1])
}

/// The version as it is read, or none of those that are allowed.
fn version(wrong: Option<Wrong>, bytes: &[u8], allowed: &[u16]) -> Option<u16> {
    let said = match word(bytes, 3) {
        257 | 258 if wrong == Some(LowByteOfVersion) => word(bytes, 3) - 256,
        3 if wrong == Some(ThirdVersionTaken) => 2,
        2 if wrong == Some(SecondVersionRefused) => 0,
        said => said,
    };
    (&bytes[..3] == b"TBV" && allowed.contains(&said)).then_some(said)
}

fn axle_width(wrong: Option<Wrong>, version: u16, bytes: &[u8]) -> usize {
    let by_length = (bytes.len() - 9).checked_div(bytes[8].into()).unwrap_or(4);
    match wrong {
        Some(FourBytesAnAxle) => 4,
        Some(WidthByTheLength) if by_length == 4 || by_length == 6 => by_length,
        _ if version == 2 => 6,
        _ => 4,
    }
}

fn weight(wrong: Option<Wrong>, bytes: &[u8]) -> u32 {
    let each = bytes.iter().zip([1u64, 1 << 8, 1 << 16, 1 << 24]);
    let weight: u64 = each.map(|(&byte, worth)| worth * u64::from(byte)).sum();
    let weight = u32::try_from(weight).expect("four bytes");
    match wrong {
        _ if bytes.len() == 2 => weight,
        Some(LowerHalf) => weight % 65_536,
        Some(ThreeBytes) => weight % (1 << 24),
        Some(HalvesExchanged) => weight.rotate_left(16),
        Some(BytesTurned) => weight.swap_bytes(),
        _ => weight,
    }
}

fn greatest(wrong: Option<Wrong>, width: usize) -> u32 {
    match (width, wrong) {
        (6, Some(HeavyTo60000)) => 60_000,
        (6, Some(HeavyTo65535)) | (4, Some(LightTo65535)) => 65_535,
        (6, Some(HeavyWithoutLimit)) => u32::MAX,
        (6, _) => 200_000,
        _ => 60_000,
    }
}

/// The header's faults in their turn, by what is wrong.
fn header(wrong: Option<Wrong>, bytes: &[u8], allowed: &[u16]) -> Result<usize, Fault> {
    if bytes.len() < 9 {
        let seen = bytes.len() >= 5 && version(wrong, bytes, allowed).is_none();
        let early = wrong == Some(VersionBeforeShortHeader) && seen;
        return Err((if early { 2 } else { 1 }, 0));
    }
    let version = version(wrong, bytes, allowed);
    let width = axle_width(wrong, version.unwrap_or(word(bytes, 3)), bytes);
    let count = usize::from(bytes[8]);
    let faults = [
        (2, version.is_none()),
        (3, !(1..=16).contains(&count)),
        (1, bytes.len() != 9 + width * count),
    ];
    let order = match wrong {
        Some(VersionBehindCount) => [1, 0, 2],
        Some(VersionBehindLength) => [1, 2, 0],
        _ => [0, 1, 2],
    };
    match order.into_iter().find(|&i| faults[i].1) {
        Some(i) => Err((faults[i].0, 0)),
        None => Ok(width),
    }
}

/// A vehicle read in one wrong way or rightly, where these versions are allowed.
fn read(wrong: Option<Wrong>, bytes: &[u8], allowed: &[u16]) -> Result<Read, Fault> {
    let width = header(wrong, bytes, allowed)?;
    let (class, track) = (bytes[5], word(bytes, 6));
    if class > 1 || !(100..=300).contains(&track) {
        return Err((7, 0));
    }
    let mut axles = Vec::new();
    for (place, axle) in (1..).zip(bytes[9..].chunks(width)) {
        let (weight, distance) = (weight(wrong, &axle[..width - 2]), word(axle, width - 2));
        let near = if place == 1 { distance == 0 } else { (1..=2000).contains(&distance) };
        if weight < 1 || weight > greatest(wrong, width) || !near {
            return Err((7, place));
        }
        axles.push((weight, distance));
    }
    Ok((class, track, axles))
}

/// The vehicles of a yard, cut in one wrong way or rightly.
fn read_yard(wrong: Option<Wrong>, yard: &[u8]) -> Result<Vec<Read>, Fault> {
    let (&count, mut left) = yard.split_first().ok_or((1, 0))?;
    if !(1..=32).contains(&count) {
        return Err((3, 0));
    }
    let mut all = Vec::new();
    for _ in 0..count {
        let width = match wrong {
            Some(CutByFour) => 4,
            Some(CutBySix) => 6,
            _ if left.len() > 4 && word(left, 3) == 2 => 6,
            _ => 4,
        };
        let own = left.get(8).map_or(left.len(), |&axles| 9 + width * usize::from(axles));
        let (file, behind) = left.split_at(own.min(left.len()));
        all.push(read(None, file, &VERSIONS)?);
        left = behind;
    }
    if left.is_empty() {
        Ok(all)
    } else {
        Err((1, 0))
    }
}

fn written(read: &Read, version: u16) -> Vec<u8> {
    let (class, track, axles) = read;
    let mut bytes = vec![b'T', b'B', b'V', version.to_le_bytes()[0], 0, *class];
    bytes.extend(track.to_le_bytes());
    bytes.push(u8::try_from(axles.len()).expect("at most 16 axles"));
    for (weight, distance) in axles {
        bytes.extend(&weight.to_le_bytes()[..if version == 2 { 4 } else { 2 }]);
        bytes.extend(distance.to_le_bytes());
    }
    bytes
}

/// The place of an axle that is too heavy to go back.
fn too_heavy(wrong: Option<Wrong>, axles: &[(u32, u16)]) -> Option<u64> {
    let most = match wrong {
        Some(BackTo65535) => 65_535,
        Some(BackUnlimited) => u32::MAX,
        _ => 60_000,
    };
    let mut places = (1..).zip(axles).filter(|(_, axle)| axle.0 > most).map(|(place, _)| place);
    match wrong {
        Some(SeventeenAtTheLast) => places.last(),
        Some(SeventeenAtNoPlace) => places.next().map(|_| 0),
        _ => places.next(),
    }
}

/// The axles of a file of version 2 as they stand, whether they are acceptable or not.
fn raw_axles(file: &[u8]) -> Vec<(u32, u16)> {
    let axles = file.get(9..).unwrap_or(&[]).chunks_exact(6);
    axles.map(|axle| (weight(None, &axle[..4]), word(axle, 4))).collect()
}

/// A conversion in one wrong way or rightly.
fn converted(wrong: Option<Wrong>, conversion: &Conversion) -> Result<Vec<u8>, Fault> {
    let Conversion { wanted, file, room } = conversion;
    let (wanted, room) = (u16::from(*wanted), *room);
    let own = [3 - wanted, wanted];
    let allowed = if wrong == Some(OwnVersionTaken) { &own[..] } else { &own[..1] };
    if wrong == Some(FourteenFirst) {
        let axles = usize::from(file.get(8).copied().unwrap_or(0));
        if room < 9 + [4, 6][usize::from(wanted - 1)] * axles {
            return Err((14, 0));
        }
    }
    if wrong == Some(SeventeenBeforeTheAxles) && header(None, file, &own[..1]).is_ok() {
        let early = too_heavy(None, &raw_axles(file)).filter(|_| wanted == 1);
        early.map_or(Ok(()), |place| Err((17, place)))?;
    }
    let read = read(wrong, file, allowed)?;
    let bytes = written(&read, wanted);
    let least = match wrong {
        Some(RoomOfTheFile) => file.len(),
        Some(RoomForMore) => bytes.len() + 1,
        _ => bytes.len(),
    };
    let heavy = too_heavy(wrong, &read.2).filter(|_| wanted == 1).map(|place| (17, place));
    let short = (room < least).then_some((14, 0));
    let fault = match wrong {
        Some(FourteenBeforeSeventeen) => short.or(heavy),
        _ => heavy.or(short),
    };
    fault.map_or(Ok(bytes), Err)
}

fn fault(refused: Refused) -> Fault {
    (refused.number, refused.place)
}

/// Vehicle files as the tests of the library have them.
#[test]
fn wrong_readings_of_a_vehicle_are_seen() {
    let mut random = Random::new(0x09ea_1001);
    let mut files = Vec::new();
    for round in 0..3000 {
        files.push(some_damage(&mut random).1);
        let axles = 1 + round % 16;
        files.push(vehicle_bytes(&vehicle(&mut random, Spread::Wide, axles)));
    }
    for _ in 0..4 {
        let all = [damaged_vehicles(&mut random), wrong_versions(&mut random)];
        files.extend(all.into_iter().flatten().map(|damaged| damaged.vehicle));
        let all = [wrong_lengths(&mut random), wrong_weights(&mut random)];
        files.extend(all.into_iter().flatten().map(|damaged| damaged.vehicle));
    }
    let reference = |file: &Vec<u8>| reader::vehicle(file).map(|v| read_of(&v)).map_err(fault);
    hold(&files, OF_VEHICLES, reference, |wrong, file| read(wrong, file, &VERSIONS));
}

#[test]
fn wrong_readings_of_a_yard_are_seen() {
    let mut random = Random::new(0x09ea_1002);
    let mut yards = Vec::new();
    for round in 0..2000 {
        yards.push(some_yard_damage(&mut random, 6));
        yards.push(yard_bytes(&yard(&mut random, Spread::Wide, 1 + round % 32, 4)));
    }
    let reference = |bytes: &Vec<u8>| {
        let read = vehicles(bytes).map_err(fault)?;
        Ok(read.iter().map(read_of).collect::<Vec<Read>>())
    };
    hold(&yards, OF_YARDS, reference, |wrong, yard| read_yard(wrong, yard));
}

#[test]
fn wrong_readings_of_a_conversion_are_seen() {
    let mut random = Random::new(0x09ea_1003);
    let mut all = Vec::new();
    for round in 0..2000 {
        all.push(sound_conversion(&mut random, round));
        all.push(some_conversion(&mut random));
    }
    for _ in 0..4 {
        let damaged = damaged_conversions(&mut random).into_iter();
        all.extend(damaged.map(|damaged| damaged.conversion));
    }
    let reference = |conversion: &Conversion| {
        let Conversion { wanted, file, room } = conversion;
        convert(file, u16::from(*wanted), *room).map_err(fault)
    };
    hold(&all, OF_CONVERSIONS, reference, converted);
}
