//! Joins of two survey files: such as are taken, and such as are refused for every reason.

use super::between::{counted, misplaced, refused, some_files, unfit, Change, DamagedPair};
use super::disagree::{disagree, Disagreement};
use super::measured::{crossing, two_measured, two_measured_of};
use super::order::with_version;
use super::{full_survey, survey_bytes, survey_bytes_of, Random, Spread, NO_VERSIONS};
use crate::layout::{Words, FREE_ORDER, IN_ORDER, MOST_MEMBERS};
use crate::reader::SURVEY_HEADER;
use crate::script::MOST_BYTES;

/// Two survey files, and the bytes of the output.
#[derive(Clone)]
pub struct Join {
    pub first: Vec<u8>,
    pub second: Vec<u8>,
    pub room: usize,
}

/// A join with the refusal that it must have.
pub struct DamagedJoin {
    pub join: Join,
    pub number: u64,
    pub place: u64,
}

/// The bytes of a survey of so many members.
pub fn survey_length(members: usize) -> usize {
    SURVEY_HEADER + size_of::<Words>() * members
}

/// The output is as long as it has to be, or longer; seldom by much.
fn enough(random: &mut Random, least: usize) -> usize {
    let more = least + random.below(100);
    let longest = if random.once_in(8) { MOST_BYTES } else { more };
    *random.pick(&[least, least, least + 1, least + 32, more, longest]).min(&MOST_BYTES)
}

/// An output of any length, often too short: what comes before 14 comes whatever the output.
fn any_room(random: &mut Random) -> usize {
    let any = random.below(200);
    *random.pick(&[0, 0, SURVEY_HEADER, any, 38])
}

/// Each pair of versions.
const VERSIONS: [[u16; 2]; 4] =
    [[FREE_ORDER; 2], [FREE_ORDER, IN_ORDER], [IN_ORDER, FREE_ORDER], [IN_ORDER; 2]];

/// A join of so many members that is taken; the pairs of versions take turns by the number.
pub fn sound_join(random: &mut Random, turn: usize, members: usize) -> Join {
    let versions = VERSIONS[turn % VERSIONS.len()];
    let spread = *random.pick(&[Spread::Wide, Spread::Usual]);
    let ends = match random.below(8) {
        0 if members == 2 => crossing(random),
        _ => two_measured(random, spread, members, versions),
    };
    let [first, second] = [0, 1].map(|end| survey_bytes_of(versions[end], &ends[end]));
    Join { first, second, room: enough(random, survey_length(members)) }
}

/// Files whose header is at fault: short, its mark or version, its count, the length.
fn no_surveys(random: &mut Random) -> Vec<(Vec<u8>, u64)> {
    let [sound, _] = two_measured(random, Spread::Wide, 2, [IN_ORDER; 2]);
    let sound = survey_bytes_of(*random.pick(&[FREE_ORDER, IN_ORDER]), &sound);
    let with = |at: usize, byte: u8| [&sound[..at], &[byte], &sound[at + 1..]].concat();
    let cut = |length: usize| sound[..length].to_vec();
    let mut all: Vec<(Vec<u8>, u64)> = (0..SURVEY_HEADER).map(|length| (cut(length), 1)).collect();
    all.extend(NO_VERSIONS.map(|version| (with_version(&sound, version), 2)));
    all.extend([0, 1, 2].map(|at| (with(at, b'V'), 2)));
    all.push((with(SURVEY_HEADER - 1, 0), 3));
    all.extend([1, 3, 64, 65, 128, 254, 255].map(|count| (with(SURVEY_HEADER - 1, count), 1)));
    all.extend([SURVEY_HEADER, 38, sound.len() - 1].map(|length| (cut(length), 1)));
    all.push(([&sound[..], &[0]].concat(), 1));
    all
}

/// Each of these as the first survey, whatever the second, and as the second of a sound first one.
fn headers(random: &mut Random) -> Vec<DamagedPair> {
    let files = no_surveys(random);
    let [sound, _] = two_measured(random, Spread::Wide, 3, [FREE_ORDER; 2]);
    let sound = survey_bytes(&sound);
    let mut all = Vec::new();
    for (file, number) in &files {
        let (file, number, place) = (file.clone(), *number, 0);
        let other = [&sound, &random.pick(&files).0][random.below(2)].clone();
        all.push(DamagedPair { first: file.clone(), second: other, number, place });
        all.push(DamagedPair { first: sound.clone(), second: file, number, place });
    }
    all
}

/// Surveys that can be joined, with an output that is a byte too short, empty, or any such.
fn too_short(random: &mut Random) -> Vec<DamagedJoin> {
    let mut all = Vec::new();
    for (members, turn) in [1, 1, 2, 2, 3, 4, 65, MOST_MEMBERS].into_iter().zip(0..) {
        let sound = sound_join(random, turn, members);
        let least = survey_length(members);
        for room in [0, SURVEY_HEADER, least - 32, least - 1, random.below(least)] {
            all.push(DamagedJoin { join: Join { room, ..sound.clone() }, number: 14, place: 0 });
        }
    }
    all
}

/// Joins that are refused: two of the largest surveys in each way at each place, headers, and
/// outputs that are too short.
pub fn damaged_joins(random: &mut Random) -> Vec<DamagedJoin> {
    let members = full_survey(random, Spread::Wide);
    let both =
        [IN_ORDER, FREE_ORDER].map(|version| two_measured_of(random, &members, [version; 2]));
    let ways: (&[Disagreement], Change<Disagreement>) = (&Disagreement::ALL, disagree);
    let mut pairs = headers(random);
    for i in 0..members.len() {
        let sound = random.pick(&both);
        pairs.extend(unfit(random, sound, i, ways, Disagreement::number));
        pairs.extend(refused(random, sound, i));
        if i > 0 {
            pairs.extend(misplaced(random, sound, i));
            pairs.extend(counted(random, sound, i, ways, 18));
        }
    }
    let mut all = too_short(random);
    for DamagedPair { first, second, number, place } in pairs {
        all.push(DamagedJoin {
            join: Join { first, second, room: any_room(random) },
            number,
            place,
        });
    }
    all
}

/// A join of two surveys of up to so many members, then with records that cannot be joined, with
/// such as no survey has, or with other bytes. Some of them are taken still.
pub fn some_join(random: &mut Random, most: usize) -> Join {
    let (count, ordered) = (1 + random.below(most), !random.once_in(3));
    let spread = *random.pick(&[Spread::Wide, Spread::Usual]);
    let versions = [if ordered { IN_ORDER } else { FREE_ORDER }; 2];
    let [mut first, mut second] = two_measured(random, spread, count, versions);
    for (one, other) in first.iter_mut().zip(&mut second) {
        if random.once_in(count + 1) {
            let way = *random.pick(&Disagreement::ALL);
            disagree(random, one, other, way);
        }
    }
    let [first, second] = some_files(random, [first, second], ordered);
    let least = survey_length(count);
    let short = [0, least - 1, random.below(least)][random.below(3)];
    let room = if random.once_in(6) { short } else { enough(random, least) };
    Join { first, second, room }
}
