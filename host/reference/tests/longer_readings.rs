//! Longer trestles: what the request could be taken for. The right reading is worked a second time
//! here, record by record, and the generated calls must show each wrong one.

mod raw;
mod readings;

use raw::raw;
use readings::hold;
use reference::between::is_worn;
use reference::generate::*;
use reference::layout::*;
use reference::script::{Script, MOST_BYTES, MOST_ENTRIES};
use reference::{join, reader, twin, Rated, Vehicle};

/// The enum and a list of its cases.
macro_rules! wrong {
    ($($case:ident,)*) => {
        /// What the request could be taken for, and is not.
        #[derive(Clone, Copy, Debug, PartialEq, Eq)]
        enum Wrong { $($case,)* }

        const WRONG: &[Wrong] = &[$(Wrong::$case,)*];
    };
}

wrong! {
    LimitStill64,
    LimitOfASignedByte,
    LimitOf180,
    LimitOf254,
    NoneTaken,
    OldRefusalOfFaultyRecords,
    OldRefusalOfALength,
    LengthOf64,
    LeftOverTaken,
    PlaceCutAt64,
    PlaceModulo64,
    RecordsBehind64Unread,
    OrderBehind64Free,
    MembersBehind64Lost,
    PlacesUpTo64,
    PlaceOfOneByte,
    ListOf128,
    ListOfOneByte,
    LoadsOf64Written,
    FigureOf64,
    GoverningOf64,
    BehindThe64thNotCompared,
    OutputOf64,
    JoinedCountCut,
}

use Wrong::*;

/// What is asked of the loaded survey, the vehicle being loaded.
enum Ask {
    Rate(usize),
    Judge(usize),
    Between(Vec<u8>, usize),
    Join(Vec<u8>, usize),
}

struct Call {
    survey: Vec<u8>,
    ask: Ask,
}

/// One axle, as brute force is dear.
const AXLE: [u32; 2] = [4000, 0];

fn lorry() -> VehicleWords {
    VehicleWords { version: LIGHT_AXLES, class: 0, track: 190, axles: vec![AXLE] }
}

/// What the script has for the call.
fn by_the_reference(call: &Call) -> String {
    let mut script = Script::default();
    script.vehicle(&vehicle_bytes(&lorry()));
    script.survey(&call.survey);
    match &call.ask {
        Ask::Rate(place) => script.rate(*place),
        Ask::Judge(entries) => script.judge(*entries),
        Ask::Between(second, entries) => script.between(&call.survey, second, *entries),
        Ask::Join(second, room) => script.join(&call.survey, second, *room),
    }
    script.text
}

/// Number and place.
type Refusal = (u64, u64);

fn place_of(wrong: Option<Wrong>, place: usize) -> u64 {
    let place = match wrong {
        Some(PlaceCutAt64) => place.min(64),
        Some(PlaceModulo64) => (place - 1) % 64 + 1,
        _ => place,
    };
    place as u64
}

/// The refusal of a header, in the document's order: 3, then 1.
fn header(wrong: Option<Wrong>, bytes: &[u8]) -> Option<Refusal> {
    let count = usize::from(bytes[5]);
    let most = match wrong {
        Some(LimitStill64) => 64,
        Some(LimitOfASignedByte) => 127,
        Some(LimitOf180) => 180,
        Some(LimitOf254) => 254,
        _ => 255,
    };
    if count > most || count == 0 && wrong != Some(NoneTaken) {
        return Some((3, 0));
    }
    let many = count > 64;
    let length = 6 + 32 * if wrong == Some(LengthOf64) { count.min(64) } else { count };
    match wrong {
        Some(LeftOverTaken) if many && bytes.len() > length => None,
        Some(OldRefusalOfALength) if many && bytes.len() != length => Some((3, 0)),
        _ => (bytes.len() != length).then_some((1, 0)),
    }
}

/// The first record that no survey of one member has, or the first before its predecessor.
fn record_fault(wrong: Option<Wrong>, version: u8, records: &[Words]) -> Option<Refusal> {
    let own = |record: &Words| reader::records(&survey_bytes(&[*record])).err();
    let read = if wrong == Some(RecordsBehind64Unread) { 64 } else { records.len() };
    let mut faults = records.iter().take(read).zip(1..);
    if let Some((fault, place)) = faults.find_map(|(record, place)| Some((own(record)?, place))) {
        return match wrong {
            Some(OldRefusalOfFaultyRecords) if records.len() > 64 => Some((3, 0)),
            _ => Some((fault.number, place_of(wrong, place))),
        };
    }
    let compared = if wrong == Some(OrderBehind64Free) { 64 } else { records.len() };
    let late = |&i: &usize| standing(&records[i]) < standing(&records[i - 1]);
    let late = (1..records.len().min(compared)).find(late).filter(|_| version == 2)?;
    Some((16, place_of(wrong, late + 1)))
}

/// The members that are loaded.
fn load(wrong: Option<Wrong>, bytes: &[u8]) -> Result<Vec<Words>, Refusal> {
    let mut records = raw(bytes);
    let refusal = header(wrong, bytes).or_else(|| record_fault(wrong, bytes[3], &records));
    if wrong == Some(MembersBehind64Lost) {
        records.truncate(64);
    }
    refusal.map_or(Ok(records), Err)
}

fn vehicle() -> Vehicle {
    reader::vehicle(&vehicle_bytes(&lorry())).expect("a sound vehicle")
}

fn loads(members: &[Words]) -> Vec<Rated> {
    members.iter().map(|words| twin::rate(&reader::member(words), &vehicle())).collect()
}

fn verdict(passes: bool) -> &'static str {
    ["refuse", "pass"][usize::from(passes)]
}

fn refused((number, place): Refusal) -> String {
    format!("refused {number} at {place}")
}

/// The list with these numbers in front.
fn list(entries: usize, numbers: &[u64]) -> String {
    let known = (1_000_000..).take(entries).skip(numbers.len());
    let all = numbers.iter().copied().take(entries).chain(known);
    all.fold("list".to_string(), |list, entry| format!("{list} {entry}"))
}

/// Is a list of so many entries too short?
fn too_short(wrong: Option<Wrong>, entries: usize, members: usize) -> bool {
    let least = match wrong {
        Some(ListOf128) => (2 * members).min(128),
        Some(ListOfOneByte) => (2 * members) & 255,
        _ => 2 * members,
    };
    entries < least
}

fn rate(wrong: Option<Wrong>, members: &[Words], place: usize) -> String {
    let most = if wrong == Some(PlacesUpTo64) { 64 } else { 255 };
    let at = if wrong == Some(PlaceOfOneByte) { place & 255 } else { place };
    let member = at.checked_sub(1).filter(|i| *i < most).and_then(|i| members.get(i));
    let answer = member.map_or(refused((13, 0)), |words| {
        let rated = loads(&[*words])[0];
        let (permitted, vehicle) = (rated.permitted, rated.vehicle);
        format!("{permitted} {vehicle} {} {}", verdict(rated.passes()), rated.margin())
    });
    format!("rate {place} {answer}\n")
}

fn judge(wrong: Option<Wrong>, members: &[Words], entries: usize) -> String {
    if too_short(wrong, entries, members.len()) {
        return format!("judge {}\n{}\n", refused((14, 0)), list(entries, &[]));
    }
    let loads = loads(members);
    let first = |cut: Wrong| &loads[..loads.len().min(if wrong == Some(cut) { 64 } else { 255 })];
    let figure = first(FigureOf64).iter().map(|rated| rated.permitted).min().unwrap_or(0);
    let places = first(GoverningOf64).iter().zip(1..).map(|(rated, place)| (rated.margin(), place));
    let (margin, governing) = places.min().unwrap_or((0, 0));
    let passes = loads.iter().all(|rated| rated.passes());
    let written = first(LoadsOf64Written).iter().flat_map(|rated| [rated.permitted, rated.vehicle]);
    let list = list(entries, &written.collect::<Vec<_>>());
    format!("judge {figure} {governing} {} {margin}\n{list}\n", verdict(passes))
}

fn between(wrong: Option<Wrong>, ends: [&[Words]; 2], entries: usize) -> String {
    let compared = if wrong == Some(BehindThe64thNotCompared) { 64 } else { 255 };
    let mut pairs = ends[0].iter().zip(ends[1]).take(compared);
    let fault = match pairs.position(|(one, other)| !is_worn(one, other)) {
        Some(i) => Some((15, place_of(wrong, i + 1))),
        None => too_short(wrong, entries, ends[0].len()).then_some((14, 0)),
    };
    if let Some(fault) = fault {
        return format!("between {}\n{}\n", refused(fault), list(entries, &[]));
    }
    let [first, second] = ends.map(loads);
    let bounds =
        first.iter().zip(&second).flat_map(|(one, other)| [other.permitted, one.permitted]);
    let bounds: Vec<u64> = bounds.collect();
    let word = match [&first, &second].map(|loads| loads.iter().all(|rated| rated.passes())) {
        [true, true] => "all",
        [false, false] => "none",
        _ => "undecided",
    };
    format!("between {word}\n{}\n", list(entries, &bounds))
}

fn joined(wrong: Option<Wrong>, first: &[u8], second: &[u8], room: usize) -> String {
    let members = usize::from(first[5]);
    let least = survey_length(if wrong == Some(OutputOf64) { members.min(64) } else { members });
    let mut buffer = vec![0xee; room];
    let answer = if room < least {
        refused((14, 0))
    } else {
        let mut bytes = join(first, second, MOST_BYTES).expect("two surveys of one bridge");
        if wrong == Some(JoinedCountCut) {
            bytes[5] = bytes[5].min(64);
        }
        buffer.iter_mut().zip(&bytes).for_each(|(place, byte)| *place = *byte);
        bytes.len().to_string()
    };
    let hex: String = buffer.iter().map(|byte| format!("{byte:02x}")).collect();
    format!("join {answer}\nbytes {hex}\n")
}

/// The call read in one wrong way or, without one, rightly.
fn said(wrong: Option<Wrong>, call: &Call) -> String {
    let (loaded, survey) = match load(wrong, &call.survey) {
        Ok(members) => ("survey taken".to_string(), Ok(members)),
        Err(fault) => (format!("survey {}", refused(fault)), Err(fault)),
    };
    let answer = match (&call.ask, survey) {
        (Ask::Rate(place), Err(_)) => format!("rate {place} {}\n", refused((11, 0))),
        (Ask::Rate(place), Ok(members)) => rate(wrong, &members, *place),
        (Ask::Judge(n), Err(_)) => format!("judge {}\n{}\n", refused((11, 0)), list(*n, &[])),
        (Ask::Judge(entries), Ok(members)) => judge(wrong, &members, *entries),
        (Ask::Between(_, n), Err(fault)) => {
            format!("between {}\n{}\n", refused(fault), list(*n, &[]))
        }
        (Ask::Between(second, n), Ok(members)) => between(wrong, [&members, &raw(second)], *n),
        (Ask::Join(..), Err(fault)) => format!("join {}\nbytes\n", refused(fault)),
        (Ask::Join(second, room), Ok(_)) => joined(wrong, &call.survey, second, *room),
    };
    format!("vehicle taken\n{loaded}\n{answer}")
}

const SIZES: [usize; 14] = [1, 2, 63, 64, 65, 66, 127, 128, 129, 180, 181, 253, 254, MOST_MEMBERS];

/// Sound surveys of this size in either version, with lists and places at every edge.
fn sound(random: &mut Random, count: usize) -> Vec<Call> {
    let members = bearing_survey(random, count);
    let survey = some_version(random, &members);
    let places = [1, 64, 65, 128, count, count + 1, 256 + count];
    let entries = [2 * count - 1, 2 * count, (2 * count + 1).min(MOST_ENTRIES), 128, 254];
    let asks = places.map(Ask::Rate).into_iter().chain(entries.map(Ask::Judge));
    asks.map(|ask| Call { survey: survey.clone(), ask }).collect()
}

/// Two surveys of one bridge: worn, or with one span that differs; and one survey with itself, with
/// outputs that just hold it and just do not.
fn two(random: &mut Random, count: usize) -> Vec<Call> {
    let members = kinds_in_turn(random, Spread::Usual, count);
    let mut second = worn(random, &members);
    let survey = survey_bytes(&members);
    let mut calls = Vec::new();
    for entries in [2 * count - 1, 2 * count] {
        let ask = Ask::Between(survey_bytes(&second), entries);
        calls.push(Call { survey: survey.clone(), ask });
    }
    second[random.below(count)][SPAN] += 1;
    let ask = Ask::Between(survey_bytes(&second), 2 * count);
    calls.push(Call { survey: survey.clone(), ask });
    for room in [survey_length(count) - 1, survey_length(count), survey_length(count) + 1] {
        calls.push(Call { survey: survey.clone(), ask: Ask::Join(survey.clone(), room) });
    }
    calls
}

/// Files that are refused: a byte too little or too much, another count, none, and one record that
/// no survey has or that stands before its predecessor.
fn faulty(random: &mut Random, count: usize) -> Vec<Call> {
    let members = in_order(&alike_survey(random, Spread::Usual, count));
    let sound = survey_bytes_of(IN_ORDER, &members);
    let counted = |count: usize| [&sound[..5], &count.to_le_bytes()[..1], &sound[6..]].concat();
    let mut files = vec![sound[..sound.len() - 1].to_vec(), [&sound[..], &[0]].concat()];
    files.extend([counted(count - 1), counted((count + 1).min(255)), counted(0)]);
    files.push(counted(0)[..6].to_vec());
    for place in [1 + random.below(count), count, count.min(65)] {
        let mut faulty = members.clone();
        let word = *random.pick(&[KIND, SPECIES, SECTION]);
        faulty[place - 1][word] = 9;
        files.push(survey_bytes(&faulty));
        let mut late = members.clone();
        if place > 1 && misplace(random, &mut late, place - 1, Misplaced::Span) {
            files.push(survey_bytes_of(IN_ORDER, &late));
        }
    }
    files.into_iter().map(|survey| Call { survey, ask: Ask::Judge(2) }).collect()
}

#[test]
fn wrong_readings_are_seen() {
    let mut random = Random::new(0x0c12_0001);
    let mut all = Vec::new();
    for count in SIZES.into_iter().cycle().take(4 * SIZES.len()) {
        all.extend(sound(&mut random, count));
        all.extend(two(&mut random, count));
        all.extend(faulty(&mut random, count));
    }
    hold(&all, WRONG, by_the_reference, said);
}
