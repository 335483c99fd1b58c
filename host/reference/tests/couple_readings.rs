//! Lorry and trailer coupled: what the request could be taken for. The right reading is worked a
//! second time here; the generated couplings must show each wrong one, and so must the stored
//! cases, by what is printed.

mod couplings;
mod readings;
#[macro_use]
mod wrong;

use couplings::{said, Said};
use readings::hold;
use reference::generate::*;
use reference::judge::loaded_at;
use reference::script::halves;
use reference::{reader, twin, Axle, Member, Vehicle};

readings! {
    // A gap that is left out is also one that stands behind the second vehicle.
    OF_AXLES:
        GapLeftOut GapDoubled GapOneMore GapOneLess GapOfOneByte GapFromTheFront
        GapAtTheFirstsLast GapAtTheSecondsNext
        SecondInFront FirstTurnedRound SecondTurnedRound
        FirstAlone SecondAlone LastOfTheFirstLost FirstOfTheSecondLost;
    OF_FILES:
        FirstVersionOnly VersionOfTheFirst LowerHalfOfWeights HeavyTo60000
        PlaceBehindTheFirst;
    OF_TESTS:
        ClassNotCompared TrackNotCompared BothMustDiffer
        NoGapTaken Gap2001Taken GapFree Gap1Refused Gap2000Refused
        SevenAtPlaceOne SevenAtTheSecondsFirst ThreeAtPlaceOne ThreeAtTheSeventeenth
        SeventeenTaken SixteenRefused AxlesFree CountOfTheSecondAlone
        SecondBeforeFirst SevenBeforeSecond SevenFirst ThreeBeforeSeven ThreeBeforeSecond;
    OF_SESSIONS:
        RefusedDropsVehicle RefusedLoadsFirst RefusedDropsSurvey
        TakenIsNotLoaded TakenDropsSurvey NeedsSurvey NeedsVehicle;
}

use Wrong::*;

type Fault = (u64, u64);

/// A file as the call reads it.
fn read(wrong: Option<Wrong>, file: &[u8], first: &[u8]) -> Result<Vehicle, Fault> {
    let version = |file: &[u8]| file.get(3).map_or(1, |&version| version.into());
    let read = match wrong {
        Some(FirstVersionOnly) => reader::vehicle_of_version(file, 1),
        Some(VersionOfTheFirst) => reader::vehicle_of_version(file, version(first)),
        _ => reader::vehicle(file),
    };
    let mut vehicle = read.map_err(|refused| (refused.number, refused.place))?;
    if wrong == Some(LowerHalfOfWeights) {
        vehicle.axles.iter_mut().for_each(|axle| axle.weight %= 65_536);
    }
    let heavy = vehicle.axles.iter().zip(1..).find(|(axle, _)| axle.weight > 60_000);
    match heavy {
        Some((_, place)) if wrong == Some(HeavyTo60000) => Err((7, place)),
        _ => Ok(vehicle),
    }
}

/// The count in a file's header.
fn count(file: &[u8]) -> usize {
    file.get(8).map_or(0, |&count| count.into())
}

/// The refusal of the second file.
fn of_second(wrong: Option<Wrong>, call: &Coupling) -> Option<Fault> {
    let (number, place) = read(wrong, &call.second, &call.first).err()?;
    let before =
        if wrong == Some(PlaceBehindTheFirst) && place > 0 { count(&call.first) } else { 0 };
    Some((number, place + before as u64))
}

/// 7 for class, track or gap, by the bytes of both files, whether they are acceptable or not.
fn seven(wrong: Option<Wrong>, Coupling { first, second, gap }: &Coupling) -> Option<Fault> {
    let class = first.get(5) != second.get(5);
    let track = first.get(6..8) != second.get(6..8);
    let differ = match wrong {
        Some(ClassNotCompared) => track,
        Some(TrackNotCompared) => class,
        Some(BothMustDiffer) => class && track,
        _ => class || track,
    };
    let (least, most) = match wrong {
        Some(NoGapTaken) => (0, 2000),
        Some(Gap2001Taken) => (1, 2001),
        Some(GapFree) => (0, u16::MAX),
        Some(Gap1Refused) => (2, 2000),
        Some(Gap2000Refused) => (1, 1999),
        _ => (1, 2000),
    };
    let place = match wrong {
        Some(SevenAtPlaceOne) => 1,
        Some(SevenAtTheSecondsFirst) => count(first) as u64 + 1,
        _ => 0,
    };
    (differ || *gap < least || *gap > most).then_some((7, place))
}

/// 3 for too many axles, by the headers of both files.
fn three(wrong: Option<Wrong>, call: &Coupling) -> Option<Fault> {
    let axles = match wrong {
        Some(CountOfTheSecondAlone) => count(&call.second),
        _ => count(&call.first) + count(&call.second),
    };
    let most = match wrong {
        Some(SeventeenTaken) => 17,
        Some(SixteenRefused) => 15,
        Some(AxlesFree) => usize::MAX,
        _ => 16,
    };
    let place = match wrong {
        Some(ThreeAtPlaceOne) => 1,
        Some(ThreeAtTheSeventeenth) => 17,
        _ => 0,
    };
    (axles > most).then_some((3, place))
}

/// The same axles, the last in front.
fn turned_round(axles: &[Axle]) -> Vec<Axle> {
    let distances = std::iter::once(0).chain(axles[1..].iter().rev().map(|axle| axle.distance));
    let turned = axles.iter().rev().zip(distances);
    turned.map(|(axle, distance)| Axle { distance, ..*axle }).collect()
}

/// The distance of the second's first axle.
fn distance(wrong: Option<Wrong>, first: &[Axle], gap: u16) -> u16 {
    let length: u16 = first.iter().map(|axle| axle.distance).sum();
    match wrong {
        Some(GapLeftOut | GapAtTheFirstsLast | GapAtTheSecondsNext) => 0,
        Some(GapDoubled) => 2 * gap,
        Some(GapOneMore) => gap + 1,
        Some(GapOneLess) => gap - 1,
        Some(GapOfOneByte) => gap % 256,
        Some(GapFromTheFront) => gap.saturating_sub(length),
        _ => gap,
    }
}

/// The axles of both, front to back.
fn axles(wrong: Option<Wrong>, mut first: Vec<Axle>, mut second: Vec<Axle>, gap: u16) -> Vec<Axle> {
    match wrong {
        Some(SecondInFront) => std::mem::swap(&mut first, &mut second),
        Some(FirstTurnedRound) => first = turned_round(&first),
        Some(SecondTurnedRound) => second = turned_round(&second),
        Some(LastOfTheFirstLost) => first.truncate((first.len() - 1).max(1)),
        Some(FirstOfTheSecondLost) if second.len() > 1 => drop(second.remove(0)),
        Some(FirstAlone) => return first,
        Some(SecondAlone) => return second,
        _ => {}
    }
    second[0].distance = distance(wrong, &first, gap);
    let late = match wrong {
        Some(GapAtTheFirstsLast) => first.last_mut(),
        Some(GapAtTheSecondsNext) => second.get_mut(1),
        _ => None,
    };
    late.into_iter().for_each(|axle| axle.distance += gap);
    [first, second].concat()
}

/// A coupling in one wrong way or rightly.
fn coupled(wrong: Option<Wrong>, call: &Coupling) -> Said {
    let own = read(wrong, &call.first, &call.first);
    let mut tests = [own.err(), of_second(wrong, call), seven(wrong, call), three(wrong, call)];
    match wrong {
        Some(SecondBeforeFirst) => tests.swap(0, 1),
        Some(SevenBeforeSecond) => tests.swap(1, 2),
        Some(SevenFirst) => tests[..3].rotate_right(1),
        Some(ThreeBeforeSeven) => tests.swap(2, 3),
        Some(ThreeBeforeSecond) => tests[1..].rotate_right(1),
        _ => {}
    }
    if let Some(fault) = tests.into_iter().flatten().next() {
        return Err(fault);
    }
    let first = read(wrong, &call.first, &call.first)?;
    let second = read(wrong, &call.second, &call.first)?;
    let axles = axles(wrong, first.axles, second.axles, call.gap);
    Ok(Vehicle { axles, ..first })
}

/// Couplings as the tests of the program have them.
#[test]
fn wrong_readings_are_seen() {
    let mut random = Random::new(0x0d13_2001);
    let mut all = Vec::new();
    for round in 0..4000 {
        all.push(sound_coupling(&mut random, round, Spread::Wide));
        all.push(some_coupling(&mut random));
    }
    all.extend(damaged_couplings(&mut random).into_iter().map(|damaged| damaged.coupling));
    let wrongs = [OF_AXLES, OF_FILES, OF_TESTS].concat();
    hold(&all, &wrongs, said, coupled);
}

/// A step of a script: its letter, its number, and its bytes where it has any.
struct Step<'a> {
    letter: u8,
    number: u16,
    body: &'a [u8],
}

fn steps(mut script: &[u8]) -> Vec<Step<'_>> {
    let mut steps = Vec::new();
    while let Some((&[letter, low, high], behind)) = script.split_first_chunk() {
        let number = u16::from_le_bytes([low, high]);
        let length = if b"NRJ".contains(&letter) { 0 } else { number.into() };
        let (body, behind) = behind.split_at(length);
        steps.push(Step { letter, number, body });
        script = behind;
    }
    steps
}

/// What is loaded in the course of a script.
#[derive(Default)]
struct Session {
    survey: Option<Vec<Member>>,
    vehicle: Option<Vehicle>,
}

impl Session {
    fn rate(&self, place: u16) -> String {
        let answer = match loaded_at(self.survey.as_deref(), self.vehicle.as_ref(), place.into()) {
            Ok((member, vehicle)) => {
                let rated = twin::rate(member, vehicle);
                let verdict = if rated.passes() { "pass" } else { "refuse" };
                format!("{} {} {verdict} {}", rated.permitted, rated.vehicle, rated.margin())
            }
            Err(number) => format!("refused {number} at 0"),
        };
        format!("rate {place} {answer}")
    }

    /// What is lost beside what is right, as a coupling is taken or refused.
    fn lose(&mut self, wrong: Option<Wrong>, call: &Coupling, taken: bool) {
        match wrong {
            Some(RefusedDropsVehicle) if !taken => self.vehicle = None,
            Some(RefusedLoadsFirst) if !taken => {
                self.vehicle = reader::vehicle(&call.first).ok().or(self.vehicle.take());
            }
            Some(RefusedDropsSurvey) if !taken => self.survey = None,
            Some(TakenDropsSurvey) if taken => self.survey = None,
            _ => {}
        }
    }

    fn couple(&mut self, wrong: Option<Wrong>, call: &Coupling) -> String {
        let missing = match wrong {
            Some(NeedsSurvey) if self.survey.is_none() => Some((11, 0)),
            Some(NeedsVehicle) if self.vehicle.is_none() => Some((12, 0)),
            _ => None,
        };
        let answer = missing.map_or_else(|| coupled(wrong, call), Err);
        self.lose(wrong, call, answer.is_ok());
        match answer {
            Ok(vehicle) if wrong != Some(TakenIsNotLoaded) => self.vehicle = Some(vehicle),
            Ok(_) => {}
            Err((number, place)) => return format!("couple refused {number} at {place}"),
        }
        "couple taken".to_string()
    }

    /// What is printed of a step that rates or couples.
    fn run(&mut self, wrong: Option<Wrong>, step: &Step) -> Option<String> {
        match step.letter {
            b'N' => *self = Session::default(),
            b'S' => self.survey = reader::survey(step.body).ok().or(self.survey.take()),
            b'V' => self.vehicle = reader::vehicle(step.body).ok().or(self.vehicle.take()),
            b'R' => return Some(self.rate(step.number)),
            b'K' => {
                let (gap, [first, second]) = halves(step.body)?;
                let call = Coupling { first: first.to_vec(), second: second.to_vec(), gap };
                return Some(self.couple(wrong, &call));
            }
            _ => {}
        }
        None
    }
}

fn stored(name: &str) -> Vec<u8> {
    let folder = concat!(env!("CARGO_MANIFEST_DIR"), "/../../crates/cases/");
    std::fs::read(format!("{folder}{name}")).expect("a stored file")
}

/// The stored script from its first coupling's session on, and what rates and couplings print.
#[test]
fn wrong_readings_are_seen_in_the_stored_cases() {
    let (script, text) = (stored("stdin"), stored("stdout"));
    let (steps, text) = (steps(&script), String::from_utf8(text).expect("text"));
    let coupling = steps.iter().position(|step| step.letter == b'K').expect("a coupling");
    let start = steps[..coupling].iter().rposition(|step| step.letter == b'N').expect("a session");
    let before = steps[..start].iter().filter(|step| step.letter == b'R').count();
    let lines =
        text.lines().filter(|line| line.starts_with("rate ") || line.starts_with("couple "));
    let lines: Vec<&str> = lines.skip(before).collect();
    let printed = |wrong| {
        let mut session = Session::default();
        let lines = steps[start..].iter().filter_map(|step| session.run(wrong, step));
        lines.collect::<Vec<String>>()
    };
    assert_eq!(printed(None), lines);
    for wrong in [OF_AXLES, OF_FILES, OF_TESTS, OF_SESSIONS].concat() {
        let printed = printed(Some(wrong));
        let seen = printed.iter().zip(&lines).filter(|(one, other)| one != other).count();
        println!("{wrong:?}: {seen}");
        assert!(seen > 0, "{wrong:?} is not seen in the stored cases");
    }
}
