//! The library against the reference's fast twin and brute force, in one run on the same files, and
//! how the library's time grows with members, axles and the vehicles of a yard. `cargo bench` runs
//! it; docs/PERFORMANCE.md says what it measures, and how instructions are counted: with the words
//! `library AXLES CALLS` or `twin AXLES CALLS`, and a number of MEMBERS behind them where it is not
//! 64, or with `yard VEHICLES CALLS`, it makes so many calls and prints nothing.

use reference::generate::*;
use reference::layout::{HEAVY_AXLES, LIGHT_AXLES, MOST_MEMBERS, SPAN};
use reference::twin;
use std::hint::black_box;
use std::process::ExitCode;
use std::time::{Duration, Instant};

/// How much slower than the twin the library may be, with all members and axles.
const TWIN_LIMIT: f64 = 1.5;
/// How much longer than with 64 members a member may take with 255.
const MEMBER_LIMIT: f64 = 1.3;
/// How long a vehicle may take in a yard of 32, to one alone: less, as the survey is read but once.
const VEHICLE_LIMIT: f64 = 0.9;
/// Rounds of a comparison; the two take turns, and the fastest round of each counts, the one that
/// other programs disturbed least.
const ROUNDS: usize = 200;
/// So many members are rated in a round, few, so that it fits between two switches of the
/// processor; or one call is made.
const RATED: usize = 2560;
/// Rounds of one call of brute force.
const BRUTE_ROUNDS: usize = 5;
const SEED: u64 = 0xbe7c;
/// What the counts of instructions are made on, as they ever were.
const COUNTED_MEMBERS: usize = 64;
const MOST_AXLES: usize = 16;
const MOST_VEHICLES: usize = 32;

/// Time of one call, over so many.
fn time(calls: u32, call: &dyn Fn()) -> Duration {
    let start = Instant::now();
    for _ in 0..calls {
        call();
    }
    start.elapsed() / calls
}

fn micros(time: Duration) -> f64 {
    time.as_secs_f64() * 1e6
}

/// A call, and how many members it rates.
struct Rates<'a> {
    members: usize,
    call: &'a dyn Fn(),
}

/// Microseconds of one call each, taken in turns.
fn in_turns(two: [Rates; 2]) -> [f64; 2] {
    let mut fastest = [Duration::MAX; 2];
    for _ in 0..ROUNDS {
        for (fastest, Rates { members, call }) in fastest.iter_mut().zip(&two) {
            let calls = u32::try_from((RATED / members).max(1)).expect("few calls");
            *fastest = time(calls, call).min(*fastest);
        }
    }
    fastest.map(micros)
}

/// A survey of so many members, a vehicle, and the same vehicle in version 2, which is not measured.
struct Files {
    members: usize,
    survey: Vec<u8>,
    vehicle: Vec<u8>,
    heavy: Vec<u8>,
}

/// The vehicle of 16 axles: behind 64 members in the row of random numbers.
fn vehicle() -> VehicleWords {
    let mut random = Random::new(SEED);
    kinds_in_turn(&mut random, Spread::Usual, COUNTED_MEMBERS);
    vehicle_of(&mut random, LIGHT_AXLES, Spread::Usual, MOST_AXLES)
}

/// The first so many members, each of the greatest span, and the first so many axles.
fn files(members: usize, axles: usize) -> Files {
    let mut all = kinds_in_turn(&mut Random::new(SEED), Spread::Usual, members);
    all.iter_mut().for_each(|words| words[SPAN] = 5000);
    let mut vehicle = vehicle();
    vehicle.axles.truncate(axles);
    let heavy = vehicle_bytes(&VehicleWords { version: HEAVY_AXLES, ..vehicle.clone() });
    Files { members, survey: survey_bytes(&all), vehicle: vehicle_bytes(&vehicle), heavy }
}

impl Files {
    fn library(&self) {
        let _ = black_box(tbr::judge(black_box(&self.survey), black_box(&self.vehicle)));
    }

    fn twin(&self) {
        let _ = black_box(twin::judge(black_box(&self.survey), black_box(&self.vehicle)));
    }

    fn brute(&self) {
        let _ = black_box(reference::judge(black_box(&self.survey), black_box(&self.vehicle)));
    }

    /// The three give the same answer, in both versions of the vehicle.
    fn agree(&self) {
        let brute = reference::judge(&self.survey, &self.vehicle).expect("sound files");
        for vehicle in [&self.vehicle, &self.heavy] {
            let answer = tbr::judge(&self.survey, vehicle).expect("sound files");
            let expected = (brute.figure, brute.governing, brute.passes);
            assert_eq!((answer.figure, answer.governing, answer.passes), expected);
            assert_eq!(twin::judge(&self.survey, vehicle).as_ref(), Ok(&brute));
        }
    }

    /// Library, twin.
    fn compare(&self) -> [f64; 2] {
        self.agree();
        let rates = |call| Rates { members: self.members, call };
        in_turns([rates(&|| self.library()), rates(&|| self.twin())])
    }
}

/// The largest survey, and a yard of the vehicle so many times, so that each takes as long.
struct Yard {
    files: Files,
    vehicles: usize,
    yard: Vec<u8>,
}

fn yard_of(vehicles: usize) -> Yard {
    let files = files(MOST_MEMBERS, MOST_AXLES);
    let yard = joined(&vec![files.vehicle.clone(); vehicles]);
    Yard { files, vehicles, yard }
}

impl Yard {
    fn library(&self) {
        let _ = black_box(tbr::judge_yard(black_box(&self.files.survey), black_box(&self.yard)));
    }

    fn twin(&self) {
        let _ = black_box(twin::yard(black_box(&self.files.survey), black_box(&self.yard)));
    }

    /// Every answer is that of the vehicle alone.
    fn agree(&self) {
        let Files { survey, vehicle, .. } = &self.files;
        let alone = tbr::judge(survey, vehicle).expect("sound files");
        let judged = tbr::judge_yard(survey, &self.yard).expect("a sound yard");
        assert_eq!(judged.judgements, vec![alone; self.vehicles]);
        let twin = twin::yard(survey, &self.yard).expect("a sound yard");
        assert_eq!(twin, vec![twin::judge(survey, vehicle).expect("sound files"); self.vehicles]);
    }

    fn members(&self) -> usize {
        self.files.members * self.vehicles
    }

    /// Library, twin.
    fn compare(&self) -> [f64; 2] {
        self.agree();
        let rates = |call| Rates { members: self.members(), call };
        in_turns([rates(&|| self.library()), rates(&|| self.twin())])
    }
}

/// A table: library and twin by size, and the library's time for one of what there are so many of.
fn growth(name: &str, sizes: &[usize], compare: impl Fn(usize) -> [f64; 2]) {
    println!("\n{name:>8}  library, µs  twin, µs  ratio  library, µs each");
    for &size in sizes {
        let [library, twin] = compare(size);
        let (ratio, each) = (library / twin, library / size as f64);
        println!("{size:>8}  {library:>11.2}  {twin:>8.2}  {ratio:>5.2}  {each:>16.3}");
    }
}

/// The largest judgement by all three; how much longer than the twin the library takes.
fn largest() -> f64 {
    let largest = files(MOST_MEMBERS, MOST_AXLES);
    let [library, twin] = largest.compare();
    let brute = (0..BRUTE_ROUNDS).map(|_| time(1, &|| largest.brute())).min().unwrap_or_default();
    let (brute, ratio) = (micros(brute), library / twin);
    println!(
        "{MOST_MEMBERS} members, {MOST_AXLES} axles, one judgement (fastest of {ROUNDS} rounds):"
    );
    println!("  library      {library:>10.2} µs");
    println!("  fast twin    {twin:>10.2} µs   library / twin  {ratio:.2}");
    println!("  brute force  {brute:>10.2} µs   brute force / library  {:.0}", brute / library);
    ratio
}

/// How much longer a member takes with 255 members than with 64.
fn by_member() -> f64 {
    let [few, all] = [COUNTED_MEMBERS, MOST_MEMBERS].map(|members| files(members, MOST_AXLES));
    let [short, long] = in_turns([
        Rates { members: few.members, call: &|| few.library() },
        Rates { members: all.members, call: &|| all.library() },
    ]);
    long / all.members as f64 / (short / few.members as f64)
}

/// How much longer a vehicle takes in a yard of 32 than alone.
fn by_vehicle() -> f64 {
    let yard = yard_of(MOST_VEHICLES);
    let [alone, all] = in_turns([
        Rates { members: yard.files.members, call: &|| yard.files.library() },
        Rates { members: yard.members(), call: &|| yard.library() },
    ]);
    all / yard.vehicles as f64 / alone
}

/// Says a ratio, and whether it is within its limit.
fn within(name: &str, ratio: f64, limit: f64) -> bool {
    let within = ratio <= limit;
    let word = if within { "within" } else { "over" };
    println!("{name} {ratio:.2}: {word} the limit of {limit}");
    within
}

fn measure() -> ExitCode {
    let twin = largest();
    let members = [1, 2, 4, 8, 16, 32, 64, 128, MOST_MEMBERS];
    growth("members", &members, |members| files(members, MOST_AXLES).compare());
    growth("axles", &[1, 2, 4, 8, MOST_AXLES], |axles| files(MOST_MEMBERS, axles).compare());
    let vehicles = [1, 2, 4, 8, 16, MOST_VEHICLES];
    growth("vehicles", &vehicles, |vehicles| yard_of(vehicles).compare());
    println!();
    let all = [
        within("library / twin", twin, TWIN_LIMIT),
        within("a member of 255 / a member of 64", by_member(), MEMBER_LIMIT),
        within("a vehicle in a yard of 32 / a vehicle alone", by_vehicle(), VEHICLE_LIMIT),
    ];
    ExitCode::from(u8::from(all.contains(&false)))
}

/// The calls of the words behind the program's name, for a counter of instructions.
fn only_calls(words: &[String]) -> Option<()> {
    let (who, numbers) = words.split_first()?;
    let numbers: Vec<usize> =
        numbers.iter().map(|word| word.parse().ok()).collect::<Option<_>>()?;
    let (size, calls, members) = match numbers[..] {
        [size, calls] => (size, calls, COUNTED_MEMBERS),
        [size, calls, members] if who != "yard" => (size, calls, members),
        _ => return None,
    };
    match &who[..] {
        "library" => repeat(files(members, size), calls, Files::library),
        "twin" => repeat(files(members, size), calls, Files::twin),
        "yard" => repeat(yard_of(size), calls, Yard::library),
        _ => return None,
    }
    Some(())
}

fn repeat<T>(on: T, calls: usize, call: fn(&T)) {
    (0..calls).for_each(|_| call(&on));
}

fn main() -> ExitCode {
    let words: Vec<String> = std::env::args().skip(1).collect();
    match only_calls(&words) {
        Some(()) => ExitCode::SUCCESS,
        None => measure(),
    }
}
